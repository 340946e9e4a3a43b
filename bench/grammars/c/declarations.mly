// Declarations and declarators.
%%

%public declaration: declaration_specifiers separated_list(",", init_declarator) ";" { () }

%public declaration_specifiers: specifier+ { () }

specifier:
| TYPEDEF | EXTERN | STATIC | AUTO | REGISTER | INLINE { () }
| type_specifier | qualifier { () }

type_specifier:
| VOID | CHAR | SHORT | INT | LONG | FLOAT | DOUBLE | SIGNED | UNSIGNED | TYPE_NAME { () }
| record { () }
| ENUM ioption(IDENTIFIER) "{" enumerators ioption(",") "}" { () }
| ENUM IDENTIFIER { () }

qualifier: CONST | VOLATILE { () }

record:
| record_kind ioption(IDENTIFIER) "{" field+ "}" { () }
| record_kind IDENTIFIER { () }

record_kind: STRUCT | UNION { () }

field: specifier_qualifier+ separated_nonempty_list(",", field_declarator) ";" { () }

specifier_qualifier: type_specifier | qualifier { () }

field_declarator:
| declarator { () }
| ioption(declarator) ":" conditional { () }

enumerators:
| enumerator { () }
| enumerators "," enumerator { () }

enumerator:
| IDENTIFIER { () }
| IDENTIFIER "=" conditional { () }

init_declarator:
| declarator { () }
| declarator "=" initializer_ { () }

initializer_:
| assignment { () }
| "{" initializers ioption(",") "}" { () }

initializers:
| designated { () }
| initializers "," designated { () }

designated: ioption(terminated(designator+, "=")) initializer_ { () }

designator:
| "[" conditional "]" { () }
| "." IDENTIFIER { () }

%public declarator: ioption(pointer) direct_declarator { () }

pointer: "*" qualifier* ioption(pointer) { () }

direct_declarator:
| IDENTIFIER { () }
| "(" declarator ")" { () }
| direct_declarator "[" conditional? "]" { () }
| direct_declarator "(" parameters ")" { () }
| direct_declarator "(" separated_list(",", IDENTIFIER) ")" { () }

parameters:
| parameter_list { () }
| parameter_list "," "..." { () }

parameter_list:
| parameter { () }
| parameter_list "," parameter { () }

parameter:
| declaration_specifiers declarator { () }
| declaration_specifiers ioption(abstract_declarator) { () }

%public type_name: specifier_qualifier+ ioption(abstract_declarator) { () }

abstract_declarator:
| pointer { () }
| ioption(pointer) direct_abstract_declarator { () }

direct_abstract_declarator:
| "(" abstract_declarator ")" { () }
| ioption(direct_abstract_declarator) "[" conditional? "]" { () }
| ioption(direct_abstract_declarator) "(" ioption(parameters) ")" { () }
