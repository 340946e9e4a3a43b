// Files of C.
%{ open Syntax %}
%start <unit> translation_unit
%%

translation_unit: external_declaration+ EOF { () }

external_declaration: function_definition | declaration { () }

function_definition: declaration_specifiers declarator declaration* block { () }
