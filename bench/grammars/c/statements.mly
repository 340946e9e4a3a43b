// Statements. An ELSE goes to the nearest IF.
%nonassoc THEN
%nonassoc ELSE
%%

statement:
| IDENTIFIER ":" statement { () }
| CASE conditional ":" statement { () }
| DEFAULT ":" statement { () }
| block { () }
| expression? ";" { () }
| IF condition statement %prec THEN { () }
| IF condition statement ELSE statement { () }
| SWITCH condition statement { () }
| WHILE condition statement { () }
| DO statement WHILE condition ";" { () }
| FOR "(" expression? ";" expression? ";" expression? ")" statement { () }
| FOR "(" declaration expression? ";" expression? ")" statement { () }
| GOTO IDENTIFIER ";" { () }
| CONTINUE ";" { () }
| BREAK ";" { () }
| RETURN expression? ";" { () }

%inline condition: delimited("(", expression, ")") { () }

%public block: "{" block_item* "}" { () }

block_item: declaration | statement { () }
