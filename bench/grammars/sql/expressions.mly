// Conditions, and the operands between their words.
%left OR
%left AND
%nonassoc NOT
%left "+" "-"
%left "*" "/" "%"
%left "||"
%nonassoc SIGN
%%

%public expression:
| predicate { () }
| NOT expression { () }
| expression AND expression { () }
| expression OR expression { () }

predicate:
| operand { () }
| operand comparison operand { () }
| operand IS ioption(NOT) NULL { () }
| operand ioption(NOT) LIKE operand { () }
| operand ioption(NOT) BETWEEN operand AND operand { () }
| operand ioption(NOT) IN in_parentheses(members) { () }
| EXISTS in_parentheses(query) { () }

comparison: "=" | "<>" | "<" | ">" | "<=" | ">=" { () }

members:
| query { () }
| commas(expression) { () }

operand:
| literal { () }
| "?" { () }
| column { () }
| "-" operand %prec SIGN | "+" operand %prec SIGN { () }
| operand sign operand { () }
| function_name = NAME "(" arguments ")" { () }
| CAST in_parentheses(separated_pair(expression, AS, type_name)) { () }
| CASE ioption(operand) nonempty_list(branch) ioption(preceded(ELSE, expression)) END { () }
| in_parentheses(expression) { () }
| in_parentheses(query) { () }

%inline sign: "+" | "-" | "*" | "/" | "%" | "||" { () }

branch: WHEN expression THEN expression { () }

arguments:
| { () }
| "*" { () }
| ioption(DISTINCT) commas(expression) { () }

%public column:
| NAME { () }
| NAME "." NAME { () }

%public literal: INTEGER | DECIMAL | STRING | TRUE | FALSE | NULL { () }

%public type_name: NAME ioption(in_parentheses(commas(INTEGER))) { () }

%public %inline in_parentheses(X): "(" x = X ")" { x }

%public %inline commas(X): xs = separated_nonempty_list(",", X) { xs }
