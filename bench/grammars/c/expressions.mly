// Expressions: levels for the signs between two operands, rules for the rest.
%left "||"
%left "&&"
%left "|"
%left "^"
%left "&"
%left "==" "!="
%left "<" ">" "<=" ">="
%left "<<" ">>"
%left "+" "-"
%left "*" "/" "%"
%%

%public expression:
| assignment { () }
| expression "," assignment { () }

%public assignment:
| conditional { () }
| unary "=" assignment { () }
| unary "+=" assignment { () }

%public conditional:
| binary { () }
| binary "?" expression ":" conditional { () }

binary:
| cast { () }
| left = binary sign = binary_sign right = binary { () }

%inline binary_sign:
| "||" | "&&" | "|" | "^" | "&" | "==" | "!=" | "<" | ">" | "<=" | ">=" | "<<" | ">>" | "+" | "-" | "*" | "/" | "%" { () }

cast:
| unary { () }
| "(" type_name ")" cast { () }

unary:
| postfix { () }
| "++" unary | "--" unary { () }
| unary_sign cast { () }
| SIZEOF unary { () }
| SIZEOF "(" type_name ")" { () }

%inline unary_sign: "&" | "*" | "+" | "-" | "~" | "!" { () }

postfix:
| primary { () }
| postfix "[" expression "]" { () }
| postfix "(" arguments = separated_list(",", assignment) ")" { () }
| postfix "." IDENTIFIER | postfix "->" IDENTIFIER { () }
| postfix "++" | postfix "--" { () }

primary:
| IDENTIFIER | CONSTANT { () }
| STRING+ { () }
| "(" expression ")" { () }
