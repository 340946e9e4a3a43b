// Lua 5.4. A call goes on as far as it can: `f` and `(g)` on the next line are one call.
%token <string> NAME STRING
%token <float> NUMBER
%token AND BREAK DO ELSE ELSEIF END FALSE FOR FUNCTION GOTO IF IN LOCAL NIL NOT OR REPEAT RETURN THEN TRUE UNTIL WHILE
%token PLUS "+" MINUS "-" STAR "*" SLASH "/" SLASH_SLASH "//" PERCENT "%" CARET "^" HASH "#" AMPERSAND "&" TILDE "~"
%token BAR "|" SHIFT_LEFT "<<" SHIFT_RIGHT ">>" EQUAL "==" NOT_EQUAL "~=" LESS_EQUAL "<=" GREATER_EQUAL ">=" LESS "<"
%token GREATER ">" ASSIGN "=" LPAREN "(" RPAREN ")" LBRACE "{" RBRACE "}" LBRACKET "[" RBRACKET "]" COLON_COLON "::"
%token SEMICOLON ";" COLON ":" COMMA "," DOT "." DOT_DOT ".." DOTS "..." EOF

%nonassoc END_OF_CALL
%nonassoc "("
%left OR
%left AND
%left "<" ">" "<=" ">=" "~=" "=="
%left "|"
%left "~"
%left "&"
%left "<<" ">>"
%right ".."
%left "+" "-"
%left "*" "/" "//" "%"
%nonassoc SIGN
%right "^"

%start <unit> chunk
%%

chunk: block EOF { () }

block: statement* ioption(return) { () }

return: RETURN separated_list(",", expression) ioption(";") { () }

statement:
| ";" { () }
| targets = separated_nonempty_list(",", target) "=" values = expressions { () }
| primary call_suffixes { () }
| "::" NAME "::" { () }
| BREAK { () }
| GOTO NAME { () }
| DO block END { () }
| WHILE expression DO block END { () }
| REPEAT block UNTIL expression { () }
| IF expression THEN block preceded(ELSEIF, separated_pair(expression, THEN, block))* ioption(preceded(ELSE, block)) END { () }
| FOR NAME "=" expression "," expression ioption(preceded(",", expression)) DO block END { () }
| FOR names IN expressions DO block END { () }
| FUNCTION function_name body { () }
| LOCAL FUNCTION NAME body { () }
| LOCAL separated_nonempty_list(",", attributed) ioption(preceded("=", expressions)) { () }

attributed: NAME ioption(delimited("<", NAME, ">")) { () }

function_name: separated_nonempty_list(".", NAME) ioption(preceded(":", NAME)) { () }

names:
| NAME { () }
| names "," NAME { () }

expressions: separated_nonempty_list(",", expression) { () }

target:
| NAME { () }
| primary index_suffixes { () }

primary:
| NAME { () }
| "(" expression ")" { () }

%inline suffix: index | call { () }

index:
| "[" expression "]" { () }
| "." NAME { () }

call: ioption(preceded(":", NAME)) arguments { () }

arguments:
| "(" separated_list(",", expression) ")" { () }
| table { () }
| STRING { () }

call_suffixes:
| call %prec END_OF_CALL { () }
| suffix call_suffixes { () }

index_suffixes:
| index { () }
| suffix index_suffixes { () }

suffixes:
| %prec END_OF_CALL { () }
| suffix suffixes { () }

expression:
| NIL | FALSE | TRUE | NUMBER | STRING | "..." { () }
| FUNCTION body { () }
| primary suffixes { () }
| table { () }
| left = expression operator right = expression { () }
| unary_operator expression %prec SIGN { () }

%inline operator:
| OR | AND | "<" | ">" | "<=" | ">=" | "~=" | "==" | "|" | "~" | "&" | "<<" | ">>" | ".." | "+" | "-" | "*" | "/" | "//" | "%" | "^" { () }

%inline unary_operator: "-" | NOT | "#" | "~" { () }

body: "(" parameters ")" block END { () }

parameters:
| { () }
| "..." { () }
| names | names "," "..." { () }

table: "{" fields "}" { () }

fields:
| ioption(field) { () }
| field separator fields { () }

separator: "," | ";" { () }

field:
| "[" expression "]" "=" expression { () }
| NAME "=" expression { () }
| expression { () }
