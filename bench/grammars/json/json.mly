// JSON texts.
%{ open Json %}
%token <string> STRING
%token <float> NUMBER
%token TRUE FALSE NULL
%token LBRACE "{" RBRACE "}" LBRACKET "[" RBRACKET "]" COLON ":" COMMA "," EOF
%start <unit> text
%%

text: value EOF { () }

value:
| "{" members = separated_list(",", member) "}" { Object members }
| "[" values = separated_list(",", value) "]" { Array values }
| s = STRING { String s }
| n = NUMBER { Number n }
| TRUE { Bool true }
| FALSE { Bool false }
| NULL { Null }

member: key = STRING ":" v = value { (key, v) }
