/* The rules of the small language. A program is a sequence of functions and statements. A query is one expression, for
   example for a debugger. Both end with EOF, so the parser refuses an input that ends too early at EOF. */

%start <unit> program query

/* On a token that cannot continue an expression, the parser completes the expression and refuses the token only then.
   So the refusal comes in the state that knows what the expression is for: a condition, an argument, a value. Without
   this line the refusal would come inside the expression, in one of many states, and none of them would know that. */
%on_error_reduce expression

%%

program:
| item* EOF                                             {}

query:
| expression EOF                                        {}

item:
| function_definition                                   {}
| statement                                             {}

function_definition:
| "fun" NAME "(" separated_list(",", NAME) ")" block    {}

block:
| "{" statement* "}"                                    {}

statement:
| "let" NAME "=" expression ";"                         {}
| NAME "=" expression ";"                               {}
| expression ";"                                        {}
| "return" expression? ";"                              {}
| "while" expression block                              {}
| conditional                                           {}

conditional:
| "if" expression block                                 {}
| "if" expression block "else" block                    {}
| "if" expression block "else" conditional              {}

expression:
| INT                                                   {}
| STRING                                                {}
| "true"                                                {}
| "false"                                               {}
| NAME                                                  {}
| NAME "(" separated_list(",", expression) ")"          {}
| "(" expression ")"                                    {}
| "-" expression %prec prefix                           {}
| "!" expression %prec prefix                           {}
| expression "*" expression                             {}
| expression "/" expression                             {}
| expression "+" expression                             {}
| expression "-" expression                             {}
| expression comparison expression %prec EQ             {}
| expression "&&" expression                            {}
| expression "||" expression                            {}

/* The comparisons are a rule of their own, so one state, and one message, serves all six. */
comparison:
| "==" {} | "!=" {} | "<" {} | "<=" {} | ">" {} | ">=" {}
