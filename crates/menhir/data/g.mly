%token A EOF
%start s
%%
s: A EOF {}
