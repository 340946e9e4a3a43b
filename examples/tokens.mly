/* The tokens of the small language, and the levels of its operators. */

/* The lexer gives ILLEGAL for each character that begins no token. No rule uses ILLEGAL, so the parser refuses it
   everywhere, whatever is added to the language. ILLEGAL is declared first, and so the list of errors prefers it to all
   other tokens: nearly all sentences of the messages file end with it, and they stay right while the language grows. */
%token ILLEGAL

/* Most tokens have a spelling after their name. A rule may use either. */
%token <int> INT
%token <string> NAME STRING
%token TRUE "true" FALSE "false"
%token FUN "fun" LET "let" RETURN "return"
%token IF "if" ELSE "else" WHILE "while"
%token LPAREN "(" RPAREN ")" LBRACE "{" RBRACE "}"
%token COMMA "," SEMI ";" ASSIGN "="
%token OR "||" AND "&&" NOT "!"
%token EQ "==" NE "!=" LE "<=" GE ">=" LT "<" GT ">"
%token PLUS "+" MINUS "-" TIMES "*" DIVIDE "/"
%token EOF

/* The levels of the operators: the last level binds tightest. Two comparisons in a row are refused. */
%left OR
%left AND
%nonassoc EQ NE LE GE LT GT
%left PLUS MINUS
%left TIMES DIVIDE
%nonassoc prefix

%%
