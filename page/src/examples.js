// The examples that the page offers, each with its files, a mode, and an input.

const EXAMPLES = [
  {
    title: 'expressions', mode: '--interpret', input: 'INT PLUS INT TIMES INT EOF\nLP INT RP EOF\nINT RP\nINT PLUS\n',
    sentence: 'INT PLUS LP INT RP EOF',
    files: [{ name: 'calc.mly', use: 'grammar', text: `%token ILLEGAL
%token INT PLUS TIMES LP RP EOF
%on_error_reduce e
%start <unit> main
%%
main: e EOF {}
e: e PLUS t {} | t {}
t: t TIMES a {} | a {}
a: INT {} | LP e RP {}
` }],
  },
  {
    title: 'a messages file for an older grammar', mode: '--rebase-errors', input: '', sentence: 'A B END',
    files: [{ name: 'renamed.mly', use: 'grammar', text: `%token A B END
%start <unit> s
%%
s: A END {}
 | A B END {}
` }, { name: 'old.messages', use: 'messages', text: `s: EOF

Expected A.
Nothing else begins a sentence.

s: A A

Expected EOF.
` }],
  },
  {
    title: 'a conflict: the dangling else', mode: '--explain', input: '', sentence: 'IF E THEN IF E THEN E ELSE E EOF',
    files: [{ name: 'dangling.mly', use: 'grammar', text: `%token IF THEN ELSE E EOF
%start <unit> s
%%
s: e EOF {}
e: E {} | IF E THEN e {} | IF E THEN e ELSE e {}
` }],
  },
  {
    title: 'two files, and lists', mode: '--interpret', sentence: 'LET NAME EQ INT SEMI EOF',
    input: 'LET NAME EQ INT PLUS INT SEMI EOF\nPRINT LP INT COMMA NAME RP SEMI EOF\nPRINT SEMI\n',
    files: [{ name: 'tokens.mly', use: 'grammar', text: `%token ILLEGAL
%token <string> NAME
%token <int> INT
%token LET EQ PRINT PLUS COMMA SEMI LP RP EOF
%left PLUS
%%
` }, { name: 'rules.mly', use: 'grammar', text: `%start <unit> program
%%
program: list(terminated(statement, SEMI)) EOF {}
statement:
  LET NAME EQ expression {}
| PRINT delimited(LP, separated_list(COMMA, expression), RP) {}
expression:
  INT {}
| NAME {}
| expression PLUS expression {}
` }],
  },
];
