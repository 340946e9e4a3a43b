// Statements, with `;` after each.
%start <unit> script
%%

script: terminated(statement, ";")* EOF { () }

statement:
| query { () }
| INSERT INTO NAME ioption(in_parentheses(commas(NAME))) query { () }
| INSERT INTO NAME DEFAULT VALUES { () }
| UPDATE NAME SET commas(separated_pair(NAME, "=", expression)) where { () }
| DELETE FROM NAME where { () }
| CREATE TABLE unless_there NAME in_parentheses(commas(element)) { () }
| CREATE TABLE unless_there NAME AS query { () }
| CREATE ioption(UNIQUE) INDEX unless_there NAME ON NAME in_parentheses(commas(indexed)) { () }
| CREATE VIEW NAME ioption(in_parentheses(commas(NAME))) AS query { () }
| DROP kind ioption(if_there) NAME { () }
| ALTER TABLE NAME ADD ioption(COLUMN) definition { () }

kind: TABLE | INDEX | VIEW { () }

if_there: IF EXISTS { () }

unless_there: boption(unless) { () }

unless: IF NOT EXISTS { () }

indexed: NAME ioption(direction) { () }

element:
| definition { () }
| ioption(preceded(CONSTRAINT, NAME)) table_constraint { () }

definition: NAME type_name column_constraint* { () }

column_constraint:
| NOT NULL | PRIMARY KEY | UNIQUE { () }
| DEFAULT literal { () }
| CHECK in_parentheses(expression) { () }
| references { () }

table_constraint:
| PRIMARY KEY in_parentheses(commas(NAME)) { () }
| UNIQUE in_parentheses(commas(NAME)) { () }
| FOREIGN KEY in_parentheses(commas(NAME)) references { () }
| CHECK in_parentheses(expression) { () }

references: REFERENCES NAME ioption(in_parentheses(commas(NAME))) { () }
