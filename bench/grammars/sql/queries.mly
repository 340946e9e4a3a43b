// Queries.
%left UNION EXCEPT
%left INTERSECT
%%

%public query: ioption(preceded(WITH, commas(common_table))) combined ioption(ordering) ioption(limit) { () }

common_table: NAME ioption(in_parentheses(commas(NAME))) AS in_parentheses(query) { () }

combined:
| SELECT quantifier commas(result) from where grouping { () }
| VALUES commas(in_parentheses(commas(expression))) { () }
| combined UNION ioption(ALL) combined %prec UNION { () }
| combined EXCEPT combined { () }
| combined INTERSECT combined { () }

quantifier: | ALL | DISTINCT { () }

result:
| "*" { () }
| NAME "." "*" { () }
| expression ioption(preceded(AS, NAME)) { () }

from: ioption(preceded(FROM, commas(joined))) { () }

joined:
| source { () }
| joined join source condition { () }
| joined NATURAL join source { () }
| joined CROSS JOIN source { () }

join: ioption(join_kind) JOIN { () }

join_kind: INNER | LEFT ioption(OUTER) | RIGHT ioption(OUTER) | FULL ioption(OUTER) { () }

condition:
| ON expression { () }
| USING in_parentheses(commas(NAME)) { () }

source:
| NAME alias { () }
| in_parentheses(query) alias { () }
| in_parentheses(joined) { () }

alias:
| { () }
| ioption(AS) NAME { () }

%public where: ioption(preceded(WHERE, expression)) { () }

grouping: ioption(groups) ioption(preceded(HAVING, expression)) { () }

groups: GROUP BY commas(expression) { () }

ordering: ORDER BY commas(ordered) { () }

ordered: expression ioption(direction) { () }

%public direction: ASC | DESC { () }

limit: LIMIT expression ioption(preceded(OFFSET, expression)) { () }
