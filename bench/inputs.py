#!/usr/bin/env python3
"""Writes the generated inputs of bench/compare.sh into the current folder."""
import os
import random

random.seed(1)

SUMS = """%token INT PLUS TIMES LPAREN RPAREN EOF
%start <unit> main
%%
main: e EOF { () }
e: e PLUS t { () } | t { () }
t: t TIMES f { () } | f { () }
f: LPAREN e RPAREN { () } | INT { () }
"""

# The largest file that the program reads, in bytes.
MOST_BYTES = 16_777_216


def write(name, text):
    with open(name, "w", encoding="ascii") as file:
        file.write(text)


def sums(lines, signs):
    """Lines of sums, each with the given number of operators."""
    for _ in range(lines):
        words = ["INT"]
        for _ in range(signs):
            words += [random.choice(["PLUS", "TIMES"]), "INT"]
        yield " ".join(words) + " EOF\n"


def chain(last):
    """A grammar in which each word of `last` tokens leads to a state of its own."""
    rules = ["q0: A q0 { () } | B q0 { () } | A q1 { () }"]
    rules += [f"q{i}: A q{i + 1} {{ () }} | B q{i + 1} {{ () }}" for i in range(1, last)]
    rules.append(f"q{last}: A {{ () }} | B {{ () }}")
    return "%token A B\n%start <unit> q0\n%%\n" + "\n".join(rules) + "\n"


def tokens_and_start(tokens):
    """The given number of tokens, and a start rule that uses rule r0."""
    names = ["A", "EOF"] + [f"T{number}" for number in range(2, tokens)]
    return f"%token {' '.join(names)}\n%start <unit> s\n%%\ns: r0 EOF {{ () }}\n"


def long_chain(rules, tokens):
    """Rules that each have a token and the next rule: one or two states each, with a small closure."""
    steps = [f"r{i}: A r{i + 1} {{ () }}\n" for i in range(rules - 1)]
    return tokens_and_start(tokens) + "".join(steps) + f"r{rules - 1}: A {{ () }}\n"


def unit_rules(rules, tokens):
    """Rules that each have only the next rule: one closure has all rules, and FIRST sets pass through all of them."""
    steps = [f"r{i}: r{i + 1} {{ () }}\n" for i in range(rules - 1)]
    return tokens_and_start(tokens) + "".join(steps) + f"r{rules - 1}: A {{ () }}\n"


def small_rules(most):
    """A file of small rules, with at most the given number of bytes."""
    head = "%token A EOF\n%start <unit> s\n%%\ns: A EOF { () }\n"
    rules, size, number = [head], len(head), 0
    while True:
        rule = f"r{number}: A {{ () }}\n"
        size += len(rule)
        if size > most:
            return "".join(rules)
        rules.append(rule)
        number += 1


write("sums.mly", SUMS)
write("sums.in", "".join(sums(1000, 500)))
write("states.mly", chain(12))
write("many.mly", chain(18))
write("chain.mly", long_chain(19_000, 64))
write("units.mly", unit_rules(5_000, 256))
write("one.in", "A EOF\n")
write("rules.mly", small_rules(MOST_BYTES))
os.mkdir("files")
for number in range(1000):
    head = "%token A EOF\n%start <unit> s\n%%\ns: A EOF { () }\n" if number == 0 else "%%\n"
    write(f"files/f{number}.mly", head + "".join(f"r{it}: A {{ () }}\n" for it in range(1000)))
