#!/usr/bin/env python3
"""Compares the warnings of `--check` with those of Menhir: warnings.py PROGRAM FILE.. prints the warnings that one of both
has alone, and ends with status 1 if there are any. Compared are unused tokens, unreachable rules, levels and `%prec`s
without use, and productions that are never reduced; the other warnings of both programs differ in kind. Menhir makes a
token of each name in a level declaration that `%token` does not declare, and calls it unused, too; here the name has
the warning on its level alone. This difference does not count."""
import re
import subprocess
import sys

OURS = [
    (r"(?:.*:\d+:\d+: )unused token: (\S+)$", "unused token {}"),
    (r"(?:.*:\d+:\d+: )unreachable rule: (\S+)$", "unreachable rule {}"),
    (r".*:(\d+):\d+: level without use: %prec .*$", "%prec without use in line {}"),
    (r"(?:.*:\d+:\d+: )level without use: (\S+)$", "level without use {}"),
    (r"never reduced: (.*)$", "never reduced {}"),
]
PLACE = re.compile(r'File "[^"]*", line (\d+), ')
THEIRS = [
    (r"Warning: the token (\S+) is unused\.$", "unused token {}"),
    (r"Warning: symbol (\S+) is unreachable from any of the start symbol\(s\)\.$", "unreachable rule {}"),
    (r"Warning: this %prec declaration is never useful\.$", "%prec without use in line {place}"),
    (r"Warning: the precedence level assigned to (\S+) is never useful\.$", "level without use {}"),
    (r"Warning: production (.*) is never reduced\.$", "never reduced {}"),
]


def found(lines, forms):
    """The warnings of these forms, each with how often it comes."""
    counts, place = {}, "?"
    for line in lines:
        here = PLACE.match(line)
        place = here[1] if here else place
        for pattern, form in forms:
            is_one = re.match(pattern, line)
            if is_one:
                text = " ".join(form.format(*is_one.groups(), place=place).split())
                counts[text] = counts.get(text, 0) + 1
                break
    return counts


def declared(files):
    """The names that `%token` declares."""
    names = set()
    for file in files:
        with open(file, encoding="utf-8") as it:
            for part in re.findall(r"%token\b\s*(?:<[^>]*>)?([^%]*)", it.read()):
                names.update(re.findall(r"[A-Za-z_]\w*", part))
    return names


def main():
    program, files = sys.argv[1], sys.argv[2:]
    ours = subprocess.run([program, "--check", *files], capture_output=True, text=True, stdin=subprocess.DEVNULL)
    theirs = subprocess.run(
        ["menhir", "--base", "warnings", "--interpret", *files], capture_output=True, text=True, stdin=subprocess.DEVNULL
    )
    mine, other = found(ours.stdout.split("\n"), OURS), found(theirs.stderr.split("\n"), THEIRS)
    tokens = declared(files)
    other = {it: n for it, n in other.items() if not it.startswith("unused token") or it.split()[-1] in tokens}
    for text in sorted(set(mine) - set(other)):
        print("alone here:", text)
    for text in sorted(set(other) - set(mine)):
        print("alone in Menhir:", text)
    print(f"{len(set(mine) & set(other))} warnings are those of Menhir")
    sys.exit(set(mine) != set(other))


main()
