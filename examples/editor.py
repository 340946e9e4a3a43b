#!/usr/bin/env python3
"""editor.py PROGRAM TABLE TOKENS RULES: drives a session of the program as an editor would.

TABLE is the output of --compile-errors for the grammar files TOKENS and RULES. The script keeps a branch for each token
of the text: the parser as it is after this token. A fork of the last branch gets the next token. So the script can ask
the branch before a refused token what could come in its place, and can go back to the end of any line.
"""
import re
import subprocess
import sys

# The lines that somebody types. UNDO takes back the last line that was not refused.
TYPED = ["fun area(width, height) {", "  return width * ;", "  return width * height", "}", "UNDO",
         "  return width * height;", "}", "let size = 3 @ 4;", "let size = area(3, 4);", "print(size == 12 == true);"]

program, table, *grammar = sys.argv[1:]
session = subprocess.Popen([program, "--session", *grammar], stdin=subprocess.PIPE, stdout=subprocess.PIPE, text=True)


def ask(command):
    """The words of the session's answer to a command, without the name of the branch."""
    print(command, file=session.stdin, flush=True)
    answer = session.stdout.readline().split()
    return answer[1:] if answer and answer[0] != "error:" else sys.exit(f"{command}: {' '.join(answer)}")


def read_messages():
    """Each state with its message, which are the LENGTH bytes after a line `state STATE LENGTH`."""
    with open(table, "rb") as lines:
        for head in iter(lines.readline, b""):
            _, state, length = head.split()
            yield state.decode(), lines.read(int(length)).decode()


def tokens_of(line):
    """The column and the name of each token of a line."""
    for lexeme in re.finditer(r'(\d+)|("[^"]*")|([A-Za-z_]\w*)|[=!<>]=|&&|\|\||\S', line):
        kind = {1: "INT", 2: "STRING", 3: "NAME", None: "ILLEGAL"}[lexeme.lastindex]
        yield lexeme.start(), spellings.get(lexeme[0], kind)


def shown(symbol):
    """A token as it is spelled, if it has a spelling; otherwise the name of the symbol."""
    return names.get(symbol, symbol)


def type_line(line):
    """Gives the tokens of a line to the parser. If one is refused, shows the reason, and takes back the line."""
    ends.append(len(branches))
    for column, token in tokens_of(line):
        before, branch = branches[-1], f"b{len(branches)}"
        ask(f"fork {before} {branch}")
        branches.append(branch)
        _, _, phase, *state = ask(f"feed {branch} {token}")
        if phase == "handling-error":
            print(" " * column + "^\n" + messages[state[0]], end="")
            print("possible here:", *map(shown, ask(f"expected {before}")[1:]))
            print("on the stack:", *map(shown, ask(f"stack {branch}")[1:]))
            return take_back_line()


def take_back_line():
    """Forgets the branches of the last line."""
    end = ends.pop()
    while len(branches) > end:
        ask(f"forget {branches.pop()}")


messages = dict(read_messages())
with open(grammar[0], encoding="utf-8") as tokens:
    spellings = {spelling: name for name, spelling in re.findall(r'(\w+) "(.+?)"', tokens.read())}
names = {name: spelling for spelling, name in spellings.items()}
ask("begin b0 program")
branches, ends = ["b0"], []  # a branch for each token, after that of the start; how many there were before each line
for line in TYPED:
    print(line)
    take_back_line() if line == "UNDO" else type_line(line)
print("At the end of the text:", *ask(f"feed {branches[-1]} EOF")[2:])
