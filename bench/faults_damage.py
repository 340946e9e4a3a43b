"""Runs the program on 10,000 damaged grammar and messages files, and on 2,000 damaged inputs. The damage: a file is
cut, bytes are changed, marks are inserted, lines are doubled, dropped or swapped, words are swapped.

Each run must end with status 0 or 1 and not by a signal, and take at most ten processor seconds and 1 GB. If a file is
refused, nothing may be on out, and the last line on err must give the reason.
"""
import os
import random
import sys

sys.path.insert(0, sys.argv[2])
from hostile import BENCH, CALC, Part, each, put, run, with_messages

COUNTS = {"grammar": 7_000, "messages": 3_000, "input": 2_000}
SECONDS, MEGABYTES = 10, 1024
# The marks of all formats, for insertion into a file.
SIGNS = rb"""%{ %} %% %token %start %inline %prec %left %public | : ; , = ? * + ( ) { } < > [ ] (* *) /* */ // " ' \ # ## @ error let _ $1 0 A""".split()

GRAMMAR_WORDS = [
    ["--interpret"],
    ["--show-automaton"],
    ["--check"],
    ["--canonical", "--show-automaton"],
    ["--shortest-sentences"],
    ["--random-sentence", "7", "--length", "50"],
    ["--list-errors"],
    ["--list-errors", "--comment-expected"],
    ["--explain"],
    ["--interpret", "--interpret-show-cst"],
    ["--interpret", "--show-expected"],
    ["--strict", "--no-stdlib", "--list-errors"],
]
MESSAGES_WORDS = [
    lambda name: ["--compile-errors", name],
    lambda name: ["--echo-errors", name],
    lambda name: ["--update-errors", name],
    lambda name: ["--rebase-errors", name],
    lambda name: ["--check-errors", name],
    lambda name: ["--interpret", "--messages", name],
    lambda name: ["--compare-errors", name, "--compare-errors", "whole.messages"],
    lambda name: ["--compare-errors", "whole.messages", "--compare-errors", name],
]
SENTENCE = b"LBRACE STRING COLON LBRACKET NUMBER COMMA NULL RBRACKET RBRACE EOF\n"
SESSION = b"begin a\nexpected a\noffer a NUMBER\nfork a b\nresume a\nresume a\nshow b\noffer a EOF\nresume a\nresume a\nresume a\ntree a\n"


def cut(chance, text):
    return text[: chance.randrange(len(text) + 1)]


def turn_bytes(chance, text):
    turned = bytearray(text)
    for _ in range(chance.randint(1, 8)):
        if turned:
            turned[chance.randrange(len(turned))] = chance.choice([chance.randrange(256), chance.choice(b"{}()[]<>%|:;,\"'\\ \n#*/A0")])
    return bytes(turned)


def put_sign(chance, text):
    at = chance.randrange(len(text) + 1)
    return text[:at] + chance.choice([b"", b" "]) + chance.choice(SIGNS) * chance.choice([1, 1, 2, 50]) + text[at:]


def double_line(chance, text):
    lines = text.split(b"\n")
    at = chance.randrange(len(lines))
    return b"\n".join(lines[:at] + [lines[at]] * chance.choice([2, 2, 3, 100]) + lines[at + 1 :])


def swap_lines(chance, text):
    lines = text.split(b"\n")
    one, other = chance.randrange(len(lines)), chance.randrange(len(lines))
    lines[one], lines[other] = lines[other], lines[one]
    return b"\n".join(lines)


def drop_line(chance, text):
    lines = text.split(b"\n")
    del lines[chance.randrange(len(lines))]
    return b"\n".join(lines)


def swap_words(chance, text):
    words = text.split(b" ")
    one, other = chance.randrange(len(words)), chance.randrange(len(words))
    words[one], words[other] = words[other], words[one]
    return b" ".join(words)


DAMAGES = [cut, turn_bytes, put_sign, double_line, swap_lines, drop_line, swap_words]


def damaged(chance, text):
    for _ in range(chance.choice([1, 1, 1, 2, 4])):
        text = chance.choice(DAMAGES)(chance, text)
    return text


def grammars():
    """Undamaged grammars: two small grammars and a larger one."""
    yield CALC.encode()
    for name in ("json/json.mly", "lua/lua.mly"):
        with open(os.path.join(BENCH, "grammars", name), "rb") as file:
            yield file.read()


def main():
    part = Part("damaged files")
    texts = list(grammars())
    put("whole.mly", texts[1])
    entries = run("made", ["--list-errors", "whole.mly"])
    messages = with_messages(entries.out).encode()
    put("whole.messages", messages)
    endings = {}

    def work(place, pair):
        kind, number = pair
        chance = random.Random(f"{kind} {number}")
        given = SENTENCE
        if kind == "grammar":
            name = f"{place}.mly"
            put(name, damaged(chance, chance.choice(texts)))
            words = [*chance.choice(GRAMMAR_WORDS), name]
            given = b"INT PLUS INT EOF\n"
        elif kind == "messages":
            name = f"{place}.messages"
            put(name, damaged(chance, messages))
            words = [*chance.choice(MESSAGES_WORDS)(name), "whole.mly"]
        else:
            mode, text = chance.choice([("--session", SESSION), ("--interpret", SENTENCE), ("--interpret-error", b"COMMA\n")])
            given = damaged(chance, text)
            words = [mode, "whole.mly"]
        ran = run(place, words, given, limit=2 * SECONDS)
        what = f"{kind} {number}: {' '.join(words)}"
        if ran.status not in (0, 1):
            part.fail(f"{what}: its end", ran)
        if ran.seconds > SECONDS or ran.megabytes > MEGABYTES:
            part.fail(f"{what}: time or memory", ran)
        # The modes that check files write what they find on out.
        finds = words[0] in ("--check", "--check-errors") and ran.out.endswith(b"\n") and not ran.err
        refuses = not ran.out and ran.err.startswith(b"menhir: ") and ran.err.endswith(b"\n")
        if ran.status == 1 and not finds and not refuses:
            part.fail(f"{what}: its texts", ran)
        return kind, ran

    pairs = [(kind, number) for kind, count in COUNTS.items() for number in range(count)]
    for kind, ran in each(pairs, work):
        part.count(ran)
        endings[kind, ran.status] = endings.get((kind, ran.status), 0) + 1
    for (kind, status), count in sorted(endings.items()):
        print(f"    {kind} files: {count} ended with status {status}")
    part.end()


main()
