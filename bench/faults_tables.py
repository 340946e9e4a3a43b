"""Runs the program on 10,000 table files. Some are valid: their states are renumbered or copied, or they are of the
older version. The others are damaged: the file is cut; lines are dropped, doubled or swapped; words are swapped;
numbers are changed.

Each run must end with status 0 or 1 within ten processor seconds and 1 GB. A valid file must be accepted. If a file is
accepted, the verdicts must be those of the table in the file, which this script reads and runs by itself. If a file is
refused, nothing may be on out, and err must name the file and give the reason.
"""
import os
import random
import re
import sys

sys.path.insert(0, sys.argv[2])
from hostile import BENCH, CALC, Part, each, put, run

FILES = 10_000
SECONDS, MEGABYTES = 10, 1024
DANGLING = "%token IF ELSE X EOF %start main %% main: s EOF {} s: IF s {} | IF s ELSE s {} | X {}"
TWO_STARTS = "%token C [@cost 3] D %start s t %% s: c c {} c: C c {} | D {} t: c {}"
TOLD = re.compile(rb"menhir: run\d+\.table(: version|:\d+: shape|: invalid: (header|states|state \d+: (kernel|edge|cell|fallback)))\n")
LINES = 4


class Table:
    """The parts of a table file that a run needs."""

    def __init__(self, text):
        self.starts, self.productions, self.states, self.tokens = [], [], [], []
        for line in text.split("\n"):
            words = line.split(" ")
            if words[0] == "tokens":
                self.tokens = words[1:]
            elif words[0] == "starts":
                self.starts = words[1:]
            elif len(words) > 1 and words[1] == "->":
                self.productions.append((words[0], [it for it in words[2:] if it]))
            elif words[0] == "state":
                self.states.append({"edges": {}, "cells": {}, "default": None})
            elif words[0] == "edge":
                self.states[-1]["edges"][words[1]] = int(words[2])
            elif words[0] == "cell":
                self.states[-1]["cells"][words[1]] = (words[2], int(words[3]))
            elif words[0] == "default":
                self.states[-1]["default"] = (words[1], int(words[-1]) if len(words) > 2 else 0)

    def verdict(self, tokens):
        """The verdict of a run from the first start, and the tokens for which its last state has a cell."""
        stack, read = [0], 0
        while True:
            state = self.states[stack[-1]]
            action = state["default"]
            if action is None:
                if read == len(tokens):
                    return "OVERSHOOT", list(state["cells"])
                action = state["cells"].get(tokens[read])
            if action is None:
                return "REJECT", []
            if action[0] == "accept":
                return "ACCEPT", []
            if action[0] == "shift":
                stack.append(action[1])
                read += 1
            else:
                # Ordinary productions come after those of the start symbols.
                left, right = self.productions[action[1] - len(self.starts)]
                del stack[len(stack) - len(right) :]
                stack.append(self.states[stack[-1]]["edges"][left])

    def sentence(self, chance):
        """A random list of tokens that the table accepts one by one, perhaps with a random last token."""
        tokens = []
        for _ in range(chance.randrange(12)):
            ending, begun = self.verdict(tokens)
            if ending != "OVERSHOOT" or not begun:
                break
            tokens.append(chance.choice(begun))
        if chance.random() < 0.4:
            tokens.append(chance.choice(self.tokens))
        return tokens


def parts_of(text):
    """The lines before the states, the lines of each state, and the last line."""
    lines = text.split("\n")[:-1]
    places = [at for at, line in enumerate(lines) if line.startswith("state ")] + [len(lines) - 1]
    return lines[: places[0]], [lines[a:b] for a, b in zip(places, places[1:])], lines[-1]


def with_states(head, states, last):
    head = head[:-1] + [f"states {len(states)}"]
    return "\n".join([*head, *(line for state in states for line in state), last, ""])


def renamed(chance, text):
    """Exchanges the numbers of two states that are no start states."""
    head, states, last = parts_of(text)
    first = len(next(line for line in head if line.startswith("starts")).split(" ")) - 1
    one, other = chance.randrange(first, len(states)), chance.randrange(first, len(states))
    name = {one: other, other: one}
    states[one], states[other] = states[other], states[one]

    def new(line):
        words = line.split(" ")
        if words[0] in ("state", "edge") or words[0] == "cell" and words[2] == "shift":
            words[-1] = str(name.get(int(words[-1]), int(words[-1])))
        return " ".join(words)

    return with_states(head, [[new(line) for line in state] for state in states], last)


def with_copy(chance, text):
    """Adds a copy of a state as the last state; no edge leads to the copy."""
    head, states, last = parts_of(text)
    first = len(next(line for line in head if line.startswith("starts")).split(" ")) - 1
    copy = list(chance.choice(states[first:]))
    copy[0] = f"state {len(states)}"
    return with_states(head, [*states, copy], last)


def older(_, text):
    return "\n".join(line.replace("menhir-tables 2", "menhir-tables 1") for line in text.split("\n") if not line.startswith("costs"))


def cut(chance, text):
    return text[: chance.randrange(len(text) + 1)]


def with_lines(change):
    def made(chance, text):
        lines = text.split("\n")
        change(chance, lines)
        return "\n".join(lines)

    return made


def drop_line(chance, lines):
    del lines[chance.randrange(len(lines))]


def double_line(chance, lines):
    at = chance.randrange(len(lines))
    lines[at:at] = [lines[at]] * chance.choice([1, 1, 2, 100])


def swap_lines(chance, lines):
    one, other = chance.randrange(len(lines)), chance.randrange(len(lines))
    lines[one], lines[other] = lines[other], lines[one]


def swap_words(chance, lines):
    words = lines[chance.randrange(len(lines))].split(" ")
    at = chance.randrange(len(lines))
    others = lines[at].split(" ")
    others[chance.randrange(len(others))] = chance.choice(words)
    lines[at] = " ".join(others)


def turn_number(chance, text):
    numbers = list(re.finditer(r"\b\d+\b", text))
    found = chance.choice(numbers) if numbers else None
    if not found:
        return text
    old = int(found.group())
    new = chance.choice([old + 1, max(old - 1, 0), chance.randrange(40), 2**32 - 1, 2**32, 10**30])
    return text[: found.start()] + str(new) + text[found.end() :]


WHOLE = [renamed, with_copy, older]
DAMAGES = [cut, turn_number, turn_number, turn_number, *map(with_lines, (drop_line, double_line, swap_lines, swap_words))]


def made(chance, text):
    """A file, and whether it is valid."""
    for _ in range(chance.choice([0, 1, 2])):
        text = chance.choice(WHOLE[:2])(chance, text)
    if chance.random() < 0.2:
        text = older(chance, text)
    if chance.random() < 0.3:
        return text, True
    for _ in range(chance.choice([1, 1, 1, 2, 4])):
        text = chance.choice(DAMAGES)(chance, text)
    return text, False


def grammars():
    yield CALC
    yield DANGLING
    yield TWO_STARTS
    for name in ("json/json.mly", "lua/lua.mly"):
        with open(os.path.join(BENCH, "grammars", name)) as file:
            yield file.read()


def main():
    part = Part("table files")
    bases = []
    for number, grammar in enumerate(grammars()):
        name = put(f"base{number}.mly", grammar)
        for mode in ([], ["--canonical"]):
            bases.append((name, run("made", [*mode, "--write-tables", name]).out.decode()))
    endings = {}

    def work(place, number):
        chance = random.Random(f"table {number}")
        name, text = bases[number % len(bases)]
        file, is_whole = made(chance, text)
        put(f"{place}.table", file)
        table = Table(text)
        sentences = [table.sentence(chance) for _ in range(LINES)]
        starts = table.starts[0] + ": " if len(table.starts) > 1 else ""
        given = "".join(f"{starts}{' '.join(it)}\n" for it in sentences)
        ran = run(place, ["--interpret", "--tables", f"{place}.table", name], given.encode(), limit=2 * SECONDS)
        what = f"table file {number}"
        if ran.status not in ((0,) if is_whole else (0, 1)):
            part.fail(f"{what}: its end", ran)
        if ran.seconds > SECONDS or ran.megabytes > MEGABYTES:
            part.fail(f"{what}: time or memory", ran)
        if ran.status == 1 and (ran.out or not TOLD.fullmatch(ran.err)):
            part.fail(f"{what}: its texts", ran)
        if ran.status == 0:
            read = Table(file)
            wanted = "".join(f"{read.verdict(it)[0]}\n" for it in sentences)
            if ran.out.decode() != wanted:
                part.fail(f"{what}: its verdicts", ran)
        return ("whole" if is_whole else "damaged", ran.status), ran

    for kind, ran in each(range(FILES), work):
        part.count(ran)
        endings[kind] = endings.get(kind, 0) + 1
    for (kind, status), count in sorted(endings.items()):
        print(f"    {kind} files: {count} ended with status {status}")
    part.end()


main()
