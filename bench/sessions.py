#!/usr/bin/env python3
"""Compares sessions with fresh runs: random lists of commands on the tables of random grammars.

Usage: bench/sessions.py MENHIR LISTS SEED

Each reply of `MENHIR --session` on a branch must follow from the history of this branch alone: a start, the tokens
offered, and the count of resumes. For each reply the script runs this history from the beginning, with the table that
`MENHIR --show-automaton` prints. For a list of expected tokens the script runs the tokens of the branch followed by
each token. It ends with status 1 at the first difference.
"""
import random
import subprocess
import sys
import tempfile


def grammar_of():
    """The text of a random grammar, its tokens and its start symbols."""
    tokens = ["A", "B", "C", "D"][: random.randint(2, 4)]
    rules = ["s", "t", "u", "v"][: random.randint(2, 4)]
    starts = rules[: random.choice([1, 1, 2])]
    lines = ["%token " + " ".join(tokens)] + ["%start " + it for it in starts] + ["%%"]
    for place, rule in enumerate(rules):
        alternatives = []
        for number in range(random.randint(1, 3)):
            deeper = rules[place + 1 :] if number == 0 else rules
            words = [random.choice(tokens + deeper) for _ in range(random.randint(number == 0, 3))]
            alternatives.append(" ".join(words) + " {}")
        lines.append(rule + ": " + " | ".join(alternatives))
    return "\n".join(lines) + "\n", tokens, starts


def output_of(menhir, mode, path, text):
    done = subprocess.run([menhir, mode, path], input=text, capture_output=True, text=True)
    return done.stdout if done.returncode == 0 else None


def table_of(text):
    """For each state, its default, cells and gotos, read from the output of --show-automaton."""
    states = []
    for line in text.splitlines()[1:]:
        if line.startswith("state "):
            states.append({})
            continue
        head, _, said = line.strip().partition(": ")
        if not line.endswith("]"):
            words = said.split()
            states[-1][head] = ("reduce", said[len("reduce ") :]) if words[0] == "reduce" else (words[0], words[-1])
    return states


class Run:
    """A run from a start on some tokens, after some resumes."""

    def __init__(self, table, start, tokens):
        self.table, self.stack, self.trees, self.left, self.refused = table, [start], [], list(tokens), False

    def move(self):
        state = self.table[self.stack[-1]]
        if "default" in state:
            return state["default"]
        if not self.left:
            return ("ask", "")
        return state.get(self.left[0], ("hole", ""))

    def resume(self):
        kind, what = self.move()
        if kind == "shift":
            self.trees.append(self.left.pop(0))
            self.stack.append(int(what))
        elif kind == "reduce":
            left, _, right = what.partition(" ->")
            kept = len(self.trees) - len(right.split())
            node = "[" + left + ":" + "".join(" " + it for it in self.trees[kept:]) + "]"
            self.trees[kept:] = [node]
            self.stack[kept + 1 :] = []
            self.stack.append(int(self.table[self.stack[-1]][left][1]))
        else:
            self.refused = True

    def phase(self):
        if self.refused:
            return "rejected", ""
        (kind, what), state = self.move(), str(self.stack[-1])
        if kind == "accept":
            return "accepted", ""
        if kind == "ask":
            return "input-needed", " " + state
        if kind == "shift":
            return "shifting", " " + state + " " + self.left[0]
        if kind == "reduce":
            return "about-to-reduce", " " + state + " " + what
        return "handling-error", " " + state


class Sessions:
    """The answer to each command, by the history of the branch that the command names."""

    def __init__(self, table, tokens, starts):
        self.table, self.tokens, self.starts, self.branches = table, tokens, starts, {}

    def run(self, name):
        start, offered, resumes = self.branches[name]
        run = Run(self.table, start, offered)
        for _ in range(resumes):
            run.resume()
        return run

    def shifts(self, start, tokens, last):
        """True if the run of a start on some tokens and then a last token shifts the last token."""
        run = Run(self.table, start, tokens + [last])
        while run.left and run.move()[0] in ("shift", "reduce"):
            run.resume()
        return not run.left

    def reply(self, name):
        return name + " " + "".join(self.run(name).phase())

    def answer(self, line):
        verb, name, *rest = line.split()
        if verb == "begin" and not rest and len(self.starts) != 1:
            return "error: missing start"
        if verb == "begin" and rest and rest[0] not in self.starts:
            return "error: unknown start " + rest[0]
        if verb == "offer" and rest[0] not in self.tokens:
            return "error: unknown token " + rest[0]
        if verb != "begin" and name not in self.branches:
            return "error: unknown name"
        if verb in ("begin", "fork") and (rest[0] if verb == "fork" else name) in self.branches:
            return "error: name taken"
        if verb == "begin":
            self.branches[name] = (self.starts.index(rest[0]) if rest else 0, [], 0)
            return self.reply(name)
        start, offered, resumes = self.branches[name]
        phase = self.run(name).phase()[0]
        wrong = "error: wrong phase: " + phase
        if verb == "offer":
            if phase != "input-needed":
                return wrong
            self.branches[name] = (start, offered + [rest[0]], resumes)
        elif verb == "resume":
            if phase not in ("shifting", "about-to-reduce", "handling-error"):
                return wrong
            self.branches[name] = (start, offered, resumes + 1)
        elif verb == "fork":
            self.branches[rest[0]] = self.branches[name]
            return self.reply(rest[0])
        elif verb == "tree":
            return name + " " + self.run(name).trees[0] if phase == "accepted" else wrong
        elif verb == "expected":
            if phase != "input-needed":
                return wrong
            return name + " expected" + "".join(" " + it for it in self.tokens if self.shifts(start, offered, it))
        elif verb == "forget":
            del self.branches[name]
            return name + " forgotten"
        return self.reply(name)


# The verbs of random commands, with their weights.
VERBS = {"begin": 2, "offer": 8, "resume": 14, "fork": 3, "show": 2, "tree": 2, "expected": 3, "forget": 1}


def commands_of(tokens, starts, prefix):
    names = [prefix + it for it in ("a", "b", "c")]
    lines = ["begin " + names[0] + " " + starts[0]]
    for _ in range(random.randint(5, 60)):
        verb = random.choices(list(VERBS), list(VERBS.values()))[0]
        line = verb + " " + random.choice(names)
        if verb == "begin" and random.random() < 0.7:
            line += " " + random.choice(starts + ["w"])
        if verb == "offer":
            line += " " + (random.choice(tokens) if random.random() < 0.98 else "Z")
        if verb == "fork":
            line += " " + random.choice(names)
        lines.append(line)
    return lines


def main():
    menhir, lists, seed = sys.argv[1], int(sys.argv[2]), int(sys.argv[3])
    random.seed(seed)
    done = grammars = commands = 0
    kinds = {}
    with tempfile.NamedTemporaryFile("w", suffix=".mly") as file:
        while done < lists:
            text, tokens, starts = grammar_of()
            file.seek(0)
            file.truncate()
            file.write(text)
            file.flush()
            shown = output_of(menhir, "--show-automaton", file.name, "")
            if shown is None:
                continue
            grammars += 1
            here = min(50, lists - done)
            lines = [it for number in range(here) for it in commands_of(tokens, starts, "n%d" % number)]
            got = output_of(menhir, "--session", file.name, "\n".join(lines) + "\n").splitlines()
            sessions = Sessions(table_of(shown), tokens, starts)
            for place, line in enumerate(lines):
                wanted = sessions.answer(line)
                kind = wanted if wanted.startswith("error") else wanted.split()[1]
                kinds[kind] = kinds.get(kind, 0) + 1
                if place >= len(got) or got[place] != wanted:
                    print(text, "\n".join(lines[: place + 1]), "\nwanted:", wanted, "\ngot:   ", got[place : place + 1])
                    sys.exit(1)
            done += here
            commands += len(lines)
    print("%d lists, %d commands, %d grammars: all alike" % (done, commands, grammars))
    for kind, count in sorted(kinds.items()):
        print("  %7d %s" % (count, kind))


main()
