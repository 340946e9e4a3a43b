"""Runs the program on deep, long and doubling inputs, with a stack of 8 MB and of 1 MB. No run may end by a signal, and
each run must give the answer that is written here.

The script reports time and memory for each run. A run of more than ten seconds or 1 GB is marked as heavy, which is no
failure by itself.
"""
import sys

sys.path.insert(0, sys.argv[2])
from hostile import Part, put, run

STACKS = (8192, 1024)
SECONDS, MEGABYTES, LIMIT = 10, 1024, 300
HEAD = "%token A B\n%start s\n%%\n"
MOST_BYTES = 16_777_216


def rules(texts):
    return "".join(f"{it}\n" for it in texts)


def chain(count, step, last):
    """Rules r0 to rN, where N is `count`. `step` is a format with a place for the number of the next rule."""
    return rules([f"r{it}: {step.format(it + 1)} {{}}" for it in range(count)] + [f"r{count}: {last} {{}}"])


class Answer:
    """The required result of a run: its status, the end of its text on out, and the end of its text on err."""

    def __init__(self, status, out=None, err=""):
        self.status, self.out, self.err = status, out, err

    def is_met(self, ran):
        err = f"menhir: {self.err}\n".encode() if self.err else b""
        out = self.out if self.out is None or isinstance(self.out, bytes) else self.out.encode()
        return ran.status == self.status and ran.err.endswith(err) and (out is None or ran.out.endswith(out))


ACCEPTS = Answer(0, "ACCEPT\n")
SYNTAX = Answer(1, "", "g.mly:4: syntax error")


def refused(why):
    return Answer(1, "", why)


def interpret(grammar, given, answer, *words):
    """A case with a grammar in the file g.mly, the input lines, and the required answer."""
    return {"g.mly": grammar}, ["--interpret", *words, "g.mly"], given, answer


def messages(text, answer, mode, grammar=HEAD + "s: A B {}\n"):
    return {"g.mly": grammar, "m": text}, [mode, "m", "g.mly"], "", answer


def actuals():
    yield "999 signs after a name", interpret(HEAD + "s: A" + "?" * 999 + " {}\n", "", refused("expansion: option"))
    yield "1,000 signs", interpret(HEAD + "s: A" + "?" * 1000 + " {}\n", "", SYNTAX)
    yield "16 million signs", interpret(HEAD + "s: A" + "?" * 16_000_000 + " {}\n", "", SYNTAX)
    nested = HEAD + "s: {} {{}}\nf(X): X {{}}\n"
    yield "names 330 deep", interpret(nested.format("f(" * 330 + "A" + ")" * 330), "A\n", ACCEPTS)
    yield "names 1,000 deep", interpret(nested.format("f(" * 999 + "A" + ")" * 999), "A\n", refused("expansion: f"))
    yield "names 1,001 deep", interpret(nested.format("f(" * 1000 + "A" + ")" * 1000), "A\n", SYNTAX)
    yield "8 million open brackets", interpret(HEAD + "s: " + "f(" * 8_000_000, "", SYNTAX)
    yield "a term that doubles at each of 900 steps", interpret(
        HEAD + "s: " + "d(" * 900 + "A" + ")" * 900 + " {}\nd(X): e(X, X) {}\ne(X, Y): X Y {}\n", "", refused("expansion: d"))
    yield "a term of 200 that doubles", interpret(
        HEAD + "s: d0(A) {}\n" + rules(f"d{it}(X): d{it + 1}(e(X, X)) {{}}" for it in range(200)) + "d200(X): X {}\ne(X, Y): X Y {}\n",
        "", refused("expansion: d8"))
    yield "a rule that grows without end", interpret(HEAD + "s: f(A) {}\nf(X): A f(g(X)) {} | X {}\ng(X): X {}\n", "", refused("expansion: f"))


def trees():
    right, left = HEAD + "s: A s {} | B {}\n", HEAD + "s: s A {} | B {}\n"
    shown = "ACCEPT\n" + "[s: A " * 3998 + "[s: B]" + "]" * 3998 + "\n"
    yield "a tree of 4,000 to the right", interpret(right, "A " * 3998 + "B\n", Answer(0, shown), "--interpret-show-cst")
    yield "a tree of 4,001 to the right", interpret(right, "A " * 3999 + "B\n", Answer(0, "TOODEEP\n"), "--interpret-show-cst")
    shown = "ACCEPT\n" + "[s: " * 3999 + "B]" + " A]" * 3998 + "\n"
    yield "a tree of 4,000 to the left", interpret(left + "t: A {}\n", "B" + " A" * 3998 + "\n", Answer(0), "--interpret-show-cst")
    whole = "%token A B C\n%start t\n%%\nt: s C {}\ns: s A {} | B {}\n"
    shown = "ACCEPT\n[t: " + "[s: " * 3998 + "B]" + " A]" * 3997 + " C]\n"
    yield "a whole tree of 4,000 to the left", interpret(whole, "B" + " A" * 3997 + " C\n", Answer(0, shown), "--interpret-show-cst")
    yield "a whole tree of 4,001 to the left", interpret(whole, "B" + " A" * 3998 + " C\n", Answer(0, "TOODEEP\n"), "--interpret-show-cst")
    yield "500,000 tokens to the right", interpret(right, "A " * 499_999 + "B\n", ACCEPTS)
    yield "500,000 tokens to the left", interpret(whole, "B" + " A" * 499_999 + " C\n", ACCEPTS)
    yield "500,000 tokens with trees", interpret(whole, "B" + " A" * 499_999 + " C\n", Answer(0, "TOODEEP\n"), "--interpret-show-cst")


def expected():
    # All tokens are tried on one stack of 400,000 states. A copy of the stack for each of the 512 tokens would take
    # more than 800 MB of moves.
    unused = " ".join(f"T{it}" for it in range(508))
    grammar = f"%token A B C E {unused}\n%start t\n%%\nt: s C {{}}\ns: A s {{}} | A s E {{}} | B {{}}\n"
    after_b, at_once = Answer(0, "REJECT\nexpected: C E\n"), Answer(0, "REJECT\nexpected: A B\n")
    yield "expected tokens on a deep stack", interpret(grammar, "A " * 400_000 + "B B\n", after_b, "--show-expected")
    yield "the same after another refused token", interpret(grammar, "A " * 400_000 + "B T7\n", after_b, "--show-expected")
    yield "expected tokens on a stack of open ones", interpret(grammar, "A " * 400_000 + "C\n", at_once, "--show-expected")
    yield "expected tokens of 20,000 lines", interpret(grammar, "A " * 20 + "B B\n" + "C\n" * 20_000, at_once, "--show-expected")


def sides():
    sentence = "A " * 10_000 + "\n"
    yield "a right side of 10,000", interpret(HEAD + "s:" + " A" * 10_000 + " {}\n", sentence, ACCEPTS)
    yield "the same with its tree", interpret(HEAD + "s:" + " A" * 10_000 + " {}\n", sentence, Answer(0, "TOODEEP\n"), "--interpret-show-cst")
    yield "a right side of 10,001", interpret(HEAD + "s:" + " A" * 10_001 + " {}\n", sentence, refused("too many productions"))
    yield "a right side of 8 million", interpret(HEAD + "s:" + " A" * 8_000_000 + " {}\n", sentence, refused("too many productions"))
    doubling = "".join(f"%inline x{it}: x{it - 1} x{it - 1} {{}}\n" for it in range(1, 40))
    yield "inlined sides that double 40 times", interpret(HEAD + "s: x39 {}\n%inline x0: A {}\n" + doubling, "", refused("too many productions"))
    choices = "".join(f"%inline x{it}: x{it - 1} x{it - 1} {{}}\n" for it in range(1, 40))
    yield "inlined choices that double", interpret(HEAD + "s: x39 {}\n%inline x0: A {} | B {}\n" + choices, "", refused("too many productions"))


def chains():
    count = 19_990
    head = HEAD + "s: r0 B {}\n"
    yield "19,990 unit rules", interpret(head + chain(count, "r{}", "A"), "A B\n", refused("loops: state 1 above state 0 on no token"))
    yield "9,990 unit rules", interpret(head + chain(9_990, "r{}", "A"), "A B\n", ACCEPTS)
    yield "the same with its tree", interpret(head + chain(9_990, "r{}", "A"), "A B\n", Answer(0, "TOODEEP\n"), "--interpret-show-cst")
    yield "19,990 rules, each with a token", interpret(head + chain(count, "A r{}", "A"), "A " * (count + 1) + "B\n", ACCEPTS)
    inlined = "".join(f"%inline r{it}: r{it + 1} {{}}\n" for it in range(count)) + f"%inline r{count}: A {{}}\n"
    yield "19,990 inlined rules", interpret(head + inlined, "A B\n", ACCEPTS)
    yield "19,990 instances of rules with a parameter", interpret(
        HEAD + "s: r0(A) B {}\n" + "".join(f"r{it}(X): A r{it + 1}(X) {{}}\n" for it in range(count - 10)) + f"r{count - 10}(X): X {{}}\n",
        "A " * (count - 9) + "B\n", ACCEPTS)
    yield "20,100 instances", interpret(
        HEAD + "s: r0(A) B {}\n" + "".join(f"r{it}(X): A r{it + 1}(X) {{}}\n" for it in range(20_100)) + "r20100(X): X {}\n",
        "", Answer(1, ""))
    yield "rules that call themselves in a circle of 19,990", interpret(head + chain(count, "r{}", "r0"), "", refused("empty language: s"))
    circle = "".join(f"%inline r{it}: r{(it + 1) % count} {{}}\n" for it in range(count))
    yield "inlined rules in a circle of 19,990", interpret(head + circle, "", refused("inline cycle: r0"))
    yield "19,990 nullable rules", interpret(head + chain(count, "r{}", ""), "B\n", Answer(1, ""))
    yield "nullable rules that double 990 times", interpret(head + chain(990, "r{0} r{0}", ""), "B\n", Answer(1, ""))
    yield "nullable rules that double 12 times", interpret(head + chain(12, "r{0} r{0}", ""), "B\n", ACCEPTS)
    names = " ".join(f"T{it}" for it in range(510))
    yield "510 tokens", interpret(f"%token {names} A B\n%start s\n%%\n" + "s: r0 B {}\n" + chain(2000, "A r{}", "A"), "A " * 2001 + "B\n", ACCEPTS)


def long_files():
    yield "a million lines", interpret("%token A B\n%start s\n" + "\n" * 1_000_000 + "%%\ns: A B {}\n", "A B\n", ACCEPTS)
    yield "a million lines of comment", interpret("%token A B\n%start s\n" + "// x\n" * 1_000_000 + "%%\ns: A B {}\n", "A B\n", ACCEPTS)
    yield "a million comments", interpret("%token A B\n%start s\n" + "(* *) /* */\n" * 1_000_000 + "%%\ns: A B {}\n", "A B\n", ACCEPTS)
    yield "a million alternatives", interpret(HEAD + "s: A {}\n" + "| B {}\n" * 1_000_000, "", refused("too many productions"))
    yield "a million rules", interpret(HEAD + "s: A {}\n" + "".join(f"r{it}: A {{}}\n" for it in range(700_000)), "A\n", ACCEPTS)
    yield "a million declarations of one token", interpret("%token A\n" * 1_000_000 + "%token B\n%start s\n%%\ns: A B {}\n", "A B\n", ACCEPTS)
    yield "a million tokens", interpret("%token " + " ".join(f"A{it}" for it in range(1_000_000)) + " A\n%start s\n%%\ns: A {}\n", "", Answer(1, ""))
    yield "a million levels", interpret("%left A\n" * 1_000_000 + HEAD + "s: A B {}\n", "A B\n", Answer(1, ""))
    yield "a million of %public parts", interpret(HEAD + "s: r B {}\n" + "%public r: A {}\n" * 900_000, "", refused("too many productions"))
    yield "a name of 16 million letters", interpret(HEAD + "s: " + "a" * 16_000_000 + " {}\n", "", Answer(1, ""))
    yield "16 million digits of a cost", interpret("%token A [@cost " + "1" * 16_000_000 + "] B\n%start s\n%%\ns: A B {}\n", "A B\n", ACCEPTS)
    yield "a million starts", interpret("%token A B\n" + "%start s\n" * 1_000_000 + "%%\ns: A B {}\n", "A B\n", ACCEPTS)


def codes():
    half = 8_000_000
    yield "8 million braces in code", interpret(HEAD + "s: A " + "{" * half + "}" * half + "\n", "A\n", ACCEPTS)
    yield "8 million braces that stay open", interpret(HEAD + "s: A " + "{" * half, "A\n", SYNTAX)
    yield "brackets of each kind in code", interpret(HEAD + "s: A {" + "([{" * 2_500_000 + "}])" * 2_500_000 + "}\n", "A\n", ACCEPTS)
    yield "comments 4 million deep", interpret(HEAD + "(*" * 4_000_000 + "*)" * 4_000_000 + "s: A {}\n", "A\n", ACCEPTS)
    yield "comments that stay open", interpret(HEAD + "(*" * half, "A\n", SYNTAX)
    yield "comments in code 4 million deep", interpret(HEAD + "s: A {" + "(*" * 4_000_000 + "*)" * 4_000_000 + "}\n", "A\n", ACCEPTS)
    yield "a string of 16 million", interpret(HEAD + 's: A {"' + "x" * 16_000_000 + '"}\n', "A\n", ACCEPTS)
    yield "a quoted string that stays open", interpret(HEAD + "s: A {" + "{x|" * 5_000_000, "A\n", SYNTAX)
    yield "types 8 million deep", interpret("%token <" + "(" * half + ")" * half + "> A B\n%start s\n%%\ns: A B {}\n", "A B\n", ACCEPTS)
    yield "attributes 8 million deep", interpret("%token A [@x " + "[" * half + "]" * half + "] B\n%start s\n%%\ns: A B {}\n", "A B\n", ACCEPTS)
    yield "a header of 16 MB", interpret("%{" + "{" * 16_000_000 + "%}\n" + HEAD + "s: A B {}\n", "A B\n", ACCEPTS)
    yield "a trailer of 16 MB", interpret(HEAD + "s: A B {}\n%%\n" + "{" * 16_000_000, "A B\n", ACCEPTS)
    yield "zeros", interpret(b"\0" * MOST_BYTES, "", Answer(1, "", "g.mly:1: syntax error"))
    yield "one byte too many", interpret(b" " * (MOST_BYTES + 1), "", Answer(5, "", "too big: g.mly"))


def messages_files():
    million = 1_000_000
    head = "A A\n\n"
    yield "a million comment lines", messages("# x\n" * million, Answer(0, ""), "--compile-errors")
    yield "a million blank lines", messages("\n" * million, Answer(0, ""), "--compile-errors")
    yield "a million lines of a message", messages(head + "M\n" * million, Answer(0, "M\nM\n"), "--compile-errors")
    yield "the same brought up to date", messages(head + "M\n" * million, Answer(0, "M\nM\n"), "--update-errors")
    yield "a million sentences of one state", messages("A A\n" * million + "\nM\n", Answer(1, "", "m:2: state 1 is shared with line 1"), "--compile-errors")
    yield "the same told", messages("A A\n" * million + "\nM\n", Answer(0, "s: A A\ns: A A\n"), "--echo-errors")
    yield "a hundred thousand brought up to date", messages("A A\n" * 100_000 + "\nM\n", Answer(0, "\nM\n"), "--update-errors")
    yield "a million blocks", messages("A A\n\nM\n\n" * million, Answer(1, "", "m:5: state 1 is shared with line 1"), "--compile-errors")
    yield "a million blocks told", messages("A A\n\nM\n\n" * million, Answer(0, "s: A A\ns: A A\n"), "--echo-errors")
    yield "a sentence of 8 million tokens", messages("A " * 8_000_000 + "\n\nM\n", Answer(1, "", "m:1: refused early at index 1"), "--compile-errors")
    yield "a word of 16 million", messages("A" * 16_000_000 + "\n\nM\n", Answer(1, ""), "--compile-errors")


def sessions():
    grammar = HEAD + "s: A s {} | B {}\n"

    def session(lines, answer):
        return {"g.mly": grammar}, ["--session", "g.mly"], lines, answer

    def forks(count):
        return "".join(f"fork a n{it}\n" for it in range(1, count + 1))

    yield "a million forks", session("begin a\n" + forks(999_999), Answer(0, "n999999 input-needed 0\n"))
    deep = "begin a\n" + "offer a A\nresume a\n" * 4000
    yield "990,000 forks of a deep stack", session(deep + forks(990_000), Answer(0, "n990000 input-needed 1\n"))
    steps = "".join(f"offer a A\nfork a n{it}\nresume a\n" for it in range(4000))
    yield "a fork at each of 4,000 steps", session("begin a\n" + steps + "show a\n", Answer(0, "a input-needed 1\n"))
    whole = "begin a\n" + "offer a A\nresume a\n" * 3998 + "offer a B\nresume a\n" + "resume a\n" * 4000 + "tree a\n"
    yield "the tree of a session", session(whole, Answer(0, "[s: B]" + "]" * 3998 + "\n"))
    yield "a million begins", session("".join(f"begin n{it}\n" for it in range(1_000_000)), Answer(0, "n999999 input-needed 0\n"))
    yield "a line of a million letters", session("begin " + "a" * 1_000_000 + "\n", Answer(0, " input-needed 0\n"))
    yield "a million lines that are none", session("\n" * 1_000_000, Answer(0, "error: unreadable\n"))
    yield "a line too many", session("\n" * 1_000_001, Answer(5, "error: unreadable\n", "too big: the input"))


def lists():
    def listed(grammar, answer, *words):
        return {"g.mly": grammar}, ["--list-errors", *words, "g.mly"], "", answer

    def doubling(count):
        return HEAD + "s: x%d B {}\n" % count + "x0: A {}\n" + "".join(f"x{it}: x{it - 1} x{it - 1} {{}}\n" for it in range(1, count + 1))

    yield "sentences that double 16 times", listed(doubling(16), Answer(0))
    yield "sentences that double 20 times", listed(doubling(20), refused("too long: state 3"))
    yield "sentences that double 60 times", listed(doubling(60), refused("too long: state 3"))
    yield "sentences that double 500 times", listed(doubling(500), refused("too long: state 3"))
    yield "a chain of 2,000", listed(HEAD + "s: r0 B {}\n" + chain(2_000, "A r{}", "A"), Answer(0))
    yield "the same, canonical", listed(HEAD + "s: r0 B {}\n" + chain(2_000, "A r{}", "A"), Answer(0), "--canonical")
    yield "9,990 unit rules", listed(HEAD + "s: r0 B {}\n" + chain(9_990, "r{}", "A"), Answer(0))
    yield "the automaton of a chain of 19,990", (
        {"g.mly": HEAD + "s: r0 B {}\n" + chain(19_990, "A r{}", "A")}, ["--show-automaton", "g.mly"], "", Answer(0))
    yield "the automaton of a right side of 10,000", (
        {"g.mly": HEAD + "s:" + " A" * 10_000 + " {}\n"}, ["--show-automaton", "g.mly"], "", Answer(0))


def words():
    grammar = HEAD + "s: A B {}\n"
    yield "5,000 words", ({"g.mly": grammar}, ["--interpret", *["g.mly"] * 5_000], "", Answer(0, "", "warning: conflict in state 3 on #"))
    yield "a word of 100,000 letters", ({"g.mly": grammar}, ["--interpret", "--" + "a" * 100_000, "g.mly"], "", Answer(2, "", "usage: bad words"))
    yield "a name of 100,000 letters", ({"g.mly": grammar}, ["--interpret", "a" * 100_000], "", Answer(3, ""))
    yield "an input line of 1 MiB", ({"g.mly": grammar}, ["--interpret", "g.mly"], " " * 1_048_576, Answer(0, "OVERSHOOT\n"))
    yield "one of a byte more", ({"g.mly": grammar}, ["--interpret", "g.mly"], "A B\n" + " " * 1_048_577, Answer(5, "ACCEPT\n", "too big: the input"))


def main():
    part = Part("deep inputs")
    chosen = sys.argv[4:]
    for group in (actuals, trees, expected, sides, chains, long_files, codes, messages_files, sessions, lists, words):
        if chosen and group.__name__ not in chosen:
            continue
        for name, (files, command, given, answer) in group():
            for file, text in files.items():
                put(file, text)
            told = []
            for stack in STACKS:
                ran = run("deep", command, given if isinstance(given, bytes) else given.encode(), stack=stack, limit=LIMIT)
                part.count(ran)
                if not answer.is_met(ran):
                    part.fail(f"{name} ({command[0]}), stack {stack} kB", ran)
                heavy = "  HEAVY" if ran.seconds > SECONDS or ran.megabytes > MEGABYTES else ""
                told.append(f"{ran.seconds:.1f} s {ran.megabytes:.0f} MB{heavy}")
            print(f"    {name} ({command[0]}): status {ran.status}, {', '.join(told)}", flush=True)
    part.end()


main()
