"""Refuses each allocation, open, read and write in turn, in each mode.

Memory is refused at each allocation once, and from every tenth allocation on. A run must then end with the whole
answer, or with status 6: out has a prefix of the whole text, and err has a prefix of its whole text and the line that
memory ran out. If a device fails, a run must end with the status of a read fault or a write fault, and with prefixes of
both texts. If a read or a write moves only one byte, the answer must be the whole answer.
"""
import os
import struct
import sys

sys.path.insert(0, sys.argv[2])
from hostile import BENCH, CALC, FOLDER, NO_MEMORY, OURS, REFUSE, Part, each, put, run, with_messages

SENTENCES = {
    "json": b"LBRACE STRING COLON LBRACKET NUMBER COMMA NULL RBRACKET RBRACE EOF\nTRUE\nTRUE COMMA\n",
    "calc": b"INT PLUS LPAREN INT COMMA INT RPAREN EOF\nIF INT INT ELSE INT\nINT COMMA\nINT Z\n",
}
SESSION = b"begin a\nexpected a\noffer a %s\nfork a b\nresume a\nresume a\nshow b\noffer a COMMA\nresume a\nresume a\nforget b\nnonsense\n"
ALLOC, OPEN, READ, WRITE = range(4)


def environment(place, kind, call, how):
    counts = os.path.join(FOLDER, f"{place}.counts")
    with open(counts, "wb") as file:
        file.write(bytes(32))
    return {"LD_PRELOAD": REFUSE, "REFUSE": kind, "AT": str(call), "HOW": how, "COUNTS": counts}, counts


def counted(place, words, given):
    """A run in which nothing is refused, and the number of its calls of each kind."""
    env, counts = environment(place, "none", 0, "once")
    ran = run(place, words, given, env)
    with open(counts, "rb") as file:
        return ran, struct.unpack("4Q", file.read())


def is_whole(ran, whole):
    return (ran.status, ran.out, ran.err) == (whole.status, whole.out, whole.err)


def is_out_of_memory(ran, whole):
    return (
        ran.status == 6
        and whole.out.startswith(ran.out)
        and ran.err.endswith(NO_MEMORY)
        and whole.err.startswith(ran.err[: -len(NO_MEMORY)])
    )


def is_read_fault(ran, whole):
    said = ran.err.rsplit(b"\n", 2)[-2] + b"\n" if ran.err.endswith(b"\n") else b""
    return (
        ran.status == 3
        and whole.out.startswith(ran.out)
        and said.startswith(b"menhir: cannot read ")
        and whole.err.startswith(ran.err[: -len(said)])
    )


def is_write_fault(ran, whole):
    return ran.status == 4 and whole.out.startswith(ran.out) and whole.err.startswith(ran.err)


# Rows of: the kind of call, its number, how it is refused, the step from one refused call to the next, and the tests of
# which a run must pass one.
REFUSALS = [
    ("alloc", ALLOC, "once", 1, (is_out_of_memory, is_whole)),
    ("alloc", ALLOC, "on", 10, (is_out_of_memory, is_whole)),
    ("open", OPEN, "once", 1, (is_read_fault,)),
    ("read", READ, "once", 1, (is_read_fault,)),
    ("read", READ, "on", 1, (is_read_fault,)),
    ("read", READ, "short", 1, (is_whole,)),
    ("write", WRITE, "once", 1, (is_write_fault,)),
    ("write", WRITE, "on", 1, (is_write_fault,)),
    ("write", WRITE, "short", 1, (is_whole,)),
]


def jobs():
    """The words and the input of each mode, for both grammars."""
    for name in ("json", "calc"):
        text = open(os.path.join(BENCH, "grammars/json/json.mly"), "rb").read() if name == "json" else CALC
        file = put(f"{name}.mly", text)
        entries = run("made", ["--list-errors", file])
        assert entries.status == 0, entries.told()
        messages = put(f"{name}.messages", with_messages(entries.out))
        fewer = put(f"{name}.fewer", with_messages(entries.out[: entries.out.index(b"\n\n", 300) + 2] + b"M\n"))
        lines = SENTENCES[name]
        token = b"NUMBER" if name == "json" else b"INT"
        yield ["--interpret", file], lines
        yield ["--interpret", "--interpret-show-cst", file], lines
        yield ["--interpret", "--messages", messages, file], lines
        yield ["--interpret", "--show-expected", file], lines
        yield ["--interpret-error", file], b"COMMA\n"
        yield ["--interpret-error", file], lines
        yield ["--list-errors", file], b""
        yield ["--compile-errors", messages, file], b""
        yield ["--compare-errors", messages, "--compare-errors", fewer, file], b""
        yield ["--update-errors", messages, file], b""
        yield ["--rebase-errors", messages, file], b""
        yield ["--echo-errors", messages, file], b""
        yield ["--check-errors", messages, file], b""
        yield ["--check", file], b""
        yield ["--session", file], SESSION % token
        yield ["--show-automaton", file], b""
        yield ["--canonical", "--show-automaton", file], b""
        yield ["--show-automaton", "--strict", "--no-stdlib", file], b""
        yield ["--interpret", file, messages], lines
        # Modes that the program may lack.
        yield ["--write-tables", file], b""
        table = put(f"{name}.table", run("made", ["--write-tables", file]).out)
        yield ["--tables", table, "--interpret", file], lines
        yield ["--tables", table, "--list-errors", file], b""
        yield ["--shortest-sentences", file], b""
        yield ["--explain", file], b""
        yield ["--list-errors", "--comment-expected", file], b""
        yield ["--random-sentence", "7", "--length", "50", file], b""
    yield ["--sample", "0"], b""


def main():
    part = Part("refused calls")
    totals, endings = {}, {}
    for words, given in jobs():
        whole, counts = counted("made", words, given)
        if whole.status == 2:
            print(f"    {' '.join(words)}: not there")
            continue
        if whole.status not in (0, 1):
            part.fail(" ".join(words), whole)
        for kind, number, how, step, ends in REFUSALS:

            def work(place, call):
                env, _ = environment(place, kind, call, how)
                ran = run(place, words, given, env)
                if not any(end(ran, whole) for end in ends):
                    part.fail(f"{' '.join(words)}, {kind} {call} refused, {how}", ran)
                return ran

            calls = range(1, counts[number] + 1, step)
            for ran in each(calls, work):
                part.count(ran)
                ending = "the whole answer" if is_whole(ran, whole) else f"status {ran.status}"
                endings[ending] = endings.get(ending, 0) + 1
            totals[kind, how] = totals.get((kind, how), 0) + len(calls)
        print(f"    {' '.join(words)}: status {whole.status}, {', '.join(map(str, counts))} allocations, opens, reads, writes", flush=True)
    print("    refused: " + ", ".join(f"{count} of {kind}, {how}" for (kind, how), count in totals.items()))
    print("    ended: " + ", ".join(f"{count} with {ending}" for ending, count in sorted(endings.items())))
    part.end()


main()
