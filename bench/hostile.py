"""Shared by the parts of bench/faults.sh: runs of the program, a grammar, and the list of failures."""
import multiprocessing
import os
import sys
from concurrent.futures import ThreadPoolExecutor

OURS, BENCH, FOLDER = sys.argv[1:4]
REFUSE = os.path.join(FOLDER, "refuse.so")
WORKERS = int(os.environ.get("WORKERS", os.cpu_count() or 1))
NO_MEMORY = b"menhir: out of memory\n"

# A grammar with most kinds of declarations. It has a conflict, so the program warns.
CALC = """%{ open Ast %}
%token <int> INT
%token PLUS "+" TIMES "*" LPAREN "(" RPAREN ")" COMMA [@cost 3] IF ELSE EOF
%left "+"
%left "*"
%start <Ast.expr> main
%on_error_reduce expr
%%
main: e = expr; EOF { e }
%inline op: "+" { Add } | "*" { Mul }
expr:
| n = INT { Int n }
| "(" es = separated_list(COMMA, expr) ")" { Tuple es }
| a = expr o = op b = expr { o a b } %prec "+"
| IF a = expr b = expr c = tail(ELSE)? { If (a, b, c) }
%public tail(WORD): WORD a = expr { a }
"""


def started(command, env, names):
    """Runs a command with files as input and outputs. Returns its status, processor seconds and kilobytes."""
    flags = os.O_WRONLY | os.O_CREAT | os.O_TRUNC
    actions = [
        (os.POSIX_SPAWN_OPEN, 0, names[0], os.O_RDONLY, 0),
        (os.POSIX_SPAWN_OPEN, 1, names[1], flags, 0o600),
        (os.POSIX_SPAWN_OPEN, 2, names[2], flags, 0o600),
    ]
    child = os.posix_spawn(command[0], command, env, file_actions=actions)
    _, ended, used = os.wait4(child, 0)
    return os.waitstatus_to_exitcode(ended), used.ru_utime + used.ru_stime, used.ru_maxrss


# The processes that start the runs are made while this process is small: the memory that is reported for a run is at
# least that of its parent.
STARTERS = multiprocessing.get_context("fork").Pool(WORKERS)


class Ran:
    """The result of a run: its status (negative for a signal), both texts, its processor seconds and megabytes."""

    def __init__(self, status, out, err, seconds, megabytes):
        self.status, self.out, self.err, self.seconds, self.megabytes = status, out, err, seconds, megabytes

    def told(self):
        return f"status {self.status}, {len(self.out)} bytes on out, err {self.err[:200]!r}, {self.seconds:.1f} s, {self.megabytes:.0f} MB"


def put(name, text):
    """Writes a file in the folder, and returns its name."""
    with open(os.path.join(FOLDER, name), "wb") as file:
        file.write(text if isinstance(text, bytes) else text.encode())
    return name


def run(place, words, given=b"", env=None, stack=None, limit=None):
    """Runs the program in the folder. `place` names the files for its texts; runs at one time need different names."""
    names = [os.path.join(FOLDER, f"{place}.{it}") for it in ("in", "out", "err")]
    with open(names[0], "wb") as file:
        file.write(given)
    limits = {"s": stack, "t": limit}
    set_limits = "".join(f"ulimit -{letter} {it}; " for letter, it in limits.items() if it)
    command = [OURS, *words]
    if set_limits:
        command = ["/bin/sh", "-c", set_limits + 'exec "$@"', "sh", *command]
    status, seconds, kilobytes = STARTERS.apply(started, (command, env or {}, names))
    texts = [open(it, "rb").read() for it in names[1:]]
    return Ran(status, *texts, seconds, kilobytes / 1024)


class Part:
    """A part of the script: the number of its runs, and its failures."""

    def __init__(self, name):
        self.name, self.runs, self.wrong = name, 0, []
        self.most_seconds = self.most_megabytes = 0.0

    def count(self, ran):
        self.runs += 1
        self.most_seconds = max(self.most_seconds, ran.seconds)
        self.most_megabytes = max(self.most_megabytes, ran.megabytes)

    def fail(self, what, ran):
        self.wrong.append(what)
        if len(self.wrong) <= 20:
            print(f"WRONG {what}: {ran.told()}", flush=True)

    def end(self):
        print(
            f"{self.name}: {self.runs} runs, at most {self.most_seconds:.1f} s and {self.most_megabytes:.0f} MB; "
            f"{len(self.wrong) or 'nothing'} wrong",
            flush=True,
        )
        sys.exit(1 if self.wrong else 0)


def each(calls, work):
    """Calls work(place, call) for each call, WORKERS at a time. Returns the results in order."""
    places = [f"run{it}" for it in range(WORKERS)]

    def turn(pair):
        place = places.pop()
        try:
            return work(place, pair)
        finally:
            places.append(place)

    with ThreadPoolExecutor(WORKERS) as pool:
        return list(pool.map(turn, calls))


def with_messages(entries):
    """A list of errors in which each place for a message has a message."""
    count = 0
    lines = []
    for line in entries.decode().split("\n"):
        if line == "<YOUR SYNTAX ERROR MESSAGE HERE>":
            count += 1
            line = f"Message {count}."
        lines.append(line)
    return "\n".join(lines)
