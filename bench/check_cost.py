#!/usr/bin/env python3
"""Compares the time of `--check` with the time of reading: check_cost.py PROGRAM [SHAPE | FILE]..

Reading is `--interpret` without sentences. A SHAPE is one of shapes.py, at its largest size. A FILE is a grammar file;
its rules are repeated with other names up to 16 MiB. Without arguments, each shape of at least 1 MB is measured. The
time is that of the processor, for the program and for the system; both modes run in turn, five times each. For each
file the script prints the best and the middle time of both modes, their ratios, and the number of lines that `--check`
writes.
"""
import os
import re
import statistics
import subprocess
import sys
import tempfile

MOST_BYTES = 16_777_216
RUNS = 5
BENCH = os.path.dirname(os.path.abspath(__file__))
# The name of a rule at its definition.
DEFINITION = re.compile(r"(?m)^\s*(?:%public\s+|%inline\s+)*([a-z_]\w*)\s*(?:\([^)]*\))?\s*:")


def shapes():
    """The shapes, each with its largest size."""
    out = subprocess.run([sys.executable, f"{BENCH}/shapes.py"], capture_output=True, text=True, check=True).stdout
    return {name: int(size) for name, size in (line.split() for line in out.splitlines())}


def shape_text(shape, size):
    words = [sys.executable, f"{BENCH}/shapes.py", shape, str(size)]
    return subprocess.run(words, capture_output=True, text=True, check=True).stdout


def repeated(text):
    """The grammar with copies of its rules, as many as fit. The names of each copy end with its number."""
    parts = text.split("%%")
    head, rules = parts[0] + "%%", parts[1]
    names = "|".join(sorted(map(re.escape, set(DEFINITION.findall(rules))), key=len, reverse=True))
    name = re.compile(rf"\b({names})\b")
    texts, size = [head, rules], len(head) + len(rules)
    while True:
        copy = name.sub(rf"\g<1>_{len(texts)}", rules)
        size += len(copy)
        if size > MOST_BYTES - 1000:
            return "\n".join(texts) + "\n"
        texts.append(copy)


def seconds(program, mode, path):
    words = [program, mode, path]
    null = subprocess.DEVNULL
    _, _, usage = os.wait4(subprocess.Popen(words, stdin=null, stdout=null, stderr=null).pid, 0)
    return usage.ru_utime + usage.ru_stime


def measure(program, name, text):
    with tempfile.TemporaryDirectory(dir="/dev/shm" if os.path.isdir("/dev/shm") else None) as folder:
        path = f"{folder}/g.mly"
        with open(path, "w") as file:
            file.write(text)
        times = {"--interpret": [], "--check": []}
        for turn in range(RUNS):
            for mode in sorted(times, reverse=turn % 2 == 0):
                times[mode].append(seconds(program, mode, path))
        lines = subprocess.run([program, "--check", path], capture_output=True).stdout.count(b"\n")
    best, middle = ({mode: kind(times[mode]) for mode in times} for kind in (min, statistics.median))
    print(
        f"{name}: reading {best['--interpret']:.2f} s (middle {middle['--interpret']:.2f}), "
        f"--check {best['--check']:.2f} s ({middle['--check']:.2f}), "
        f"ratio {best['--check'] / best['--interpret']:.2f} ({middle['--check'] / middle['--interpret']:.2f}), "
        f"{lines} lines",
        flush=True,
    )


def main():
    program, wanted = os.path.abspath(sys.argv[1]), sys.argv[2:]
    sizes = shapes()
    for name in wanted or [name for name in sizes if sizes[name] >= 1_000_000]:
        if name in sizes:
            measure(program, name, shape_text(name, sizes[name]))
        else:
            with open(name) as file:
                measure(program, os.path.basename(name), repeated(file.read()))


main()
