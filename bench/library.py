"""library.py PROGRAM TOP FOLDER: compares the programs of library/, which are built in FOLDER, with PROGRAM, on every
example of the pages and on the small language, in the repository TOP."""
import os
import shlex
import subprocess
import sys
import tempfile

program, top, built = (os.path.abspath(word) for word in sys.argv[1:])
sys.path.insert(0, os.path.join(top, "docs"))
from examples import examples

PAGES = ["README.md", "docs/USING.md", "docs/REFERENCE.md"]
# The small language: the words of a run, and the file of its input.
SMALL = [
    ("--strict --check-errors small.messages", None),
    ("--update-errors small.messages --comment-expected", None),
    ("--compile-errors small.messages", None),
    ("--interpret --messages small.messages", "sentences.txt"),
    ("--list-errors --comment-expected", None),
    ("--show-automaton", None),
    ("--write-tables", None),
]
OTHERS = {
    "example.c": [os.path.join(built, "example")],
    "example.py": [sys.executable, os.path.join(top, "library/example.py"), os.path.join(built, "libmenhir_page.so")],
}


def answer(command, words, folder, given):
    ran = subprocess.run([*command, *words], cwd=folder, input=given, capture_output=True, timeout=120)
    return ran.returncode, ran.stdout, ran.stderr


def compare(at, words, folder, given):
    """The number of programs that answer otherwise than the program."""
    wanted, wrong = answer([program], words, folder, given), 0
    for name, command in OTHERS.items():
        got = answer(command, words, folder, given)
        if got != wanted:
            wrong += 1
            print(f"WRONG {at}: {name}: {got!r}, and the program gives {wanted!r}")
    return wrong


def cases():
    """Each run: its position, the words, the files by name, and the input."""
    for page in PAGES:
        for example in examples(os.path.join(top, page)):
            yield example["at"], shlex.split(example["line"])[1:], example["files"], example["in"].encode()


def main():
    runs = wrong = 0
    for at, words, files, given in cases():
        with tempfile.TemporaryDirectory() as folder:
            for name, text in files.items():
                with open(os.path.join(folder, name), "w", encoding="utf-8", newline="") as it:
                    it.write(text)
            wrong += compare(at, words, folder, given)
        runs += 1
    folder = os.path.join(top, "examples")
    for words, name in SMALL:
        given = open(os.path.join(folder, name), "rb").read() if name else b""
        wrong += compare(f"examples: {words}", [*words.split(), "tokens.mly", "rules.mly"], folder, given)
        runs += 1
    print(f"library: {runs} runs, each by {len(OTHERS)} programs, {wrong} of them wrong")
    return 1 if wrong or not runs else 0


sys.exit(main())
