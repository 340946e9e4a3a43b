#!/usr/bin/env python3
"""examples.py PROGRAM PAGE.. --pieces PAGE FOLDER..: runs the examples of the pages with a built program, and compares
the output byte for byte. It also looks up each block of the page after --pieces in the source files of the
folders that have the language of the block; spaces at the beginning of lines are ignored.

An example is a block `sh`. Its only line is `menhir` and the words. If the expected status is not 0, `status=N` follows
`sh`. The next blocks are `in` (the input), `out` and `err`; an empty one is left out. A block `file NAME` above an
example is a file in the folder in which the example is run. The script ends with status 1 if an answer differs or a
piece is in no source file."""
import argparse
import glob
import itertools
import os
import shlex
import subprocess
import sys
import tempfile


# The source files of each language.
SOURCES = {"rust": ["*.rt"], "c": ["*.c", "*.h"], "python": ["*.py"]}


def blocks(page):
    """The blocks of a page: the words after the fence, the line number of the fence, and the text."""
    found, words, start, text = [], None, 0, []
    with open(page, encoding="utf-8") as lines:
        for number, line in enumerate(lines, 1):
            if words is None and line.startswith("```"):
                words, start, text = line[3:].split(), number, []
            elif words is not None and line.startswith("```"):
                found.append((words, start, "".join(text)))
                words = None
            elif words is not None:
                text.append(line)
    return found


def examples(page):
    """Each example of a page: its position, its line, the files, the input, and the expected output and status."""
    files, found = {}, []
    for words, start, text in blocks(page):
        if words[:1] == ["file"]:
            files[words[1]] = text
        elif words[:1] == ["sh"]:
            wanted = [int(word[7:]) for word in words if word.startswith("status=")]
            found.append({"at": f"{page}:{start}", "line": text, "files": dict(files), "in": "", "out": "", "err": "", "status": (wanted or [0])[0]})
        elif words[:1] in (["in"], ["out"], ["err"]) and found:
            found[-1][words[0]] = text
    return found


def differs(program, example):
    """The differences between the program's answer and the page."""
    with tempfile.TemporaryDirectory() as folder:
        for name, text in example["files"].items():
            with open(os.path.join(folder, name), "w", encoding="utf-8", newline="") as it:
                it.write(text)
        words = shlex.split(example["line"])
        ran = subprocess.run([program, *words[1:]], cwd=folder, input=example["in"].encode(), capture_output=True, timeout=60)
    got = {"out": ran.stdout.decode(errors="replace"), "err": ran.stderr.decode(errors="replace"), "status": ran.returncode}
    return [f"{name}: {got[name]!r}, and the page says {example[name]!r}" for name in got if got[name] != example[name]]


def flush_left(text):
    """A text without the spaces at the beginning of its lines."""
    return "".join(line.lstrip(" ") for line in text.splitlines(keepends=True))


def sources(language, folders):
    """The texts of the source files of a language."""
    for folder, pattern in itertools.product(folders, SOURCES.get(language, [])):
        for name in sorted(glob.glob(os.path.join(folder, pattern))):
            with open(name, encoding="utf-8") as source:
                yield flush_left(source.read())


def strays(page, folders):
    """For each piece of code of a page: its position, and a complaint if no source file of the folders has the piece."""
    texts = {language: list(sources(language, folders)) for language in SOURCES}
    for words, start, text in blocks(page):
        is_there = any(flush_left(text) in source for language in words[:1] for source in texts.get(language, []))
        yield f"{page}:{start}", [] if is_there else [f"this piece is in no file of {' '.join(folders)}"]


def checks(given):
    """For each example and each piece: its position, and the complaints."""
    program = os.path.abspath(given.program)
    for example in (it for page in given.pages for it in examples(page)):
        yield example["at"], differs(program, example)
    if given.pieces:
        yield from strays(given.pieces[0], given.pieces[1:])


def main():
    parser = argparse.ArgumentParser()
    parser.add_argument("program")
    parser.add_argument("pages", nargs="*")
    parser.add_argument("--pieces", nargs="+", metavar=("PAGE", "FOLDER"))
    passed = failed = 0
    for at, wrong in checks(parser.parse_args()):
        for line in wrong:
            print(f"{at}: {line}")
        passed, failed = passed + (not wrong), failed + bool(wrong)
    print(f"examples: {passed} passed, {failed} failed")
    return 1 if failed or not passed else 0


if __name__ == "__main__":
    sys.exit(main())
