#!/usr/bin/env python3
"""example.py LIBRARY WORD..: the command `menhir` by the library, a shared object. Each word that names a file gives this
file, and the input is the standard input."""
import ctypes
import os
import sys


class Bytes(ctypes.Structure):
    _fields_ = [("bytes", ctypes.c_char_p), ("len", ctypes.c_size_t)]


class File(ctypes.Structure):
    _fields_ = [("name", Bytes), ("text", Bytes)]


def lent(text):
    """The bytes of a text, as the library reads them."""
    return Bytes(text, len(text))


def run(library, words, files, given, size=4096):
    """The status and the whole texts on out and err, for words, files (texts by name) and an input, all as bytes."""
    out, err = ctypes.create_string_buffer(size), ctypes.create_string_buffer(size)
    out_len, err_len = ctypes.c_uint64(), ctypes.c_uint64()
    words_lent = (Bytes * max(len(words), 1))(*map(lent, words))
    files_lent = (File * max(len(files), 1))(*(File(lent(name), lent(text)) for name, text in files.items()))
    status = library.menhir_page(
        words_lent, ctypes.c_size_t(len(words)), files_lent, ctypes.c_size_t(len(files)),
        ctypes.c_char_p(given), ctypes.c_size_t(len(given)),
        out, ctypes.c_size_t(size), ctypes.byref(out_len),
        err, ctypes.c_size_t(size), ctypes.byref(err_len),
    )
    needed = max(out_len.value, err_len.value)
    if needed > size:
        return run(library, words, files, given, needed)
    return status, out.raw[: out_len.value], err.raw[: err_len.value]


def file_named(name):
    with open(name, "rb") as it:
        return it.read()


def main():
    library = ctypes.CDLL(os.path.abspath(sys.argv[1]))
    library.menhir_page.restype = ctypes.c_uint8
    words = [os.fsencode(word) for word in sys.argv[2:]]
    files = {word: file_named(word) for word in words if os.path.isfile(word)}
    status, out, err = run(library, words, files, sys.stdin.buffer.read())
    sys.stdout.buffer.write(out)
    sys.stderr.buffer.write(err)
    return status


if __name__ == "__main__":
    sys.exit(main())
