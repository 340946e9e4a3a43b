#!/usr/bin/env python3
"""join.py SOURCES MODULE PAGE: puts the files of page/src and the WebAssembly module into one HTML file.

In page.html, a line `<!-- join: FILE .. -->` stands for the texts of these files, and `<!-- module -->` for the module:
compressed by gzip, and written in base 64."""
import base64
import gzip
import os
import re
import sys


def main():
    sources, module, page = sys.argv[1:]

    def text_of(name):
        with open(os.path.join(sources, name), encoding="utf-8") as file:
            text = file.read()
        if name != "page.html" and "</script" in text.lower():
            sys.exit(f"join.py: {name} has the end of a script in its text")
        return text

    with open(module, "rb") as file:
        packed = base64.b64encode(gzip.compress(file.read(), 9, mtime=0)).decode()
    text = re.sub(
        r"<!-- join: (.*?) -->",
        lambda found: "\n".join(text_of(name) for name in found[1].split()).rstrip("\n"),
        text_of("page.html"),
    )
    text = text.replace("<!-- module -->", packed)
    with open(page, "w", encoding="utf-8") as file:
        file.write(text)
    print(f"{page}: {len(text.encode())} bytes, of which the module takes {len(packed)}")


if __name__ == "__main__":
    main()
