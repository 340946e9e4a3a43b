#!/usr/bin/env python3
"""retarget.py FROM TO: changes an LLVM module for x86-64 Linux, as text, into a module for wasm64.

Both targets have words of 64 bits and lay data out alike, so only the lines that name the target change, and the
attributes of functions that name its processor and its stack. A call of what only x86-64 has ends the script."""
import re
import sys

LAYOUT = "e-m:e-p:64:64-p10:8:8-p20:8:8-i64:64-i128:128-n32:64-S128"
OF_X86 = "probe-stack|stack-probe-size|target-cpu|target-features|frame-pointer"


def main():
    source, target = sys.argv[1:]
    with open(source, encoding="utf-8") as file:
        text = file.read()
    only_x86 = sorted(set(re.findall(r"@(llvm\.x86[\w.]*)", text)))
    if only_x86 or "module asm" in text or " asm " in text:
        sys.exit(f"retarget.py: this module is for x86-64 alone: {' '.join(only_x86) or 'assembly'}")
    text = re.sub(r"^target datalayout = .*", f'target datalayout = "{LAYOUT}"', text, flags=re.M)
    text = re.sub(r"^target triple = .*", 'target triple = "wasm64-unknown-unknown"', text, flags=re.M)
    text = re.sub(rf'"({OF_X86})"="[^"]*"', "", text)
    with open(target, "w", encoding="utf-8") as file:
        file.write(text)


if __name__ == "__main__":
    main()
