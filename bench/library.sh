#!/usr/bin/env bash
# Compares the static library with the program: the C program and the Python program of library/ must give the status
# and the outputs of the program, byte for byte, on every example of the pages and on the small language of examples/.
# Usage: bench/library.sh PATH-OF-OUR-PROGRAM
# (after a run of the gate, the program is crates/menhir/out/menhir)
set -eu
export PYTHONDONTWRITEBYTECODE=1
ours=$(readlink -f "${1:?the path of the built program}")
top=$(dirname "$(dirname "$(readlink -f "$0")")")
folder=$(mktemp -d)
trap 'rm -rf "$folder"' EXIT
"$top/library/build.sh" "$folder"
python3 "$top/bench/library.py" "$ours" "$top" "$folder"
