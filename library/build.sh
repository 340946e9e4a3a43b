#!/usr/bin/env bash
# Builds the program of example.c, and the shared object that example.py loads, from the static library.
# Usage: library/build.sh FOLDER
# FOLDER gets the files `example` and `libmenhir_page.so`. If the static library is not there, `rt lib` makes it, with
# all proofs, which takes more than half an hour the first time.
set -eu
folder=$(readlink -f "${1:?the folder for what is built}")
cd "$(dirname "$(readlink -f "$0")")"
export_crate=../crates/mh_export
archive=$export_crate/out/libmh_export.a
[ -f "$archive" ] || (cd "$export_crate" && rt lib)
# The library takes its memory by three functions of the kit, which call malloc, realloc and free.
heap=$(dirname "$(rt doc)")/c/liblibc_c.a
cc -O2 -Wall -Wextra -o "$folder/example" example.c "$archive" "$heap" -lm
cc -shared -o "$folder/libmenhir_page.so" -Wl,-u,menhir_page "$archive" "$heap" -lm
