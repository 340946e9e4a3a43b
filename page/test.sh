#!/usr/bin/env bash
# test.sh [--page FILE] [--program FILE] [--runs N] [--seed N] [--pictures FOLDER]: tests the page in headless Chromium.
#
#   --page FILE        the page; else page/out/menhir.html, as build.sh writes it
#   --program FILE     the program that the gate has built; else crates/menhir/out/menhir
#   --runs N           the number of random runs, else 500; --seed N: their seed, else 1
#   --pictures FOLDER  where pictures of the views are written; else page/out/pictures
#
# First the page and the program run the examples of README, docs/USING.md and docs/REFERENCE.md, and random runs; out,
# err and status must be equal. Then each view is used by keys and clicks. Needs Chromium ($CHROMIUM or `chromium`),
# Node from version 18 on, and Python.
set -euo pipefail
here=$(cd "$(dirname "$0")" && pwd)
top=$(dirname "$here")
page=$here/out/menhir.html program=$top/crates/menhir/out/menhir runs=500 seed=1 pictures=$here/out/pictures
while [ $# -gt 0 ]; do
  case $1 in
    --page) page=$2 ;;
    --program) program=$2 ;;
    --runs) runs=$2 ;;
    --seed) seed=$2 ;;
    --pictures) pictures=$2 ;;
    *) sed -n '2,7s/^# \{0,1\}//p' "$0" >&2; exit 2 ;;
  esac
  shift 2
done
examples=$(mktemp)
trap 'rm -f "$examples"' EXIT
python3 "$here/test/examples_of_pages.py" "$top/README.md" "$top/docs/USING.md" "$top/docs/REFERENCE.md" > "$examples"
status=0
node "$here/test/compare.mjs" "$page" "$program" "$examples" "$runs" "$seed" || status=1
node "$here/test/views.mjs" "$page" "$program" "$top/bench/grammars" "$pictures" || status=1
exit "$status"
