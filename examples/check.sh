#!/usr/bin/env bash
# Checks the small language, as its build would.
# Usage: examples/check.sh PROGRAM
# It ends with status 1 if the messages file is not complete and right, or if an answer is not the one in this folder.
set -u
program=$(readlink -f "${1:?the path of the program}")
cd "$(dirname "$0")" || exit 1
folder=$(mktemp -d)
trap 'rm -rf "$folder"' EXIT
grammar=(tokens.mly rules.mly)
passed=0
failed=0

# expect FILE COMMAND..: the command must end with status 0, write the text of FILE on out, and nothing on err.
expect() {
    local file=$1 status
    shift
    "$@" >"$folder/out" 2>"$folder/err"
    status=$?
    if [ "$status" -eq 0 ] && cmp -s "$file" "$folder/out" && [ ! -s "$folder/err" ]; then
        passed=$((passed + 1))
    else
        failed=$((failed + 1))
        echo "small language: status $status of: $*"
        diff "$file" "$folder/out"
        cat "$folder/err"
    fi
}

# The grammar has no conflict that levels do not solve. In the messages file each sentence is refused at its last token,
# no two are refused in one state, no state is missing, and no message is left to write.
expect /dev/null "$program" --strict --check-errors small.messages "${grammar[@]}"
# The comment lines of the messages file are those of this grammar.
expect small.messages "$program" --update-errors small.messages --comment-expected "${grammar[@]}"
# The table with the message of each state, which a parser looks up.
expect small.table "$program" --compile-errors small.messages "${grammar[@]}"
# The verdicts on the sentences, with the messages.
expect sentences.expected "$program" --interpret --messages small.messages "${grammar[@]}" <sentences.txt
# What the editor shows.
expect editor.expected python3 editor.py "$program" small.table "${grammar[@]}"

echo "small language: $passed passed, $failed failed"
[ "$failed" -eq 0 ]
