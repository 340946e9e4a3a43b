#!/usr/bin/env bash
# Tests hostile use of the built program: each allocation, open, read and write is refused in turn; files are damaged
# (for table files, the verdicts are compared with the content of the file); inputs are deep.
# The script reports what it tried, how often, and what it found. It ends with status 1 if anything is wrong.
# Usage: bench/faults.sh PATH-OF-OUR-PROGRAM [devices|refuse|damage|tables|deep]..
# (after a run of the gate, the program is crates/menhir/out/menhir)
# WORKERS=N makes N runs at a time; the default is the number of processors.
set -eu
export PYTHONDONTWRITEBYTECODE=1
ours=$(readlink -f "${1:?the path of the built program}")
shift
bench=$(dirname "$(readlink -f "$0")")
folder=$(mktemp -d)
trap 'rm -rf "$folder"' EXIT
# The program uses memory and devices through the C library, so a library that is loaded before it can refuse any call.
cc -O2 -Wall -shared -fPIC -o "$folder/refuse.so" "$bench/refuse.c" -ldl
cd "$folder"
status=0

ended() { # STATUS COMMAND: reports the command, with devices as a shell may leave them, if its status differs
    local got=0
    bash -c "$2" >out 2>err || got=$?
    [ $got = "$1" ] || { echo "WRONG $2: status $got"; status=1; }
}
devices() {
    export ours
    printf '%%token A EOF\n%%start s\n%%%%\ns: A EOF {} | x EOF {}\nx: A {}\n' >g.mly
    ended 3 '"$ours" --interpret g.mly <&-'
    ended 3 '"$ours" --interpret g.mly <.'
    ended 3 '"$ours" --interpret . <g.mly'
    ended 3 '"$ours" --interpret nothing.mly <g.mly'
    ended 4 '"$ours" --interpret g.mly <g.mly >&-'
    ended 4 '"$ours" --interpret g.mly <g.mly >/dev/full'
    ended 4 '"$ours" --interpret g.mly <g.mly 2>&-'
    ended 4 '"$ours" --interpret g.mly <g.mly 2>/dev/full'
    ended 4 '"$ours" --interpret nothing.mly 2>&-'
    ended 4 'set -o pipefail; yes | { "$ours" --interpret g.mly; echo $? >&3; } 3>status | head -1; exit $(cat status)'
    ended 5 '"$ours" --interpret /dev/zero <g.mly'
    ended 5 '"$ours" --interpret g.mly </dev/zero'
    ended 0 '"$ours" --show-automaton g.mly <&-'
    echo "closed, full and endless devices: 13 runs"
}
for part in "${@:-devices refuse damage tables deep}"; do
    for name in $part; do
        if [ "$name" = devices ]; then
            devices
        else
            python3 "$bench/faults_$name.py" "$ours" "$bench" "$folder" || status=1
        fi
    done
done
exit $status
