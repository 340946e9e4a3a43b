#!/usr/bin/env bash
# Compares the built program with Menhir itself (Debian's package `menhir`) on real grammars. Counts of states, whether
# there are conflicts, verdicts, trees and lists of errors must be the same. Times are printed as ratios. The program's
# samples must have the counts that follow from their numbers. At the end the script times generated grammars at the
# limits; none may take ten seconds. For each grammar file in FOLDER the script also compares the building of both
# automata (states, time, memory) and the list of errors, and times the lists of expected tokens and the rebasing of the
# list.
# The script ends with status 1 if a comparison fails.
# Usage: bench/compare.sh PATH-OF-OUR-PROGRAM [FOLDER]
# (after a run of the gate, the program is crates/menhir/out/menhir)
set -eu
ours=$(readlink -f "${1:?the path of the built program}")
bench=$(dirname "$(readlink -f "$0")")
further=${2:+$(readlink -f "$2")}
folder=$(mktemp -d)
trap 'rm -rf "$folder"' EXIT
cd "$folder"
failed=0
# On the 16 MiB file, Menhir's parser needs a deep stack.
ulimit -s unlimited

seconds() { # the processor seconds of a command; its output goes to out.txt and err.txt
    local TIMEFORMAT=%U
    { time "$@" >out.txt 2>err.txt || true; } 2>&1
}
resources() { # the processor seconds and MB of a command without input
    python3 - "$@" <<'END'
import resource, subprocess, sys
subprocess.run(sys.argv[1:], stdin=subprocess.DEVNULL, stdout=subprocess.DEVNULL, stderr=subprocess.DEVNULL)
used = resource.getrusage(resource.RUSAGE_CHILDREN)
print(f"{used.ru_utime:.2f} {used.ru_maxrss / 1024:.0f}")
END
}
ratio() { python3 -c "import sys; print(f'{float(sys.argv[1]) / max(float(sys.argv[2]), 0.001):.1f}')" "$1" "$2"; }
menhir_there() { command -v menhir >/dev/null; }
differs() { # reports a difference
    echo "$1: NOT THE SAME"
    failed=1
}
same() { # true if two files are equal apart from blanks and line ends
    cmp -s <(tr -d ' \n' <"$1") <(tr -d ' \n' <"$2")
}

# The name of a mode, given its option.
called() { if [ -n "$1" ]; then echo canonical; else echo merged; fi; }
# The number of states of a grammar's automaton, ours and Menhir's.
our_states() { "$ours" $1 --show-automaton "${@:2}" 2>err.txt | head -1 | tr -dc 0-9; }
their_states() { menhir --base g $1 --interpret -la 2 "${@:2}" 2>&1 </dev/null | sed -n 's/^Built an LR(1) automaton with \([0-9]*\) states.*/\1/p'; }

# Compares the warnings of `--check` with Menhir's.
compare_warnings() { # NAME FILE..
    python3 "$bench/warnings.py" "$ours" "${@:2}" >warnings.txt || differs "$1, warnings"
    cat warnings.txt
}

# Compares on 1,000 random sentences of a real grammar in both modes. Every second sentence has one token changed.
compare_grammar() {
    local name=$1 sentences=$1.in files file mode seed
    mkdir "$name"
    for file in "$bench/grammars/$name"/*.mly; do
        # Menhir's interpreter appends EOF to each sentence by itself, so the token gets another name here.
        sed 's/\<EOF\>/STOP/g' "$file" >"$name/$(basename "$file")"
    done
    files=("$name"/*.mly)
    menhir --base "$name" --only-preprocess-u "${files[@]}" 2>/dev/null | python3 "$bench/sentences.py" 1 1000 14 >"$sentences"
    # The program itself draws 20 more sentences.
    for seed in $(seq 20); do
        "$ours" --random-sentence "$seed" --length 100 "${files[@]}" 2>err.txt
    done | cut -d: -f2- >>"$sentences"
    echo "$name: $(wc -w <"$sentences") tokens in $(wc -l <"$sentences") sentences"
    compare_warnings "$name" "${files[@]}"
    for mode in "" --canonical; do
        compare_states "$name" "$mode" "${files[@]}"
        compare_conflicts "$name" "$mode" "${files[@]}"
        compare_verdicts "$name" "$mode" "$sentences" "${files[@]}"
        compare_errors "$name" "$mode" "${files[@]}"
    done
}

# Compares on 300 shorter sentences of another grammar, in the default mode. Each line names the first start symbol.
compare_further() { # FILE
    local name start file=further.mly
    name=$(basename "$1" .mly)
    sed 's/\<EOF\>/STOP/g' "$1" >"$file"
    menhir --base "$name" --only-preprocess-u "$file" 2>/dev/null >plain.txt
    start=$(sed -n 's/^%start \([a-zA-Z_]*\).*/\1/p' plain.txt | head -1)
    python3 "$bench/sentences.py" 1 300 8 <plain.txt | sed "s/^/$start: /" >"$name.in"
    echo "$name: $(wc -w <"$name.in") words in 300 sentences"
    compare_warnings "$name" "$file"
    compare_conflicts "$name" "" "$file"
    compare_verdicts "$name" "" "$name.in" "$file"
    compare_errors "$name" "" "$file"
}

compare_conflicts() { # NAME MODE FILE..
    local name=$1 mode=$2 conflicts theirs
    shift 2
    conflicts=$("$ours" $mode --interpret "$@" 2>&1 >/dev/null </dev/null | grep -c 'conflict in state' || true)
    theirs=$(menhir --base g $mode --interpret "$@" 2>&1 >/dev/null </dev/null | grep -c 'Warning: .* conflict' || true)
    echo "    $conflicts conflicts, $(called "$mode"); Menhir has $([ "$theirs" -gt 0 ] && echo some || echo none)"
    [ $((conflicts > 0)) = $((theirs > 0)) ] || differs "$name, $(called "$mode"), conflicts"
}

compare_states() { # NAME MODE FILE..
    local name=$1 mode=$2 states theirs
    shift 2
    states=$(our_states "$mode" "$@")
    theirs=$(their_states "$mode" "$@")
    echo "    $states $(called "$mode") states; Menhir has $theirs"
    [ "$states" = "$theirs" ] || differs "$name, $(called "$mode") states"
}

compare_verdicts() { # NAME MODE SENTENCES FILE..
    local name=$1 mode=$2 sentences=$3 words our_time their_time
    shift 3
    for words in "--interpret" "--interpret --interpret-show-cst"; do
        our_time=$(seconds "$ours" $mode $words "$@" <"$sentences")
        mv out.txt ours.txt
        their_time=$(seconds menhir --base "$name" $mode $words "$@" <"$sentences")
        sed '/^Ready!$/d' out.txt >theirs.txt
        same ours.txt theirs.txt || differs "$name, $words, $(called "$mode")"
        echo "    $words, $(called "$mode"): Menhir takes $(ratio "$their_time" "$our_time") times as long"
    done
}

# Counts the sentences of a list of errors by length.
lengths() { sed -n '/^[^#<].*:/s/^[^:]*://p' | awk '{ print NF }' | sort -n | uniq -c; }

# Compares the lists of errors of a grammar. With merged states the lengths of the sentences must be the same. With the
# canonical automaton the lists differ, and only times are reported: a state that could reduce by default refuses at
# once here, but not in Menhir.
compare_errors() { # NAME MODE FILE..
    local name=$1 mode=$2 our_time their_time entries their_entries
    shift 2
    our_time=$(seconds "$ours" $mode --list-errors "$@")
    lengths <out.txt >ours.txt
    entries=$(grep -c '^## Ends in an error' out.txt || true)
    their_time=$(seconds timeout 300 menhir --base "$name" $mode --list-errors "$@")
    lengths <out.txt >theirs.txt
    their_entries=$(grep -c '^## Ends in an error' out.txt || true)
    echo "    --list-errors, $(called "$mode"): $entries entries in $our_time s; Menhir has $their_entries and takes $(ratio "$their_time" "$our_time") times as long"
    [ -n "$mode" ] || cmp -s ours.txt theirs.txt || differs "$name, lengths of sentences"
}

# Builds a grammar's automaton, without input: states, processor seconds and MB.
compare_build() { # FILE MODE
    local base file=grammar.mly mode=$2 measured
    base=$(basename "$1" .mly)
    sed 's/\<EOF\>/STOP/g' "$1" >"$file"
    measured=$(resources "$ours" $mode --interpret "$file")
    echo "$base: $(our_states "$mode" "$file") $(called "$mode") states; ${measured% *} s and ${measured#* } MB"
    if menhir_there; then
        compare_states "$base" "$mode" "$file"
        local theirs
        theirs=$(resources menhir --base g $mode --interpret "$file")
        echo "    Menhir takes $(ratio "${theirs% *}" "${measured% *}") times as long and $(ratio "${theirs#* }" "${measured#* }") times the memory"
    fi
    compare_table "$file" "$mode" "${measured% *}"
}

# Reads and validates the table file of a grammar, and compares the time with that of building the automaton. Both times
# include reading the grammar file.
compare_table() { # FILE MODE SECONDS
    local file=$1 mode=$2 measured size
    "$ours" $mode --write-tables "$file" >g.tables 2>err.txt
    size=$(wc -c <g.tables)
    if [ "$size" -gt 16777216 ]; then # more than the limit of 16 MiB for a file
        local status=0
        "$ours" --tables g.tables --interpret "$file" </dev/null >out.txt 2>err.txt || status=$?
        [ "$status" = 5 ] || differs "$file, its table file is over 16 MiB"
        echo "    its table file has $size bytes: too big to be read"
        return
    fi
    measured=$(resources "$ours" --tables g.tables --interpret "$file")
    echo "    its table file has $size bytes: ${measured% *} s and ${measured#* } MB; to build takes $(ratio "$3" "${measured% *}") times as long"
    "$ours" --tables g.tables --write-tables "$file" 2>err.txt | cmp -s - g.tables || differs "$file, its table read and written again"
}

# Rebases a grammar's whole list of errors, as a messages file, onto the grammar with one token renamed. The time is
# compared with that of the list of errors alone, and the rebased file must compile.
compare_rebased() { # FILE
    local name token list_time rebase_time dropped
    name=$(basename "$1" .mly)
    "$ours" --list-errors "$1" >messages.txt 2>err.txt
    token=$("$ours" --write-tables "$1" 2>err.txt | sed -n 's/^tokens .* \([A-Za-z_0-9]*\)$/\1/p' | head -1)
    sed "s/\<$token\>/${token}_RENAMED/g" "$1" >renamed.mly
    list_time=$(least_of_three "$ours" --list-errors renamed.mly)
    rebase_time=$(least_of_three "$ours" --rebase-errors messages.txt renamed.mly)
    mv out.txt rebased.txt
    dropped=$(grep -c '^# dropped' rebased.txt || true)
    "$ours" --compile-errors rebased.txt renamed.mly >out.txt 2>err.txt || differs "$name, rebased and compiled"
    echo "$name: its list, rebased with $token renamed, drops $dropped sentences and takes $(ratio "$rebase_time" "$list_time") times as long as the list"
    python3 -c "import sys; sys.exit($rebase_time > 1.5 * $list_time)" || differs "$name, rebased in more than 1.5 times the time of the list"
}

# The processor seconds of a command on refused.in, with those that the system takes to write the output: the least of
# three runs.
least_of_three() {
    local TIMEFORMAT='%U %S'
    for _ in 1 2 3; do
        { time "$@" <refused.in >out.txt 2>err.txt || true; } 2>&1
    done | awk '{ print $1 + $2 }' | sort -n | head -1
}

# Times 100,000 refused lines: the sentences of a grammar's list of errors, repeated. With lists of expected tokens they
# may take at most four times as long.
compare_expected() { # FILE
    local name plain listed
    name=$(basename "$1" .mly)
    "$ours" --list-errors "$1" >out.txt 2>err.txt
    yes "$(sed -n '/^[^#<].*:/p' out.txt)" | head -100000 >refused.in
    plain=$(least_of_three "$ours" --interpret "$1")
    listed=$(least_of_three "$ours" --interpret --show-expected "$1")
    echo "$name: 100,000 refused lines in $plain s; with lists of expected tokens $(ratio "$listed" "$plain") times as long"
    python3 -c "import sys; sys.exit($listed > 4 * $plain)" || differs "$name, more than four times as long with lists of expected tokens"
}

# Checks the counts of the program's sample of a number: a grammar with k levels of operators, its list of errors, and
# 3,000 sentences. The counts follow from k: each level has one token, two productions, and three states, of which one
# is in the list (six and two with the canonical automaton).
compare_sample() { # NUMBER MODE
    local number=$1 mode=$2 k=$((2 + $1 % 30)) states listed taken
    states=$((3 * k + 8)) listed=$((k + 6))
    [ -z "$mode" ] || states=$((6 * k + 12)) listed=$((2 * k + 7))
    taken=$(seconds "$ours" --sample "$number" $mode)
    echo "sample of $k levels, $(called "$mode"): $taken s"
    [ "$(cat out.txt)" = "sample $number: tokens $((k + 4)), productions $((2 * k + 3)), states $states, listed $listed, accept 2059, overshoot 0, reject 941" ] ||
        differs "sample $number, $(called "$mode")"
}

# Prints our time for a command, and Menhir's as a ratio.
compare_time() { # NAME INPUT WORD..
    local name=$1 input=$2 our_time their_time=
    shift 2
    our_time=$(seconds "$ours" "$@" <"$input")
    mv out.txt ours.txt
    if menhir_there; then
        their_time=$(seconds timeout 100 menhir --base g "$@" <"$input")
        [ -s out.txt ] && ! grep -q 'Fatal error' err.txt || their_time=
    fi
    echo "$name: $our_time s${their_time:+; Menhir takes $(ratio "$their_time" "$our_time") times as long}"
}

# Times a generated grammar at its largest size, which must take less than ten seconds, and at half of this size.
compare_shape() { # NAME SIZE
    local name=$1 most=$2 half=$(($2 < 100 ? $2 - 1 : $2 / 2)) first measured
    python3 "$bench/shapes.py" "$name" "$half" >shape.mly
    first=$(resources "$ours" --interpret shape.mly)
    python3 "$bench/shapes.py" "$name" "$most" >shape.mly
    measured=$(resources "$ours" --interpret shape.mly)
    echo "$name: ${measured% *} s and ${measured#* } MB at $most, $(ratio "${measured% *}" "${first% *}") times as long as at $half"
    [ "$(ratio "${measured% *}" 10 | cut -d. -f1)" = 0 ] || differs "$name, less than ten seconds"
}

if menhir_there; then
    for name in json c lua sql; do compare_grammar "$name"; done
    for file in ${further:+"$further"/*.mly}; do
        compare_further "$file"
    done
else
    echo "Menhir is not here: only our times follow"
fi
if [ -n "$further" ]; then
    for file in "$further"/*.mly; do
        compare_build "$file" ""
        compare_build "$file" --canonical
        compare_expected "$file"
        compare_rebased "$file"
    done
fi
for number in 0 14 29; do
    compare_sample "$number" ""
    compare_sample "$number" --canonical
done
python3 "$bench/inputs.py"
compare_time "1,002,000 tokens of sums" sums.in --interpret sums.mly
compare_time "the same, with trees" sums.in --interpret --interpret-show-cst sums.mly
compare_time "a canonical automaton of 8,000 states" one.in --canonical --interpret states.mly
compare_time "a chain of 19,000 rules, with 64 tokens" one.in --interpret chain.mly
compare_time "5,000 unit rules, with 256 tokens" one.in --interpret units.mly
compare_time "a file of 16 MiB of small rules" one.in --interpret rules.mly
compare_time "1,000 files of 1,000 rules" one.in --interpret files/*.mly
echo "262,144 cores, of which 200,000 are too many: $(seconds "$ours" --interpret many.mly <one.in) s"
python3 "$bench/shapes.py" >shapes.txt
while read -r name most; do compare_shape "$name" "$most"; done <shapes.txt
exit $failed
