#!/usr/bin/env bash
# Times the proved `shrink` on chains of 4,096 and 65,538 states, each of which has a residual of its own, and on random
# automata of 5,000 and 20,000 states, all in one run of the program. It prints each time in seconds, and how many times
# as long the larger of a pair took, beside how many times as many states it has.
set -eu
top="$(cd "$(dirname "${BASH_SOURCE[0]}")/.." && pwd)"
program="$top/crates/byte_automata_bench/out/byte_automata_bench"
[ -x "$program" ] || (cd "$top/crates/byte_automata_bench" && rt run) >&2

coproc BENCH { "$program"; }

# Asks for one automaton, and sets `left` and `seconds`.
ask() {
    local begin end
    begin=$(date +%s.%N)
    echo "$1 $2" >&"${BENCH[1]}"
    read -r left <&"${BENCH[0]}"
    end=$(date +%s.%N)
    seconds=$(echo "$end - $begin" | bc)
    echo "$1 of $2 states: $left left, $seconds seconds"
}

compare() {
    local first
    ask "$1" "$2"
    first=$seconds
    ask "$1" "$3"
    echo "$1: $(echo "scale=1; $3 / $2" | bc) times the states, $(echo "scale=1; $seconds / $first" | bc) times the time"
}

compare chain 4096 65538
compare random 5000 20000
