#!/usr/bin/env bash
# Has the proved program build two revisions of 10, 30, 60 and 100 rules of two variables each and where they decide
# otherwise, a hundred times each, one run after the other. Prints the processor time and the nodes of one time, and by
# how much rules, time and nodes grew since the line before: nodes by the square of the rules, and time by the nodes.
# Then a chain of 20,000 variables, which no graph of so many is deeper than, on a stack of 8 MB.
set -eu
top="$(cd "$(dirname "${BASH_SOURCE[0]}")/.." && pwd)"
program="$top/crates/graph_bench/out/graph_bench"
[ -x "$program" ] || (cd "$top/crates/graph_bench" && rt run <stdin) >&2

# The milliseconds of processor time that one of so many equal lines takes, and what the program prints for it.
measure() {
    local line="$1" count="$2" nodes used TIMEFORMAT='%U + %S'
    nodes="$(mktemp)"
    used=$({ time yes "$line" 2>/dev/null | head -n "$count" | "$program" >"$nodes"; } 2>&1)
    echo "$(echo "scale=3; ($used) * 1000 / $count" | bc)" "$(tail -n 1 "$nodes")"
    rm "$nodes"
}

ratio() {
    echo "scale=1; $1 / $2" | bc
}

before=""
for rules in 10 30 60 100; do
    read -r milliseconds nodes < <(measure "rules $rules" 100)
    echo -n "$rules rules: $milliseconds milliseconds, $nodes nodes"
    if [ -n "$before" ]; then
        read -r old_rules old_milliseconds old_nodes <<<"$before"
        echo -n "; rules by $(ratio "$rules" "$old_rules"), time by $(ratio "$milliseconds" "$old_milliseconds"),"
        echo -n " nodes by $(ratio "$nodes" "$old_nodes")"
    fi
    echo
    before="$rules $milliseconds $nodes"
done
ulimit -s 8192
read -r milliseconds nodes < <(measure "chain 20000" 1)
echo "a chain of 20000 variables: $milliseconds milliseconds, $nodes nodes"
