#!/usr/bin/env bash
# Times the proved search for a pattern of nearly 2,000 places in texts of 16,384 and 65,536 bytes, one run after the
# other, and prints both times in seconds and their ratio. A search that is linear in the text gives about 4.
set -eu
top="$(cd "$(dirname "${BASH_SOURCE[0]}")/.." && pwd)"
program="$top/crates/pattern_bench/out/pattern_bench"
[ -x "$program" ] || (cd "$top/crates/pattern_bench" && rt run) >&2

seconds() {
    local begin end
    begin=$(date +%s.%N)
    echo "$1" | "$program" >/dev/null
    end=$(date +%s.%N)
    echo "$end - $begin" | bc
}

short=$(seconds 16384)
long=$(seconds 65536)
echo "16384 bytes $short seconds, 65536 bytes $long seconds, ratio $(echo "scale=2; $long / $short" | bc)"
