#!/usr/bin/env bash
# Makes a bundle of about 10 MB with 5,000 rules, reads it by `wafreview capacity` and by serde_json alone, both proved
# programs, and prints the seconds of each and their ratio, and the greatest memory of the first as a ratio to the file.
set -eu
top="$(cd "$(dirname "${BASH_SOURCE[0]}")/.." && pwd)"
alone="$top/crates/bundle_bench/out/bundle_bench"
[ -x "$alone" ] || (cd "$top/crates/bundle_bench" && rt run </dev/null) >&2
work="$(mktemp -d)"
trap 'rm -rf "$work"' EXIT

bundle() {
    awk 'BEGIN {
        for (i = 0; i < 225; i++) search = search "YWJj"
        account = "arn:aws:wafv2:us-east-1:111122223333:regional/webacl/w/1"
        printf "{\"WebACL\":{\"Name\":\"w\",\"ARN\":\"%s\",\"DefaultAction\":{\"Allow\":{}},\"Rules\":[", account
        for (i = 0; i < 5000; i++) {
            match_of = "{\"ByteMatchStatement\":{\"SearchString\":\"" search "\",\"FieldToMatch\":{\"UriPath\":{}},\"TextTransformations\":[{\"Priority\":0,\"Type\":\"NONE\"}],\"PositionalConstraint\":\"CONTAINS\"}}"
            printf "%s{\"Name\":\"r%d\",\"Priority\":%d,\"Statement\":{\"OrStatement\":{\"Statements\":[%s,%s]}},\"Action\":{\"Block\":{}}}", (i ? "," : ""), i, 5000 - i, match_of, match_of
        }
        printf "]}}\n"
    }'
}

seconds() {
    local begin end
    begin=$(date +%s.%N)
    "$@" >/dev/null
    end=$(date +%s.%N)
    echo "$end - $begin" | bc
}

# The greatest resident memory of the run in bytes, looked at all the time while it runs.
memory() {
    "$@" >/dev/null &
    local program=$! most=0 now
    while now=$(awk '/VmHWM/ { print $2 }' "/proc/$program/status" 2>/dev/null) && [ -n "$now" ]; do
        most=$now
    done
    wait "$program"
    echo "$most * 1024" | bc
}

bundle >"$work/bundle.json"
echo "$work/bundle.json" >"$work/names"
"$top/wafreview" capacity "$work/bundle.json" >&2
size=$(wc -c <"$work/bundle.json")
whole=$(seconds "$top/crates/wafreview/out/wafreview" capacity "$work/bundle.json")
parsed=$(seconds "$alone" <"$work/names")
most=$(memory "$top/crates/wafreview/out/wafreview" capacity "$work/bundle.json")
echo "$size bytes: bundle $whole seconds, serde_json alone $parsed seconds, ratio $(echo "scale=2; $whole / $parsed" | bc)"
echo "memory $most bytes, $(echo "scale=2; $most / $size" | bc) times the file"
