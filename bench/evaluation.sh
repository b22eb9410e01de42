#!/usr/bin/env bash
# Replays 4,000 requests in the shape of real traffic through two revisions, once with 160 rules with patterns and once without
# rules, by the proved program, and prints the milliseconds that a request takes in one web ACL of these rules beside those that
# it takes to be read and answered by default, with the time of reading the revisions taken off.
set -eu
top="$(cd "$(dirname "${BASH_SOURCE[0]}")/.." && pwd)"
. "$top/bench/traffic.sh"
program="$top/crates/wafreview/out/wafreview"
"$top/wafreview" capacity "$top/examples/first/bundle.json" >&2
requests="${1:-4000}"
work="$(mktemp -d)"
trap 'rm -rf "$work"' EXIT
cd "$work"

bundle 403 >rules.json
no_rules >default.json
: >none
request_lines "$requests" >log

# The seconds that the log takes through this revision twice.
replayed() {
    local alone whole
    alone=$(seconds said "$program" impact "$1" "$1" none)
    whole=$(seconds said "$program" impact "$1" "$1" log)
    echo "$whole - $alone" | bc
}

default=$(replayed default.json)
rules=$(replayed rules.json)
each() { echo "scale=3; $1 * 1000 / $requests" | bc; }
evaluated=$(echo "scale=6; ($rules - $default) / 2" | bc)
echo "$requests requests, 160 patterns: $(each "$evaluated") milliseconds each; read and answered by default: $(each "$default"); ratio $(echo "scale=2; $evaluated / $default" | bc)"
