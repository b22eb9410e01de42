#!/usr/bin/env bash
# Replays 1,000 and 10,000 logged requests in the shape of real traffic through two revisions of 160 rules with patterns by the
# proved program, and prints how many requests it takes a second, beside how many it takes through two revisions without rules,
# and how the time grows from the one log to the other, with the time of reading the revisions taken off.
set -eu
top="$(cd "$(dirname "${BASH_SOURCE[0]}")/.." && pwd)"
. "$top/bench/traffic.sh"
program="$top/crates/wafreview/out/wafreview"
"$top/wafreview" capacity "$top/examples/first/bundle.json" >&2
work="$(mktemp -d)"
trap 'rm -rf "$work"' EXIT
cd "$work"

bundle 403 >bundle.json
bundle 404 >new.json
no_rules >default.json
: >none
request_lines 1000 >log
request_lines 10000 >long
# A line that the revisions decide otherwise, so that the status is 1 and the work is seen to be done.
echo '{"httpMethod":"GET","uri":"/","args":"","clientIp":"192.0.2.1","headers":[],"body":"c2xlZXAoOSkxNTk="}' | tee -a log >>long
replayed() { "$program" impact "$1" "$2" "$3" || [ $? -eq 1 ]; }

revisions=$(seconds said replayed bundle.json new.json none)
few=$(echo "$(seconds said replayed bundle.json new.json log) - $revisions" | bc)
many=$(echo "$(seconds said replayed bundle.json new.json long) - $revisions" | bc)
tail -n 1 said
default=$(seconds said replayed default.json default.json long)
rate() { echo "scale=0; 10000 / $1" | bc; }
echo "10,000 requests through two revisions of 160 patterns: $(rate "$many") a second; $(rate "$default") a second without rules; ratio $(echo "scale=2; $many / $default" | bc)"
echo "from 1,000 to 10,000 lines the time grows by $(echo "scale=2; $many / $few" | bc)"
