#!/usr/bin/env bash
# Replays logs by wafkit, and the same lines by the proved program itself, through two revisions of 160 rules with patterns and a
# geographic rule, where all lines have equal answers; prints in one run the ratio of the times, on one core and on all. Then
# the same files as one file: the summary must be the same. What any one process held of memory is printed beside.
# Words: the number of files (20), that of lines in each (1,000), and the number of rules with patterns (160).
set -eu
top="$(cd "$(dirname "${BASH_SOURCE[0]}")/.." && pwd)"
. "$top/bench/traffic.sh"
files="${1:-20}" lines="${2:-1000}" rules="${3:-160}"
program="$top/crates/wafreview/out/wafreview"
"$top/wafreview" capacity "$top/examples/first/bundle.json" >&2
work="$(mktemp -d)"
trap 'rm -rf "$work"' EXIT
cd "$work"

# The first of the rules of traffic.sh's web ACL, with the one that answers with this code, behind a geographic one.
with_geography() {
    bundle "$1" | python3 -c 'import json, sys
read = json.load(sys.stdin)
rules = read["WebACL"]["Rules"]
geography = {"Name": "geo", "Priority": 1000, "Statement": {"GeoMatchStatement": {"CountryCodes": ["KP"]}}, "Action": {"Block": {}}}
read["WebACL"]["Rules"] = rules[: int(sys.argv[1]) - 1] + [rules[-1], geography]
json.dump(read, sys.stdout)' "$rules"
}
with_geography 403 >old.json
with_geography 404 >new.json
mkdir logs
request_lines "$lines" | sed 's/^{"httpRequest":{/&"country":"US",/' >lines
echo '{"httpRequest":{"country":"US","httpMethod":"GET","uri":"/","args":"","clientIp":"192.0.2.1","headers":[],"body":"c2xlZXAoOSkxNTk="}}' >>lines
for ((i = 0; i < files; i++)); do cp lines "logs/$(printf %06d "$i")"; done
cat logs/* >one
"$top/wafkit" answers old.json lines --line 1 >answers.json

# The program takes files of at most 64 MiB.
mkdir parts
split -C 60M one parts/
own() { for part in parts/*; do "$program" impact old.json new.json "$part" answers.json || [ $? -eq 1 ]; done; }
peak() { python3 -c 'import resource, subprocess, sys
code = subprocess.call(sys.argv[1:])
print("most memory of a process", resource.getrusage(resource.RUSAGE_CHILDREN).ru_maxrss // 1024, "MiB", file=sys.stderr)
sys.exit(0 if code == 1 else 9)' "$@"; }

first_core="$(taskset -cp $$ | sed 's/.*: //; s/[,-].*//')"
program_time=$(seconds said own)
one_core=$(seconds one_core.said peak taskset -c "$first_core" "$top/wafkit" impact old.json new.json logs)
all_cores=$(seconds all_cores.said peak "$top/wafkit" impact old.json new.json logs)
one_file=$(seconds one_file.said peak "$top/wafkit" impact old.json new.json one)
summary() { grep ^summary "$1"; tail -n 1 "$1" | sed 's/^impact logs [0-9]* //'; }
tail -n 1 one_core.said
for said in all_cores.said one_file.said; do
    diff <(summary one_core.said) <(summary $said) || { echo "$said has another summary"; exit 1; }
done
ratio() { echo "scale=2; $1 / $program_time" | bc; }
echo "the program's own time $program_time seconds; wafkit on one core $one_core, ratio $(ratio "$one_core")"
echo "wafkit on all cores $all_cores, ratio $(ratio "$all_cores"); all lines in one file $one_file, ratio $(ratio "$one_file")"
if [ -n "${SCHEDULER-}" ]; then
    cluster=$(seconds cluster.said peak "$top/wafkit" impact old.json new.json logs --scheduler "$SCHEDULER")
    diff <(summary one_core.said) <(summary cluster.said) || { echo "the cluster has another summary"; exit 1; }
    echo "wafkit on the cluster $cluster, ratio $(ratio "$cluster")"
fi
