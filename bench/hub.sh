#!/usr/bin/env bash
# Times what a cache takes in with 0, 50 and 1,000 lanes, and reads of its store beside copies of a list, all in one
# run, by the program that bench/run built. It prints the figures, and ends with status 1 where a change costs more than one
# and a half times as much with 1,000 lanes as with 50, of which it touches the same one.
set -euo pipefail
cd "$(dirname "$0")/../crates/cases"
[ -x out/cases ] || { rt run </dev/null >/tmp/bench_hub.$$.log 2>&1 || { cat /tmp/bench_hub.$$.log; exit 1; }; }
rm -f /tmp/bench_hub.$$.log
figures=$(out/cases time:hub)
echo "$figures"
echo "$figures" | awk '/apply with 50 lanes/ { some = $5 } /apply with 1000 lanes/ { many = $5 } END { exit some == 0 || many > 1.5 * some }'
