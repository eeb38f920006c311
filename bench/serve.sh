#!/usr/bin/env bash
# Times `watchcache serve` beside nginx and beside a plain Rust server, all in one run, and prints a table of ratios. Each
# server gets two processors, and the client the others. It ends with status 1 where a figure falls short of what is wanted.
# It needs nginx (apt-get install nginx-light), rustc and taskset, and about three minutes on a machine that is quiet.
# WATCHCACHE names another program than the proved one, QUICK=1 makes a short run that only shows that all works, and words
# pick single measures, as `bench/serve.sh idle_watches`.
set -euo pipefail
cd "$(dirname "$0")/.."
for needed in nginx rustc taskset; do
  command -v $needed >/dev/null || { echo "bench/serve.sh needs $needed"; exit 2; }
done
program=${WATCHCACHE:-bin/watchcache}
[ -n "${WATCHCACHE:-}" ] || [ -x bin/watchcache ] || make -s build
folder=$(mktemp -d)
chmod 755 "$folder"
trap 'rm -rf "$folder"' EXIT
rustc --edition 2021 -O -o "$folder/client" bench/serve/main.rs
rustc --edition 2021 -O -o "$folder/plain" bench/serve/plain.rs
ulimit -n "$(ulimit -Hn)"
count=$(nproc)
if [ "$count" -ge 4 ]; then servers=0,1 clients=2-$((count - 1)); else servers=0-$((count - 1)) clients=$servers; fi
echo "processors: $servers for the server, $clients for the client; load before: $(cut -d ' ' -f 1 /proc/loadavg)"
taskset -c "$clients" "$folder/client" "$program" "$folder/plain" "$folder" "$servers" ${QUICK:+quick} "$@"
