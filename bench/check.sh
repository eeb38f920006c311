#!/usr/bin/env bash
# Times `watchcache check` on a record of 10,000 revisions and 100,000 lines, beside a plain reader of JSON that reads the same
# bytes. It needs rustc, and takes under a minute. WATCHCACHE names another program than the proved one; QUICK=1 makes a short run.
set -euo pipefail
cd "$(dirname "$0")/.."
program=${WATCHCACHE:-bin/watchcache}
[ -n "${WATCHCACHE:-}" ] || [ -x bin/watchcache ] || make -s build
folder=$(mktemp -d)
trap 'rm -rf "$folder"' EXIT
rustc --edition 2021 -O -o "$folder/client" bench/check/main.rs
"$folder/client" "$program" "$folder" ${QUICK:+quick}
