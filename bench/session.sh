#!/usr/bin/env bash
# Times `watchcache session` on creates, gets, lists and pages that stand in a file, beside a plain Rust program on the same bytes.
# It needs rustc, and takes under a minute. WATCHCACHE names another program than the proved one; QUICK=1 makes a short run.
set -euo pipefail
cd "$(dirname "$0")/.."
program=${WATCHCACHE:-bin/watchcache}
[ -n "${WATCHCACHE:-}" ] || [ -x bin/watchcache ] || make -s build
folder=$(mktemp -d)
trap 'rm -rf "$folder"' EXIT
rustc --edition 2021 -O -o "$folder/client" bench/session/main.rs
rustc --edition 2021 -O -o "$folder/plain" bench/serve/plain.rs
"$folder/client" "$program" "$folder/plain" "$folder" ${QUICK:+quick}
