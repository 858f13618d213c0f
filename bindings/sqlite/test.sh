#!/usr/bin/env bash
# Runs one workload of SQLite with its own page cache and with ours: test.sh LIBLRU. It prints the two times. The results
# must be equal, and valgrind must find nothing.
set -euo pipefail
library=$(realpath "$1")
cd "$(dirname "$0")"
out=$(mktemp -d)
trap 'rm -rf "$out"' EXIT
"${CC:-gcc}" -std=c11 -O2 -g -Wall -Wextra -Wpedantic -Werror -I../c page_cache.c workload.c "$library" -lsqlite3 \
    -o "$out/workload"
seconds() { local start=$EPOCHREALTIME; "${@:2}" >"$1"; awk "BEGIN { print $EPOCHREALTIME - $start }"; }
own=$(seconds "$out/own" "$out/workload" "$out/database" 100000)
ours=$(seconds "$out/ours" "$out/workload" "$out/database" 100000 lru)
cmp "$out/own" "$out/ours"
if command -v valgrind >/dev/null; then
    valgrind -q --leak-check=full --error-exitcode=9 "$out/workload" "$out/database" 1000 lru >"$out/small"
    "$out/workload" "$out/database" 1000 | cmp - "$out/small"
else
    echo "sqlite: valgrind is missing"
fi
echo "sqlite: equal results; $own seconds with SQLite's page cache, $ours with ours"
