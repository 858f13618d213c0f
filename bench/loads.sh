#!/usr/bin/env bash
# Times the map on 24 loads beside the crate schnellru, and beside lru where that is given too. It needs cargo, and
# proves the library first. Memory is read by `ps`.
#   loads.sh SCHNELLRU [LRU] [-- rounds [keys ..] | memory | more]
# SCHNELLRU and LRU are folders of checkouts of the crates, which cargo builds there.
set -euo pipefail
crates=() words=()
while [ $# -gt 0 ]; do
    if [ "$1" = -- ]; then words=("${@:2}") && break; fi
    crates+=("$(realpath "$1")") && shift
done
[ ${#crates[@]} -gt 0 ] || { echo 'usage: loads.sh SCHNELLRU [LRU] [-- rounds [keys ..] | memory | more]'; exit 2; }
cd "$(dirname "$0")"
out=$(mktemp -d)
trap 'rm -rf "$out"' EXIT
(cd ../crates/bench_loads && rt lib) >"$out/log" 2>&1 || { cat "$out/log"; exit 1; }
kit=$(dirname "$(dirname "$(readlink -f "$(command -v rt)")")")
names=(schnellru lru) flags=()
for i in "${!crates[@]}"; do
    crate=${crates[$i]} name=${names[$i]}
    (cd "$crate" && RUSTFLAGS="-C target-cpu=x86-64-v2" cargo build --release --lib --target-dir "$out/$name") \
        >"$out/log" 2>&1 || { cat "$out/log"; exit 1; }
    flags+=(--cfg "$name" --extern "$name=$out/$name/release/lib$name.rlib" -L "dependency=$out/$name/release/deps")
done
rustc --edition 2024 -C opt-level=3 -C target-cpu=x86-64-v2 -C codegen-units=1 --check-cfg 'cfg(schnellru, lru)' \
    rust/loads.rs -o "$out/loads" "${flags[@]}" \
    -L ../crates/bench_loads/out -l static=bench_loads -C link-arg="$kit/c/liblibc_c.a"
# What is freed stays in the heap of the process, so that no map takes the page faults of the one before it.
[ "${words[0]:-}" = memory ] || export MALLOC_MMAP_MAX_=0 MALLOC_TRIM_THRESHOLD_=$((1 << 40))
"$out/loads" "${words[@]}"
