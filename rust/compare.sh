#!/usr/bin/env bash
# Compares the crate jeerdurian with a checkout of schnellru 0.2.4, which cargo builds.
#
#     rust/compare.sh SCHNELLRU [calls [CALLS [SEED]]]   random calls on both, 10,000,000 of them; each call is compared
#     rust/compare.sh SCHNELLRU soak [CALLS [SEED]]      a billion calls on one map of each; a sum of the answers is compared
#     rust/compare.sh SCHNELLRU counts [SIZE [LOAD..]]   instructions an operation, by valgrind
#     rust/compare.sh SCHNELLRU times [SIZES [LOAD..]]   nanoseconds an operation, the best of PROCESSES (7)
set -euo pipefail
checkout=$(realpath "${1:?the folder of a checkout of schnellru}")
what=${2:-calls}
shift $(($# < 2 ? $# : 2))
cd "$(dirname "$0")"
out=$(mktemp -d)
trap 'rm -rf "$out"' EXIT
cp compare/*.rs "$out"
sed "s|SCHNELLRU|$checkout|; s|JEERDURIAN|$PWD/jeerdurian|" compare/Cargo.toml.in >"$out/Cargo.toml"
# Where the checkout says from where cargo takes its dependencies.
if [ -d "$checkout/../.cargo" ]; then cp -r "$checkout/../.cargo" "$out"; fi
export CARGO_TARGET_DIR=${COMPARE_TARGET_DIR:-$out/target}
build() { (cd "$out" && cargo build --offline "$@") >"$out/log" 2>&1 || { cat "$out/log"; exit 1; }; }
case "$what" in
calls)
    build --bin calls
    "$CARGO_TARGET_DIR/debug/calls" "$@"
    ;;
soak)
    build --release --bin soak
    "$CARGO_TARGET_DIR/release/soak" "$@"
    ;;
counts)
    for profile in release plain; do
        build --profile "$profile" --bin loads
        echo "profile $profile"
        python3 compare/counts.py "$CARGO_TARGET_DIR/$profile/loads" "$@"
    done
    ;;
times)
    build --release --bin loads
    for _ in $(seq "${PROCESSES:-7}"); do "$CARGO_TARGET_DIR/release/loads" "${ROUNDS:-3}" "$@"; done | python3 compare/best.py
    ;;
*)
    echo "calls, soak, counts or times" >&2
    exit 2
    ;;
esac
