#!/usr/bin/env bash
# Runs the tests of the crate under the address sanitizer, and under valgrind, in a release build, where nothing of what is
# proved is tested. It takes five minutes.
set -euo pipefail
cd "$(dirname "$0")"
out=$(mktemp -d)
trap 'rm -rf "$out"' EXIT
target=x86_64-unknown-linux-gnu
# The sanitizer is not stable; this variable lets a stable compiler take the flag.
RUSTC_BOOTSTRAP=1 RUSTFLAGS="-Zsanitizer=address" ASAN_OPTIONS=detect_leaks=0 CARGO_TARGET_DIR=$out/address \
    cargo test --offline --release -p jeerdurian --features lru,hashlink --tests --target "$target"
# What leaks where the docs say so is not an error here; the tests count it.
CARGO_TARGET_X86_64_UNKNOWN_LINUX_GNU_RUNNER="valgrind -q --error-exitcode=9" CARGO_TARGET_DIR=$out/plain \
    cargo test --offline --release -p jeerdurian --features lru,hashlink --test lies --test panics --test doors \
    --target "$target"
