#!/usr/bin/env bash
# Runs the unit tests and the README of a checkout of schnellru 0.2.4, unmodified, against the crate jeerdurian.
#
#     rust/upstream.sh SCHNELLRU        the folder of the checkout
set -euo pipefail
checkout=$(realpath "${1:?the folder of a checkout of schnellru}")
cd "$(dirname "$0")"
out=$(mktemp -d)
trap 'rm -rf "$out"' EXIT
export CARGO_TARGET_DIR=${CARGO_TARGET_DIR:-$out/target}
# The module of tests, as it is.
{ echo '#[cfg(test)]'; sed -n '/^mod tests {$/,/^}$/p' "$checkout/src/lib.rs"; } >"$out/tests.rs"
UPSTREAM_TESTS=$out/tests.rs RUSTFLAGS="--cfg upstream_tests ${RUSTFLAGS-}" cargo test --offline -p jeerdurian --lib
cargo build --offline -p jeerdurian
rustdoc --test --edition 2021 "$checkout/README.md" -L "$CARGO_TARGET_DIR/debug/deps" \
    --extern "schnellru=$CARGO_TARGET_DIR/debug/libjeerdurian.rlib"
