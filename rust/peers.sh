#!/usr/bin/env bash
# Compares the doors `lru` and `hashlink` with the crates `lru` 0.7.8 and `hashlink` 0.8.0.
#
#     rust/peers.sh REGISTRY [CALLS [SEED]]           the crates' own tests and examples, unmodified, on the doors;
#                                                     then 1,000,000 random calls of each crate, each compared
#     rust/peers.sh REGISTRY times [SIZES [LOAD..]]   nanoseconds an operation, the best of PROCESSES (7)
#
# REGISTRY is a folder of unpacked crates, as Debian's packages librust-lru-dev and librust-hashlink-dev install it.
set -euo pipefail
registry=$(realpath "${1:?the folder of unpacked crates}")
shift
cd "$(dirname "$0")"
doors=$PWD
out=$(mktemp -d)
trap 'rm -rf "$out"' EXIT
export CARGO_TARGET_DIR=${PEERS_TARGET_DIR:-$out/target}
mkdir "$out/.cargo"
cat >"$out/.cargo/config.toml" <<TOML
[source.crates-io]
replace-with = "folder"
[source.folder]
directory = "$registry"
TOML

# Makes the package `compare`, with the program that calls and times both.
compare() {
    mkdir "$out/compare"
    cp compare/operations.rs "$out"
    cp compare/peers/*.rs "$out/compare"
    sed "s|JEERDURIAN|$doors/jeerdurian|" compare/peers/Cargo.toml.in >"$out/compare/Cargo.toml"
    (cd "$out/compare" && cargo build --offline "$@") >"$out/log" 2>&1 || { cat "$out/log"; exit 1; }
}

# Makes a package of a crate's name. It holds the door, and what stands on the standard input as its tests.
package() {
    mkdir -p "$out/$1/src"
    cat >"$out/$1/Cargo.toml" <<TOML
[package]
name = "$1"
version = "0.0.0"
edition = "2018"
[features]
default = ["hashbrown"]
hashbrown = []
[dependencies]
jeerdurian = { path = "$doors/jeerdurian", features = ["$1"] }
[dev-dependencies]
hashbrown = "0.12"
scoped_threadpool = { path = "$doors/compare/peers/scoped_threadpool" }
[workspace]
TOML
    { echo "#![no_std] extern crate alloc; extern crate std; pub use jeerdurian::$1::*;" && cat; } >"$out/$1/src/lib.rs"
}

# The lines of the documentation in a source, which contain the examples.
documentation() { sed -nE 's@^ *//[/!] ?@@p' "$1"; }

tests_of_lru() {
    local source=$registry/lru-0.7.8
    # The module of tests, as it is.
    { echo '#[cfg(test)]'; sed -n '/^mod tests {$/,$p' "$source/src/lib.rs"; } | package lru
    { documentation "$source/src/lib.rs"; cat "$source/README.md"; } >"$out/lru/examples.md"
    cd "$out/lru"
    cargo test --offline
    cargo build --offline
    rustdoc --edition 2018 --test examples.md -L "$CARGO_TARGET_DIR/debug/deps" \
        --extern "lru=$CARGO_TARGET_DIR/debug/liblru.rlib"
    cd "$doors"
}

tests_of_hashlink() {
    package hashlink </dev/null
    mkdir "$out/hashlink/tests"
    cp "$registry/hashlink-0.8.0/tests/lru_cache.rs" "$out/hashlink/tests"
    cd "$out/hashlink"
    cargo test --offline
    cd "$doors"
}

case "${1-}" in
times)
    shift
    compare --release
    for _ in $(seq "${PROCESSES:-7}"); do
        "$CARGO_TARGET_DIR/release/times" "${ROUNDS:-3}" "$@"
    done | python3 compare/best.py --pairs
    ;;
*)
    tests_of_lru
    tests_of_hashlink
    compare --bin calls
    "$CARGO_TARGET_DIR/debug/calls" "$@"
    ;;
esac
