#!/usr/bin/env bash
# Runs the tests of the C header with a library: test.sh LIBLRU. It prints one line.
#
# It needs a compiler of C. With clang, 10,000,000 random calls on each kind of map are compared with a plain list
# under the address sanitizer; with valgrind, 160,000. What is missing is named in the line.
set -euo pipefail
library=$(realpath "$1")
cd "$(dirname "$0")"
out=$(mktemp -d)
trap 'rm -rf "$out"' EXIT
quiet() { "$@" >"$out/log" 2>&1 || { cat "$out/log"; echo "failed: $*"; exit 1; }; }
has() { command -v "$1" >/dev/null; }

flags=(-O2 -g -Wall -Wextra -Wpedantic -Werror)
wrapped=-Wl,--wrap=malloc
done=() missing=()

for compiler in gcc clang; do
    has "$compiler" || { missing+=("$compiler"); continue; }
    quiet "$compiler" -std=c11 "${flags[@]}" c/example.c "$library" -o "$out/example"
    quiet "$out/example"
    for name in random_calls random_bytes; do
        quiet "$compiler" -std=c11 "${flags[@]}" "c/$name.c" "$library" "$wrapped" -o "$out/$name"
        quiet "$out/$name" 100000
    done
    done+=("$compiler")
done
for compiler in g++ clang++; do
    has "$compiler" || { missing+=("$compiler"); continue; }
    quiet "$compiler" -std=c++17 "${flags[@]}" -c c/header.cpp -o "$out/header.o"
    done+=("$compiler")
done
if has clang; then
    for name in random_calls random_bytes; do
        quiet clang -std=c11 "${flags[@]}" -fsanitize=address,undefined -fno-sanitize-recover=undefined \
            "c/$name.c" "$library" "$wrapped" -o "$out/sanitized"
        quiet "$out/sanitized" 625000
    done
    done+=("address sanitizer")
fi
if has valgrind && [ -x "$out/random_calls" ]; then
    for name in random_calls random_bytes; do
        quiet valgrind -q --leak-check=full --error-exitcode=9 "$out/$name" 10000
    done
    done+=(valgrind)
else
    missing+=(valgrind)
fi
list() { local IFS=,; echo "${*//,/}" | sed 's/,/, /g'; }
echo "bindings: passed with $(list "${done[@]}")${missing:+; missing: $(list "${missing[@]}")}"
