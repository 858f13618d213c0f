#!/usr/bin/env bash
# Times the program on a million lines, on maps of 3, 100 and 100,000 pairs, on lines of all kinds, on one line of
# 100 MB, and on lists and drains of 100,000 pairs: the best of three runs.
# It builds the program first, which proves it.
set -euo pipefail
cd "$(dirname "$0")/../crates/replay"
work=$(mktemp -d)
trap 'rm -rf "$work"' EXIT
rt run <stdin >"$work/log" 2>&1 || { cat "$work/log"; exit 1; }

lines() { # the greatest length, and how many keys
    awk -v most="$1" -v keys="$2" 'BEGIN {
        srand(1); print "length " most
        for (i = 0; i < 1000000; i++) {
            r = rand(); k = int(rand() * keys)
            if (r < 0.5) print "insert " k " " i; else if (r < 0.8) print "get " k; else print "peek " k
        }
    }'
}

all_kinds() {
    awk 'BEGIN {
        srand(2); print "length 1000"
        for (i = 0; i < 1000000; i++) {
            r = rand(); k = int(rand() * 1500)
            if (r < 0.4) print "insert " k " " i
            else if (r < 0.6) print "get " k
            else if (r < 0.7) print "peek " k
            else if (r < 0.8) print "remove " k
            else if (r < 0.87) print "pop-oldest"
            else if (r < 0.93) print "pop-newest"
            else if (r < 0.96) print "reserve " k
            else if (r < 0.9998) print "bad line"
            else if (r < 0.9999) print "list"
            else if (r < 0.99995) print "drain 500"
            else print "clear"
        }
        print "stats"
    }'
}

long_line() {
    echo compact
    head -c 100000000 /dev/zero | tr '\0' 1
    printf '\nlist\n'
}

pairs() { # how often all are inserted, then the line that is given, and how often
    awk -v fills="$1" -v line="$2" -v times="$3" 'BEGIN {
        print "compact"
        for (i = 0; i < fills; i++) {
            for (k = 0; k < 100000; k++) print "insert " k " " k * 7
            for (n = 0; n < times; n++) print line
        }
    }'
}

best() { # a command: the milliseconds of the best of three runs
    local start end least=
    for _ in 1 2 3; do
        start=$(date +%s%N)
        "$@" <"$work/input" >/dev/null
        end=$(date +%s%N)
        if [ -z "$least" ] || [ $((end - start)) -lt "$least" ]; then least=$((end - start)); fi
    done
    echo $((least / 1000000))
}

measure() { # a name
    printf '%-32s %5d ms\n' "$1" "$(best out/replay)"
}

lines 3 6 >"$work/input" && measure "a million lines, 3 pairs"
lines 100 150 >"$work/input" && measure "a million lines, 100 pairs"
lines 100000 150000 >"$work/input" && measure "a million lines, 100,000 pairs"
all_kinds >"$work/input" && measure "a million lines of all kinds"
long_line >"$work/input" && measure "a line of 100 MB"
pairs 1 list 20 >"$work/input" && measure "20 lists of 100,000 pairs"
pairs 10 "drain 100000" 1 >"$work/input" && measure "10 drains of 100,000 pairs"
