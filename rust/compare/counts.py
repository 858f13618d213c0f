#!/usr/bin/env python3
"""Counts the instructions of an operation, by callgrind: `counts.py PROGRAM [SIZE [LOAD..]]`.

It counts what the function `operate` takes for OPERATIONS operations on a filled map, and for the load `fill` what the
function `fill` takes. The seeds of a hasher are random, so a row is the mean of RUNS runs (1 if nothing is set)."""
import os
import re
import subprocess
import sys

ENGINES = os.environ.get("ENGINES", "schnellru|here|schnellru,hash-here|here,hash-schnellru").split("|")
LOADS = ["fill", "get-hit", "get-miss", "peek-hit", "replace", "evict", "remove+insert", "zipf-get-or-insert"]
OPERATIONS = 40000
RUNS = int(os.environ.get("RUNS", "1"))


def instructions(program, engine, size, load):
    function = "fill" if load == "fill" else "operate"
    done = subprocess.run(["valgrind", "--tool=callgrind", "--callgrind-out-file=/dev/null",
                           f"--toggle-collect=*operations::{function}*", program, "1", size, load],
                          env=dict(os.environ, ENGINES=engine, COUNT=str(1 if load == "fill" else OPERATIONS)), capture_output=True,
                          text=True)
    return int(re.search(r"Collected\s*:\s+([\d,]+)", done.stderr)[1].replace(",", ""))


def each(program, engine, size, load):
    """The instructions of an operation, in the mean of the runs. A fill runs once."""
    runs = [instructions(program, engine, size, load) for _ in range(RUNS)]
    return sum(runs) / RUNS / (int(size) if load == "fill" else OPERATIONS)


def main():
    program = sys.argv[1]
    size = sys.argv[2] if len(sys.argv) > 2 else "1000"
    print("instructions an operation", *ENGINES)
    for load in sys.argv[3:] or LOADS:
        row = [each(program, engine, size, load) for engine in ENGINES]
        print(f"{load:20}", *(f"{it:9.1f} {it / row[0]:5.2f}x" for it in row), flush=True)


if __name__ == "__main__":
    main()
