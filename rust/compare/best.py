#!/usr/bin/env python3
"""Prints the least time of each load and engine, of the runs that it reads, and its ratio to the first engine. With
`--pairs` the engines come in pairs, a crate and its door, and the ratio of a door is that to its crate."""
import math
import sys

engines, best = [], {}
for line in sys.stdin:
    words = line.split()
    if words[0] == "#":
        engines = words[1:]
        continue
    row = [float(it) for it in words[2:]]
    at = words[0], words[1]
    best[at] = [min(a, b) for a, b in zip(best.get(at, row), row)]
width = 2 if "--pairs" in sys.argv else len(engines)
print("ns an operation", *engines, sep="\t")
ratios = []
for (load, size), row in best.items():
    ratios.append([it / row[i // width * width] for i, it in enumerate(row)])
    print(f"{load:20}{size:>8}", *(f"{it:8.2f} {ratio:5.2f}x" for it, ratio in zip(row, ratios[-1])))
means = [math.exp(sum(map(math.log, them)) / len(them)) for them in zip(*ratios)]
print(f"{'geometric mean':28}", *(f"{'':8} {it:5.2f}x" for it in means))
