#!/usr/bin/env python3
"""Runs the gate from nothing, and prints the processor minutes that each crate takes: its proof, its tests, its must-fail
edits, and its runs. `bench/gate_times.py [COMMAND ..]` runs another command in place of `rt ci`.

It reads the processor time of each process below the command every half second, so the last half second of a process is
not counted."""
import collections
import os
import re
import subprocess
import sys
import time

TICKS = os.sysconf("SC_CLK_TCK")


def stat_of(pid):
    """The parent of a process, and its processor time in seconds, without its children."""
    with open(f"/proc/{pid}/stat") as it:
        fields = it.read().rsplit(")", 1)[1].split()
    return int(fields[1]), (int(fields[11]) + int(fields[12])) / TICKS


def part_of(pid):
    """The crate that a process works on, and for what."""
    with open(f"/proc/{pid}/cmdline", "rb") as it:
        words = it.read().decode(errors="replace").split("\0")
    name = words[words.index("--crate-name") + 1] if "--crate-name" in words else None
    if name:
        where = os.readlink(f"/proc/{pid}/cwd")
        if "rt-edit" in where:
            return name, "edits"
        return name, "tests" if "--test" in words else "proof"
    run = re.search(r"/crates/(\w+)/out/", words[0])
    return (run[1], "runs") if run else None


def below(parents, top):
    """The processes below this one, and itself."""
    children = collections.defaultdict(list)
    for pid, parent in parents.items():
        children[parent].append(pid)
    found = [top]
    for pid in found:
        found += children[pid]
    return found


def look(top, times, parts):
    """Notes the processor time of each process below this one."""
    stats = {}
    for pid in map(int, filter(str.isdigit, os.listdir("/proc"))):
        try:
            stats[pid] = stat_of(pid)
        except (OSError, ValueError):
            continue
    for pid in below({pid: it[0] for pid, it in stats.items()}, top):
        try:
            # (a process that has just begun still has its parent's name)
            if not parts.get(pid):
                parts[pid] = part_of(pid)
            times[pid] = stats[pid][1]
        except (OSError, KeyError, IndexError):
            continue


def main():
    begin = time.time()
    gate = subprocess.Popen(sys.argv[1:] or ["rt", "ci"])
    times, parts = {}, {}
    while gate.poll() is None:
        look(gate.pid, times, parts)
        time.sleep(0.5)
    show(times, parts, time.time() - begin, gate.returncode)


def show(times, parts, wall, status):
    table = collections.defaultdict(collections.Counter)
    for pid, seconds in times.items():
        if parts.get(pid):
            name, what = parts[pid]
            table[name][what] += seconds / 60
    whats = ["proof", "tests", "edits", "runs"]
    print("| Crate | " + " | ".join(whats) + " | together |")
    for name, row in sorted(table.items(), key=lambda it: -sum(it[1].values())):
        print(f"| {name} | " + " | ".join(f"{row[it]:.1f}" for it in whats) + f" | {sum(row.values()):.1f} |")
    whole = [sum(row[it] for row in table.values()) for it in whats]
    print("| all | " + " | ".join(f"{it:.1f}" for it in whole) + f" | {sum(whole):.1f} |")
    used = os.times()
    print(f"wall {wall / 60:.1f} minutes, processor {(used.children_user + used.children_system) / 60:.1f} minutes, status {status}")


main()
