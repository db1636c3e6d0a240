#!/usr/bin/env python3
"""Measures nanoseconds of a wake-up, and of a walk along a wait queue of 0, 1 and 10 entries, beside the plain atomic
operations that each makes, on one processor: the least of several turns, which are short, so that some aren't
interrupted. Then shows that a wake-up and a walk take no memory: valgrind counts the allocations of a run with few of
them and of one with many, which have to be the same.

Usage: bench/wake.py [COUNT]     (default: 100000)
The program must have been built: `rt run` in crates/bench_wake does it. Without valgrind the count is left out.
"""
import os
import re
import shutil
import subprocess
import sys

TOP = os.path.dirname(os.path.dirname(os.path.abspath(__file__)))
PROGRAM = os.path.join(TOP, "crates", "bench_wake", "out", "bench_wake")
# How many of each kind a turn makes, for one of COUNT.
KINDS = {"queued": 1, "runnable": 1, "refused": 1, "walk_0": 1, "walk_1": 1, "walk_10": 0.1}
TURNS = 40
# Numbers of as many digits, so that the words take the same memory.
FEW, MANY = 100, 900


def run(words):
    return subprocess.run(words, capture_output=True, check=True, text=True)


def measure(kind, count):
    cpu = str(max(os.sched_getaffinity(0)))
    words = ["taskset", "-c", cpu, PROGRAM, kind, str(count)]
    turns = [re.search(r": (-?[\d.]+) ns, plain ([\d.]+) ns", run(words).stdout).groups() for _ in range(TURNS)]
    own, plain = (min(float(turn[side]) for turn in turns) for side in (0, 1))
    print(f"{kind}: {own:.1f} ns, plain {plain:.1f} ns, ratio {own / plain:.2f}")


def allocations(kind, count):
    text = run(["valgrind", PROGRAM, kind, str(count)]).stderr
    return int(re.search(r"total heap usage: ([\d,]+) allocs", text).group(1).replace(",", ""))


def memory(kind):
    """Whether many of a kind allocate as often as few."""
    few, many = allocations(kind, FEW), allocations(kind, MANY)
    print(f"{kind}: {few} allocations at {FEW}, {many} at {MANY}")
    return few == many


def main():
    count = int(sys.argv[1]) if len(sys.argv) > 1 else 100_000
    for kind, share in KINDS.items():
        measure(kind, int(share * count))
    if shutil.which("valgrind") and not all([memory(kind) for kind in KINDS]):
        sys.exit("wake.py: a wake-up or walk took memory")


main()
