#!/usr/bin/env python3
"""Measures nanoseconds of a switch that puts a task back and picks another, of one that keeps the same, of one that finds
none, and of a task that is picked and sleeps, beside the plain atomic operations that each makes, on one processor: the
least of several turns, which are short, so that some aren't interrupted. Then shows that none of them takes memory:
valgrind counts the allocations of a run with few of them and of one with many, which have to be the same.

Usage: bench/switch.py [COUNT]     (default: 100000)
The program must have been built: `rt run` in crates/bench_switch does it. Without valgrind the count is left out.
"""
import os
import re
import shutil
import subprocess
import sys

TOP = os.path.dirname(os.path.dirname(os.path.abspath(__file__)))
PROGRAM = os.path.join(TOP, "crates", "bench_switch", "out", "bench_switch")
KINDS = ["another", "same", "idle", "sleep"]
TURNS = 40
# The most that a switch may take, in those of its plain operations.
LIMIT = 1.5
# Numbers of as many digits, so that the words take the same memory.
FEW, MANY = 100, 900


def run(words):
    return subprocess.run(words, capture_output=True, check=True, text=True)


def measure(kind, count):
    """Whether a switch of a kind stays within the limit."""
    cpu = str(max(os.sched_getaffinity(0)))
    words = ["taskset", "-c", cpu, PROGRAM, kind, str(count)]
    turns = [re.search(r": (-?[\d.]+) ns, plain ([\d.]+) ns", run(words).stdout).groups() for _ in range(TURNS)]
    own, plain = (min(float(turn[side]) for turn in turns) for side in (0, 1))
    print(f"{kind}: {own:.1f} ns, plain {plain:.1f} ns, ratio {own / plain:.2f}")
    return own <= LIMIT * plain


def allocations(kind, count):
    text = run(["valgrind", PROGRAM, kind, str(count)]).stderr
    return int(re.search(r"total heap usage: ([\d,]+) allocs", text).group(1).replace(",", ""))


def memory(kind):
    """Whether many of a kind allocate as often as few."""
    few, many = allocations(kind, FEW), allocations(kind, MANY)
    print(f"{kind}: {few} allocations at {FEW}, {many} at {MANY}")
    return few == many


def main():
    count = int(sys.argv[1]) if len(sys.argv) > 1 else 100_000
    within = [measure(kind, count) for kind in KINDS]
    if shutil.which("valgrind") and not all([memory(kind) for kind in KINDS]):
        sys.exit("switch.py: a switch or a sleep took memory")
    if not all(within):
        sys.exit(f"switch.py: a kind took more than {LIMIT} times its plain operations")


main()
