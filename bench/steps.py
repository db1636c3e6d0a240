#!/usr/bin/env python3
"""Measures nanoseconds of each step on the shared table beside the plain atomic operations that it makes, on one
processor; and of a lock that many threads take and give, and of two threads at words that lie side by side: the least of
several turns, which are short, so that some aren't interrupted.

Usage: bench/steps.py [COUNT]     (default: 200000)
The program must have been built: `rt run` in crates/bench_steps does it.
"""
import os
import re
import resource
import subprocess
import sys

TOP = os.path.dirname(os.path.dirname(os.path.abspath(__file__)))
PROGRAM = os.path.join(TOP, "crates", "bench_steps", "out", "bench_steps")
STEPS = ["load_state", "load_rq", "load_busy", "load_cpu", "load_count", "load_cond", "match_state", "set_state",
         "set_running", "make_runnable", "store_cpu", "bump_cond", "lock_task", "lock_queue", "lock_works", "lock_wait", "body", "turn"]
# Made once with each task of many tables, whose making isn't measured.
STARTS = ["start", "round"]
SEATS = [1, 2, 4, 8, 16]
TURNS = 40


def run(words, cpu=None):
    """What the program prints, and the processor time that it took in seconds."""
    before = resource.getrusage(resource.RUSAGE_CHILDREN)
    pin = ["taskset", "-c", str(cpu)] if cpu is not None else []
    text = subprocess.run([*pin, PROGRAM, *map(str, words)], capture_output=True, check=True, text=True).stdout
    after = resource.getrusage(resource.RUSAGE_CHILDREN)
    return text, after.ru_utime + after.ru_stime - before.ru_utime - before.ru_stime


def step(name, count):
    cpu = max(os.sched_getaffinity(0))
    turns = [re.search(r": ([\d.]+) ns, plain ([\d.]+) ns", run([name, count], cpu)[0]).groups() for _ in range(TURNS)]
    own, plain = (min(float(turn[side]) for turn in turns) for side in (0, 1))
    print(f"{name}: {own:.2f} ns, plain {plain:.2f} ns, ratio {own / plain:.2f}")


def shared(label, words, turns, count):
    """The least wall time of a turn, and the least processor time."""
    runs = [run(words) for _ in range(turns)]
    wall = min(float(re.search(r": ([\d.]+) ns", text).group(1)) for text, _ in runs)
    took = min(took for _, took in runs) * 1e9 / count
    print(f"{label}: {wall:.1f} ns of wall time, {took:.1f} ns of processor time a turn")


def main():
    count = int(sys.argv[1]) if len(sys.argv) > 1 else 200_000
    for name in STEPS:
        step(name, count)
    for name in STARTS:
        step(name, count // 10)
    for seats in SEATS:
        shared(f"{seats} seats at one lock", ["crowd", 40 * count // seats, seats], 7, 40 * count)
    shared("two seats side by side", ["beside", 5 * count], 12, 10 * count)


main()
