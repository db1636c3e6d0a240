#!/usr/bin/env python3
"""Measures how long a line takes through a chain of `cat`, as bodies over rings of room 1 and 64 on one thread, beside
plain queues that do the same, in one run: the least of several turns.

Usage: bench/pipes.py [LINES CATS]     (default: 2000 16)
The program must have been built: `rt run` in crates/bench_pipes does it.
"""
import os
import re
import subprocess
import sys

TOP = os.path.dirname(os.path.dirname(os.path.abspath(__file__)))
PROGRAM = os.path.join(TOP, "crates", "bench_pipes", "out", "bench_pipes")
TURNS = 40


def main():
    words = sys.argv[1:] or ["2000", "16"]
    best = {}
    for _ in range(TURNS):
        text = subprocess.run([PROGRAM, *words], capture_output=True, check=True, text=True).stdout
        for room, bodies, queues in re.findall(r"room (\d+): ([\d.]+) ns through bodies, ([\d.]+) ns", text):
            old = best.get(room, (float("inf"), float("inf")))
            best[room] = (min(old[0], float(bodies)), min(old[1], float(queues)))
    for room, (bodies, queues) in best.items():
        print(f"room {room}: {bodies:.1f} ns a line and cat through bodies, {queues:.1f} ns through queues, ratio {bodies / queues:.2f}")


main()
