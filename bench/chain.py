#!/usr/bin/env python3
"""Measures `wakerun run` on a chain of `lines`, `upper` and `number` over an input of half the limit of 16 MiB and near
it, beside `tr a-z A-Z | nl` on the same text, in one run.

Usage: bench/chain.py [bytes of a line ..]     (default: 60 4)
The program must have been built: `rt ci` does it.
"""
import os
import sys
import tempfile

from measure import compare, texts


def main():
    sizes = [int(word) for word in sys.argv[1:]] or [60, 4]
    with tempfile.TemporaryDirectory() as work:
        plain = os.path.join(work, "plain")
        script = os.path.join(work, "script")
        for size in sizes:
            for share in (0.5, 1.0):
                lines = texts(size, share)
                with open(plain, "w") as file:
                    file.writelines(line + "\n" for line in lines)
                with open(script, "w") as file:
                    file.write("cpus 1\ntask a lines\n")
                    file.writelines("| " + line + "\n" for line in lines)
                    file.write("task b upper from a\ntask c number from b\nend\n")
                compare(f"{len(lines)} lines of {size} bytes", script, "tr a-z A-Z | nl", plain)


main()
