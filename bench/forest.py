#!/usr/bin/env python3
"""Measures `wakerun run` on forests of text tasks beside tools that do the same, in one run: a million numbers through
`number`, `upper` and `tally`; a script near the limit of 16 MiB through `upper` and `keep`; and 200 tasks in a row.

Usage: bench/forest.py
The program must have been built: `rt ci` does it.
"""
import os
import tempfile

from measure import compare, texts


def write(path, text):
    with open(path, "w") as file:
        file.write(text)


def main():
    with tempfile.TemporaryDirectory() as work:
        plain = os.path.join(work, "plain")
        script = os.path.join(work, "script")

        write(plain, "")
        for count in (500_000, 1_000_000):
            write(
                script,
                f"cpus 1\ntask a count {count}\ntask b number from a\ntask c upper from b\ntask d tally from c\nend\n",
            )
            compare(f"{count} numbers", script, f"seq {count} | nl | tr a-z A-Z | wc -l", plain)

        lines = texts(60, 1.0)
        write(plain, "".join(line + "\n" for line in lines))
        write(
            script,
            "cpus 1\ntask a lines\n"
            + "".join("| " + line + "\n" for line in lines)
            + "task b upper from a\ntask c keep A from b\nend\n",
        )
        compare(f"{len(lines)} lines of 60 bytes", script, "tr a-z A-Z | grep ^A", plain)

        tasks = "".join(f"task t{i} upper from t{i - 1}\n" for i in range(1, 200))
        for count in (5_000, 10_000):
            write(script, f"cpus 1\ntask t0 count {count}\n{tasks}end\n")
            compare(f"{count} numbers through 200 tasks", script, f"seq {200 * count} | tr a-z A-Z", os.devnull)


main()
