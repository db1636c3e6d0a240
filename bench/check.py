"""Time and memory of `wakerun check` on large legal journals, the best of several turns in one run."""
import os
import subprocess
import sys
import tempfile
import time

from journals import write_journals

TOP = os.path.dirname(os.path.dirname(os.path.abspath(__file__)))
PROGRAM = os.path.join(TOP, "crates", "wakerun", "out", "wakerun")
TURNS = 5
# The most that is allowed: seconds and MiB at a million entries, and how much longer two million may take.
MOST_SECONDS = 3.0
MOST_MEMORY = 1024
MOST_GROWTH = 2.3


def measure(path, entries):
    """The wall seconds and most MiB of memory of one check, which has to answer this many entries."""
    with open(path, "rb") as source:
        begun = time.monotonic()
        child = subprocess.Popen([PROGRAM, "check"], stdin=source, stdout=subprocess.PIPE)
        line = child.stdout.read()
        _, status, usage = os.wait4(child.pid, 0)
        wall = time.monotonic() - begun
    if status != 0 or line != b"legal %d\n" % entries:
        sys.exit(f"{path}: status {status}, {line}")
    return wall, usage.ru_maxrss / 1024


def best(entries, folder):
    path = os.path.join(folder, f"{entries}.journal")
    with open(path, "w") as out:
        write_journals(entries, 1, out)
    runs = [measure(path, entries) for _ in range(TURNS)]
    seconds, memory = min(run[0] for run in runs), max(run[1] for run in runs)
    print(f"{entries} entries ({os.path.getsize(path) / 2**20:.1f} MiB): {seconds:.2f} s, {memory:.0f} MiB", flush=True)
    return seconds, memory


def main():
    with tempfile.TemporaryDirectory() as folder:
        seconds, memory = best(1_000_000, folder)
        longer, _ = best(2_000_000, folder)
    print(f"two million take {longer / seconds:.2f} times as long")
    if seconds > MOST_SECONDS or memory > MOST_MEMORY or longer > MOST_GROWTH * seconds:
        sys.exit("more than is allowed")


if __name__ == "__main__":
    main()
