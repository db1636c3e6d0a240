"""Time and memory of whole commands, the best of several turns."""
import os
import random
import subprocess
import sys
import time

TOP = os.path.dirname(os.path.dirname(os.path.abspath(__file__)))
PROGRAM = os.path.join(TOP, "crates", "wakerun", "out", "wakerun")
LIMIT = 16 * 1024 * 1024
TURNS = 5


def measure(command, path):
    """The wall seconds, processor seconds and most KiB of memory of a command that reads a file."""
    with open(path, "rb") as source, open(os.devnull, "wb") as sink:
        begun = time.monotonic()
        child = subprocess.Popen(command, stdin=source, stdout=sink, shell=isinstance(command, str))
        _, status, usage = os.wait4(child.pid, 0)
        wall = time.monotonic() - begun
    if status != 0:
        sys.exit(f"{command}: status {status}")
    return wall, usage.ru_utime + usage.ru_stime, usage.ru_maxrss


def best(command, path):
    """The least wall and processor time of several turns, and the most memory."""
    runs = [measure(command, path) for _ in range(TURNS)]
    return min(r[0] for r in runs), min(r[1] for r in runs), max(r[2] for r in runs)


def texts(size, share):
    """Lines of so many bytes, whose script lines fill this share of the limit."""
    alphabet = "abcdefghijklmnopqrstuvwxyz ABC0123456789"
    count = int((LIMIT - 300) * share) // (size + 3)
    rng = random.Random(size)
    return ["".join(rng.choices(alphabet, k=size)) for _ in range(count)]


def compare(name, script, peer, peer_input):
    """Runs the program on a script and the peer on its input, and prints both."""
    ours = best([PROGRAM, "run"], script)
    theirs = best(peer, peer_input)
    read = os.path.getsize(script)
    print(
        f"{name} ({read / 2**20:.1f} MiB): wakerun {ours[0]:.3f} s wall, {ours[1]:.3f} s processor, "
        f"{ours[2] / 1024:.0f} MiB; {peer}: {theirs[0]:.3f} s wall, {theirs[1]:.3f} s processor; "
        f"ratio {ours[0] / theirs[0]:.2f} wall, {ours[1] / theirs[1]:.2f} processor",
        flush=True,
    )
