#!/usr/bin/env python3
"""Measures whole runs of scripts by workers beside the same networks as Go goroutines over channels of the same room,
and as threads of the system, in one run: the median of several turns, in which all programs take turns.

Usage: bench/run.py [TURNS [PROGRAM]]     (default: 9, and the built wakerun)
It wants Debian's golang-go and a rustc for the two peers, of which one that is missing is left out. Each program gets
1, 2 and 4 workers: wakerun by --workers, Go by GOMAXPROCS, the threads by the set of their processors.
"""
import os
import shutil
import statistics
import subprocess
import sys
import tempfile
import time

TOP = os.path.dirname(os.path.dirname(os.path.abspath(__file__)))
PEERS = os.path.join(TOP, "bench", "peers")
WORKERS = (1, 2, 4)
# The most that is allowed: times Go's processor time at one worker, part of the processor time of threads there, part
# of the wall time at one worker that the stages may take at four, and seconds of a run of one line.
MOST_OF_GO = 3.0
MOST_OF_THREADS = 1.0
MOST_AT_FOUR = 0.45
MOST_SECONDS = 0.005
STAGES = ("count 200000", "number", "upper", "tally")


def stage(kind, chain):
    """The line of a chain's stage: its task has the letter of its kind, and reads the one before."""
    words = kind.split()
    before = STAGES.index(kind) - 1
    reads = f" from {STAGES[before][0]}{chain}" if before >= 0 else ""
    return f"task {words[0][0]}{chain} {kind}{reads}"


def script(cpus, room, tasks):
    return "\n".join([f"cpus {cpus}", f"room {room}", *tasks, "end"]) + "\n"


def pair(count):
    return [f"task a count {count}", "task t tally from a"]


# Each case: its name, its script and its report.
ALL = [(kind, chain) for kind in STAGES for chain in range(8)]
TALLIES = "".join(f"t{chain}: 200000\n" for chain in range(8))
STAGE_BY_STAGE = "8 chains of 200,000 at room 64, stage by stage"
ONE_LINE = "one line"
CASES = (
    ("100,000 at room 1", script(4, 1, pair(100000)), "t: 100000\n"),
    ("1,000,000 at room 64", script(4, 64, pair(1000000)), "t: 1000000\n"),
    (STAGE_BY_STAGE, script(8, 64, [stage(*s) for s in ALL]), TALLIES),
    (
        "8 chains of 200,000 at room 64, chain by chain",
        script(8, 64, [stage(*s) for s in sorted(ALL, key=lambda s: s[1])]),
        TALLIES,
    ),
    (ONE_LINE, script(1, 1, ["task a count 1"]), "a: 1\n"),
)


def build(folder):
    """The peers that can be built here: a name, and a function from workers to a command and its environment."""
    peers = {}
    if shutil.which("go"):
        program = os.path.join(folder, "go-peer")
        subprocess.run(
            ["go", "build", "-trimpath", "-o", program, "."],
            cwd=os.path.join(PEERS, "go"),
            env={**os.environ, "GOPROXY": "off", "GOFLAGS": "-mod=mod", "GOCACHE": os.path.join(folder, "cache")},
            check=True,
        )
        peers["go"] = lambda workers: ([program], {"GOMAXPROCS": str(workers)})
    if shutil.which("rustc") and shutil.which("taskset"):
        threads = os.path.join(folder, "threads-peer")
        source = os.path.join(PEERS, "threads.rs")
        subprocess.run(["rustc", "-O", "--edition", "2021", "-o", threads, source], check=True)
        peers["threads"] = lambda workers: (["taskset", "-c", f"0-{workers - 1}", threads], {})
    return peers


def measure(command, extra, text, report):
    """The processor and wall seconds of a command that reads this script, and has to print this report."""
    with tempfile.TemporaryFile() as source, tempfile.TemporaryFile() as sink:
        source.write(text.encode())
        source.seek(0)
        begun = time.monotonic()
        child = subprocess.Popen(command, stdin=source, stdout=sink, env={**os.environ, **extra})
        _, status, usage = os.wait4(child.pid, 0)
        wall = time.monotonic() - begun
        child.returncode = status
        sink.seek(0)
        printed = sink.read().decode()
    if status != 0 or printed != report:
        sys.exit(f"{command}: status {status}, printed {printed[:200]!r}")
    return usage.ru_utime + usage.ru_stime, wall


def take_turns(programs, turns):
    """By case, program and workers: the medians of processor and wall seconds, all in turn."""
    runs = {}
    for _ in range(turns):
        for case, text, report in CASES:
            for name, command in programs.items():
                for workers in WORKERS:
                    run = measure(*command(workers), text, report)
                    runs.setdefault((case, name, workers), []).append(run)
    return {key: tuple(map(statistics.median, zip(*taken))) for key, taken in runs.items()}


def show(medians, programs):
    """Prints each case: seconds of processor and of wall by workers, and the ratios to each peer."""
    for case, _, _ in CASES:
        print(case)
        for name in programs:
            for workers in WORKERS:
                processor, wall = medians[case, name, workers]
                line = f"  {name} at {workers}: {processor:.3f} s processor, {wall:.3f} s wall"
                if name != "wakerun":
                    ours = medians[case, "wakerun", workers]
                    line += f"; wakerun takes {ours[0] / processor:.2f} and {ours[1] / wall:.2f} of that"
                print(line)


def missed(medians, programs):
    """A line for each aim that isn't met."""
    ours = lambda case, workers: medians[case, "wakerun", workers]
    for peer, most in (("go", MOST_OF_GO), ("threads", MOST_OF_THREADS)):
        for case, _, _ in CASES[:3]:
            if peer in programs and ours(case, 1)[0] > most * medians[case, peer, 1][0]:
                yield f"{case}: more than {most} of the processor time of {peer} at one worker"
    part = ours(STAGE_BY_STAGE, 4)[1] / ours(STAGE_BY_STAGE, 1)[1]
    print(f"at 4 workers the stages take {part:.2f} of their wall time at one")
    if part > MOST_AT_FOUR:
        yield f"{STAGE_BY_STAGE}: more than {MOST_AT_FOUR} of the wall time at one worker"
    if ours(ONE_LINE, 1)[1] > MOST_SECONDS:
        yield f"{ONE_LINE}: more than {MOST_SECONDS} s"


def main():
    turns = int(sys.argv[1]) if len(sys.argv) > 1 else 9
    built = os.path.join(TOP, "crates", "wakerun", "out", "wakerun")
    program = os.path.abspath(sys.argv[2]) if len(sys.argv) > 2 else built
    with tempfile.TemporaryDirectory() as folder:
        programs = {"wakerun": lambda workers: ([program, "run", "--workers", str(workers)], {}), **build(folder)}
        print(f"medians of {turns} turns; beside wakerun: {', '.join(list(programs)[1:]) or 'nothing'}", flush=True)
        medians = take_turns(programs, turns)
    show(medians, programs)
    faults = list(missed(medians, programs))
    if faults:
        sys.exit("\n".join(faults))


if __name__ == "__main__":
    main()
