"""Writes legal journals of a given number of entries: python3 bench/journals.py ENTRIES [SEED] > FILE

They come from a run of a small machine of 16 processors, 4 agents and 200 tasks, in which at each turn one seat does
something at random: picks and finishes, sleeps, wakes (directly and by remote lists), moves between queues, affinity
masks with their stood and done, refused wakes, and outages with returns.
"""
import random
import sys

CPUS = 16
AGENTS = 4
TASKS = 200


class Task:
    """A task: its last change, run and mask numbers, and where it is."""

    def __init__(self, number):
        self.number = number
        self.change = 0
        self.run = 0
        self.mask = 0
        # Where it is queued: the number of a processor while it is on that queue, or "new", "off", "listed", "dead".
        self.at = "new"
        self.busy = None


class Machine:
    def __init__(self, seed):
        self.rng = random.Random(seed)
        self.journals = [[] for _ in range(CPUS + AGENTS)]
        self.tasks = [Task(t) for t in range(TASKS)]
        self.current = [None] * CPUS
        self.lists = [[] for _ in range(CPUS)]
        self.epochs = [0] * CPUS
        self.online = [True] * CPUS
        self.count = 0

    def say(self, seat, text):
        self.journals[seat].append(text)
        self.count += 1

    def change(self, seat, word, task, cpu, tail=""):
        task.change += 1
        self.say(seat, f"{word} {task.number} {task.change} {cpu}{tail}")

    def online_cpu(self):
        while True:
            cpu = self.rng.randrange(CPUS)
            if self.online[cpu]:
                return cpu

    def start(self):
        for task in self.tasks:
            cpu = task.number % CPUS
            self.change(cpu, "new", task, cpu)
            task.at = cpu

    def pick(self, cpu, task):
        task.run += 1
        self.say(cpu, f"pick {task.number} {task.run} {cpu}")
        task.busy = cpu
        self.current[cpu] = task

    def finish(self, cpu):
        task = self.current[cpu]
        task.run += 1
        self.say(cpu, f"finish {task.number} {task.run} {cpu}")
        task.busy = None
        self.current[cpu] = None

    def leave(self, cpu, word, to):
        """The current task sleeps or dies, and its processor switches away from it."""
        task = self.current[cpu]
        self.change(cpu, word, task, cpu)
        task.at = to
        self.finish(cpu)

    def wake(self, seat, task, by_list):
        self.say(seat, f"wake {task.number} {task.change}")
        cpu = self.online_cpu()
        if by_list:
            self.say(seat, f"list {task.number} {task.change} {cpu} {self.epochs[cpu]}")
            self.lists[cpu].append(task)
            task.at = "listed"
        else:
            self.change(seat, "enq", task, cpu, " direct")
            task.at = cpu

    def drain(self, cpu):
        for task in self.lists[cpu]:
            self.change(cpu, "enq", task, cpu, " list")
            task.at = cpu
        self.lists[cpu] = []

    def move(self, seat, task, to):
        self.change(seat, "out", task, task.at)
        self.change(seat, "in", task, to)
        task.at = to

    def affine(self, seat, task):
        """A mask of which the task's place is a member, completed at once."""
        task.mask += 1
        cpus = {self.rng.randrange(CPUS) for _ in range(3)}
        at = "-"
        if task.at != "off":
            cpus.add(task.at)
            at = task.at
        text = ",".join(str(cpu) for cpu in sorted(cpus))
        self.say(seat, f"mask {task.number} {task.mask} {text}")
        self.say(seat, f"stood {task.number} {task.mask} {task.change} {at}")
        self.say(seat, f"done {task.number} {task.mask}")

    def turn(self, cpu):
        """An outage of the processor, or its return."""
        if not self.online[cpu]:
            self.epochs[cpu] += 1
            self.say(cpu, f"up {cpu} {self.epochs[cpu]}")
            self.online[cpu] = True
            return
        if self.current[cpu]:
            self.finish(cpu)
        self.drain(cpu)
        self.online[cpu] = False
        for task in self.tasks:
            if task.at == cpu:
                self.move(cpu, task, self.online_cpu())
        self.say(cpu, f"offline {cpu} {self.epochs[cpu]}")

    def step(self):
        rng = self.rng
        # Half of the turns are those of a task that runs.
        task = self.current[rng.randrange(CPUS)] if rng.random() < 0.5 else None
        task = task or self.tasks[rng.randrange(TASKS)]
        seat = rng.randrange(CPUS + AGENTS)
        kind = rng.random()
        if kind < 0.0005:
            if seat in range(1, CPUS):
                self.turn(seat)
        elif kind < 0.03:
            if task.at != "listed":
                self.affine(seat, task)
        elif kind < 0.06:
            self.say(seat, f"refused {task.number} 0")
        elif task.at == "off":
            self.wake(seat, task, kind < 0.5)
        elif task.at == "listed":
            for cpu in range(CPUS):
                if task in self.lists[cpu]:
                    self.drain(cpu)
        elif task.busy is not None:
            if kind < 0.8:
                self.leave(task.busy, "sleep", "off")
            else:
                self.finish(task.busy)
        elif kind < 0.2:
            self.move(seat, task, self.online_cpu())
        else:
            if self.current[task.at]:
                self.finish(task.at)
            self.pick(task.at, task)

    def end(self):
        for cpu in range(CPUS):
            if self.current[cpu]:
                self.finish(cpu)
            self.drain(cpu)
        for task in self.tasks:
            if task.at == "off":
                self.wake(0, task, False)
            self.pick(task.at, task)
            self.leave(task.at, "die", "dead")

    def write(self, out):
        lines = [f"journal 1\ncpus {CPUS}\ntasks {TASKS}\nseats {CPUS + AGENTS}\n"]
        for seat, journal in enumerate(self.journals):
            lines.append(f"seat {seat}\n")
            lines.extend(entry + "\n" for entry in journal)
        lines.append("end\n")
        out.writelines(lines)


def write_journals(entries, seed, out):
    """Legal journals of exactly so many entries, at least 2,000."""
    machine = Machine(seed)
    machine.start()
    while machine.count < entries - 6 * TASKS - 100:
        machine.step()
    machine.end()
    while machine.count < entries:
        machine.say(machine.rng.randrange(CPUS + AGENTS), "refused 0 128")
    machine.write(out)


if __name__ == "__main__":
    write_journals(int(sys.argv[1]), int(sys.argv[2]) if len(sys.argv) > 2 else 1, sys.stdout)
