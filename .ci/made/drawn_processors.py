"""`cpus` of drawn documents of tasks on one to eight processors; who is served and who is blocked is walked through here tick
by tick. It prints the overrun that the walk finds, or the lines of all instances; `cpus --record` prints the same overrun.

On one processor `cpus` prints what `sim` does. bench/against_peer.py compares two programs on such documents, and the
trials of the tools compare their figures with those of the walk.
"""

import importlib.util
import random
from dataclasses import dataclass
from pathlib import Path

SPEC = importlib.util.spec_from_file_location("model_of_one_processor", Path(__file__).resolve().parent / "responses.py")
one = importlib.util.module_from_spec(SPEC)
SPEC.loader.exec_module(one)

DOCUMENTS = 240
MOST_PROCESSORS, MOST_TASKS, MOST_READS = 8, 12, 4


@dataclass
class Task(one.Task):
    """A task with a processor."""

    cpu: int = 0

    def line(self):
        return f"{super().line()} cpu {self.cpu}"


def drawn_task(draw, place, policy, processors):
    """Returns a task that is drawn, without its reads."""
    period = draw.choice((4, 5, 6, 8, 10, 12, 15, 20, 30))
    clock = draw.choice([period] * 5 + [*one.EVENTS])
    offset = 0 if clock in one.EVENTS else draw.choice((0, draw.randrange(period)))
    deadline = draw.randrange(2, 25) if policy == "edf" or draw.randrange(3) == 0 else None
    cost = draw.choice((1, 1, 2, 3, max(1, period // 2)))
    condition = draw.randrange(6) == 0
    return Task(f"t{place}", clock, offset, condition, draw.randrange(8), deadline, cost, cpu=draw.choice(processors))


def drawn_document(seed, count):
    """Returns a document on so many processors at most, by the number that it is drawn from."""
    draw = random.Random(f"processors {seed}")
    policy = draw.choice(("fp", "fp", "edf"))
    processors = draw.sample(range(MOST_PROCESSORS), count)
    tasks = [drawn_task(draw, place, policy, processors) for place in range(draw.randrange(1, MOST_TASKS + 1))]
    found = one.Drawn(policy, tasks, {})
    for place, task in enumerate(tasks):
        for writer in draw.sample(range(len(tasks)), min(len(tasks), draw.randrange(MOST_READS + 1))):
            if writer != place:
                least = int(found.rank(writer) > found.rank(place))
                task.reads.append((writer, draw.choice((least, least, 1, 3)), draw.randrange(task.cost)))
    for time in sorted(draw.sample(range(one.UNTIL), draw.randrange(12))):
        found.rows[time] = draw.choice(["", "0", "1"]), [name for name in one.EVENTS if draw.randrange(2)]
    return found


def drawn_documents(documents=DOCUMENTS):
    """Yields documents by the numbers that they are drawn from, on one to eight processors in turn."""
    for seed in range(documents):
        yield seed, drawn_document(seed, seed % MOST_PROCESSORS + 1)


class Walk(one.Walk):
    """The walk through the ticks of a document on its processors; `blocked` has the ticks of each instance at which it is
    blocked, by its task and its number."""

    def __init__(self, drawn):
        self.blocked = {}
        super().__init__(drawn)

    def serve(self, time):
        """Serves on each processor the first that isn't blocked for a tick: all see what was left before it."""
        waiting = [it for it in self.instances if self.is_waiting(it)]
        free = []
        for it in waiting:
            if self.is_blocked(it):
                self.blocked.setdefault((it.task, it.number), []).append(time)
            else:
                free.append(it)
        for processor in range(MOST_PROCESSORS):
            own = [it for it in free if self.drawn.tasks[it.task].cpu == processor]
            if own:
                min(own, key=self.turn).served.append(time)

    def is_blocked(self, instance):
        """Whether an instance has come to an undelayed read of an instance that hasn't ended."""
        due = [writer for writer, delay, at in self.drawn.tasks[instance.task].reads
               if delay == 0 and at == len(instance.served)]
        last = [[it for it in self.of(writer) if it.release <= instance.release][-1:] for writer in due]
        return any(self.is_waiting(it) for found in last for it in found)


def cases():
    for seed, drawn in drawn_documents():
        status, lines = Walk(drawn).answer()
        name = f"document {seed} on {seed % MOST_PROCESSORS + 1}"
        yield f"cpus of {name}", ["cpus"], drawn.text(), status, lines
        if status == one.OVERRUN:
            yield f"cpus --record of {name}", ["cpus", "--record"], drawn.text(), status, lines
        if len({task.cpu for task in drawn.tasks}) == 1:
            yield f"sim of {name}", ["sim"], drawn.text(), status, lines
