"""Documents with scenarios, for bench/scenarios.py and .ci/made: drawn ones, the one with the most slots, and what a plain
formula writes of a task of theirs (`scenario_of`)."""

import random
import sys
from dataclasses import dataclass
from pathlib import Path

sys.path.insert(0, str(Path(__file__).resolve().parents[1] / "tools"))

from canonical import read_document, split_sections  # noqa: E402

MOST_TASKS, MOST_COST, MOST_DELAY, MOST_READS = 16, 20, 8, 128
LATE, SHORT = "late", "short"


@dataclass(frozen=True)
class Scenario:
    """The scenario of a task: how often the task fires, the longest delay of the links that leave it, and its slots."""

    text: str
    task: str
    firings: int
    longest: int
    slots: int


def document_of(lines):
    """Returns the text of a document of these lines and `done`."""
    return "\n".join([*lines, "done", ""])


def with_the_most_slots():
    """Returns the document whose first task has the most slots: as many readers, links and rows as there may be."""
    lines = ["dbp 1", "policy fp", "until 0", *(f"event e{place}" for place in range(MOST_TASKS))]
    for place in range(MOST_TASKS):
        lines.append(f"task t{place} on e{place} prio 0 cost 1")
        delays = range(place > MOST_READS % (MOST_TASKS - 1), MOST_DELAY + 1) if place else ()
        lines += [f"  read x{delay} = {spelled_delay(delay)}t0.y at 0" for delay in delays]
        lines.append("  out y = 0 then 1")
    return document_of(lines)


def spelled_delay(delay):
    """Returns how a canonical text spells the delay of a read."""
    return f"pre {delay} " if delay > 1 else "pre " * delay


class Drawing:
    """A document that is drawn: its tasks by their places, of which one is the writer."""

    def __init__(self, draw):
        self.draw = draw
        count, most = draw.choice((draw.randrange(1, MOST_TASKS), MOST_TASKS)), draw.choice((0, 3, 1_000_000))
        self.writer = draw.randrange(count)
        self.prios = [draw.randrange(most + 1) for _ in range(count)]
        if draw.randrange(2):
            self.prios[self.writer] = most
        self.costs = [draw.randrange(1, MOST_COST + 1) for _ in range(count)]
        self.reads = [[] for _ in range(count)]
        self.draw_reads(draw.randrange(MOST_DELAY + 1), draw.choice((1, 2, 4, 14)))
        self.lines = self.drawn_lines()

    def draw_reads(self, longest, most):
        """Draws reads over the writer, of each task as many at most, and a few over other tasks."""
        places = range(len(self.costs))
        room = MOST_READS
        for reader in self.draw.sample(places, len(places)):
            others = [it for it in places if it not in (reader, self.writer)]
            writers = self.draw.sample(others, len(others) > 0 and self.draw.randrange(3) == 0)
            if reader != self.writer:
                writers += [self.writer] * self.draw.randrange(self.draw.randrange(2), most + 1)
            self.draw.shuffle(writers)
            reads = [(it, self.delay(reader, it, longest)) for it in writers]
            self.reads[reader] = [it for it in reads if it[1] is not None][:room]
            room -= len(self.reads[reader])

    def delay(self, reader, writer, longest):
        """Returns a delay of a read, or nothing if it needs one and may have none."""
        is_above = (-self.prios[reader], reader) < (-self.prios[writer], writer)
        return None if is_above > longest else self.draw.randrange(is_above, longest + 1)

    def drawn_lines(self):
        """Returns the canonical lines of the document, without a trace and a script."""
        draw, version = self.draw, self.draw.choice((1, 2))
        declared = ["input i = 7", *(f"event e{place}" for place in range(len(self.costs)))]
        draw.shuffle(declared)
        lines = [f"dbp {version}", "policy fp", f"until {draw.randrange(2, 100)}", *declared]
        for place, (prio, cost) in enumerate(zip(self.prios, self.costs)):
            cpu = f" cpu {draw.randrange(8)}" if version == 2 else ""
            lines.append(f"task t{place} on e{place} prio {prio} cost {cost}{cpu}")
            for number, (writer, delay) in enumerate(self.reads[place]):
                source = f"{spelled_delay(delay)}t{writer}.{draw.choice('yz')}"
                lines.append(f"  read x{number} = {source} at {draw.randrange(cost)}")
            lines += ["  out y = 0 then 1", "  out z = 1 then 2"]
        return lines

    def form(self):
        """Returns the canonical text."""
        return document_of(self.lines)

    def text(self):
        """Returns a text that isn't canonical, and may have a trace and a script, which the scenario leaves out."""
        lines = [line.strip().replace(" pre t", " pre 1 t") for line in self.lines]
        trace = self.draw.choice(([], ["trace", "time,e0,i", "0,1,", "1,,8"]))
        return document_of([*lines, *trace, *self.draw.choice(([], ["script", "aim t0 0"]))])


def drawn_document(seed):
    """Returns the document that is drawn from a seed."""
    return Drawing(random.Random(seed))


def scenario_of(form, place, planted=None):
    """Returns the scenario of a task of a document, whose canonical text is given in bytes.

    The task fires again as its last instance ends. A group has a firing more than the longest delay of the links from
    the task. Each reader that is ranked below it occurs once, at the last firing of a group of its own, and one group
    follows.
    """
    document = read_document(form)
    task = document.tasks[place]
    links = {(at, read.delay) for at, it in enumerate(document.tasks) for read in it.reads if read.writer == task.name}
    lower = {(at, delay) for at, delay in links if (-document.tasks[at].prio, at) > (-task.prio, place)}
    readers = sorted({at for at, _ in lower})
    longest = max((delay for _, delay in links), default=0)
    group = max(1, longest) if planted == SHORT else longest + 1
    firings = (len(readers) + 1) * group
    last = 0 if planted == LATE else -1
    events = {number * group + last: document.tasks[at].clock.event for number, at in enumerate(readers, 1)}
    columns = [it for it in document.events if it in (task.clock.event, *events.values())]
    lines, _, _ = split_sections(form.decode().splitlines())
    lines[2] = f"until {(firings - 1) * task.cost + 1}"
    lines += ["trace", ",".join(["time", *columns])]
    for firing in range(firings):
        cells = ("1" if it in (task.clock.event, events.get(firing)) else "" for it in columns)
        lines.append(",".join([str(firing * task.cost), *cells]))
    return Scenario(document_of(lines), task.name, firings, longest, len(lower) + 1 + longest)
