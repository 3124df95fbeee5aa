"""`rank` of drawn documents: the text, or the names of the cycle, is that of a plain formula (.ci/rankings.py). `mean` of what
it writes has the lines of the document's meaning, as it has them of the document itself if that is accepted.

Documents have tasks with periods, events and conditions, priorities and deadlines or none, and links of each kind.
"""

import random
import sys
from bisect import bisect_right
from pathlib import Path

sys.path[:0] = [str(Path(__file__).resolve().parents[2] / it) for it in (".ci", "tools")]

from canonical import read_document  # noqa: E402
from rankings import OK, order_of, ranked, readers_of  # noqa: E402

DOCUMENTS = 300
UNTIL, MOST_TASKS, MOST_READS, MOST_LINKS, MOST_DELAY = 24, 32, 16, 128, 8
UNRANKED, BY_HAND = 0, 2


class Drawing:
    """A document that is drawn, as its canonical text."""

    def __init__(self, draw):
        self.draw = draw
        self.version = draw.choice((1, 2))
        self.count = draw.choice((draw.randrange(1, 7), draw.randrange(1, 7), draw.randrange(7, 13), MOST_TASKS))
        self.ranks = draw.choice((UNRANKED, 1, BY_HAND))
        self.before = self.draw.sample(range(self.count), self.count)
        # how many of the direct reads may be of any task: none of them, few, or all
        self.wild, self.direct = draw.choice((0, 0, 0, 0.1, 1)), draw.choice((0, 0.3, 0.7, 1))
        self.links = 0
        lines = [f"dbp {self.version}", f"policy {draw.choice(('fp', 'edf'))}", f"until {UNTIL}"]
        lines += [f"input i = {draw.randrange(2)}", "event e0", "event e1"]
        for place in range(self.count):
            lines += self.task(place)
        lines += ["trace", "time,e1,i,e0", *(self.row(time) for time in range(UNTIL) if draw.randrange(3))]
        lines += draw.choice(([], ["script", "aim t0 0", "jump"]))
        self.form = "\n".join([*lines, "done", ""])

    def task(self, place):
        """Returns the lines of a task."""
        draw, period = self.draw, self.draw.choice((2, 2, 3, 5, 8, 13))
        clock = draw.choice(("on e0", "on e1", *[f"every {period} from {draw.choice((0, draw.randrange(period)))}"] * 3))
        when = " when i" if self.version == 2 and draw.randrange(4) == 0 else ""
        cost, cpu = draw.randrange(1, 4), f" cpu {draw.randrange(8)}" if self.version == 2 else ""
        reads = [self.read(place, number, cost) for number in range(draw.choice((0, 1, 2, 3, 3, MOST_READS)))]
        terms, reads = "n", [it for it in reads if it]
        for number in range(len(reads)):
            terms = f"({terms}) + x{number}" if number else f"{terms} + x{number}"
        head = f"task t{place} {clock}{when}{self.rank(place)} cost {cost}{cpu}"
        named = [f"  read x{number} = {text}" for number, text in enumerate(reads)]
        last = f"  out y = {place} then {f'({terms})' if reads else terms} % 1000"
        return [head, "  state n = 0", *named, "  next n = n + 1", last]

    def rank(self, place):
        """Returns the priority and the deadline of a task, or none of them."""
        draw = self.draw
        if self.ranks == BY_HAND:
            # the tasks in an order that their direct reads keep, unless these are of any task
            number = self.before.index(place)
            return f" prio {self.count - number} deadline {number + 1}"
        given = draw.choice(("", f" prio {draw.randrange(4)}")), draw.choice(("", f" deadline {draw.randrange(1, 9)}"))
        return "".join(given) if self.ranks else ""

    def read(self, place, number, cost):
        """Returns the rest of a read of another task, or nothing."""
        draw, own = self.draw, self.before.index(place)
        delay = 0 if draw.random() < self.direct else draw.randrange(1, MOST_DELAY + 1)
        any_task = delay or draw.random() < self.wild
        others = [it for it in (range(self.count) if any_task else self.before[:own]) if it != place]
        if not others or self.links == MOST_LINKS:
            return None
        self.links += 1
        spelled = f"pre {delay} " if delay > 1 else "pre " * delay
        return f"{spelled}t{draw.choice(others)}.y at {draw.randrange(cost)}"

    def row(self, time):
        """Returns a row of the trace."""
        return f"{time},{self.draw.choice(('', '1', '0'))},{self.draw.choice(('', '', '0', '5'))},{self.draw.choice('1 ')}"

    def text(self):
        """Returns the document as it may be written: without what may be left out, with comments and blank lines."""
        diagram, mark, rest = self.form.partition("trace\n")
        lines = diagram.replace(" from 0", "").replace(" at 0\n", "\n").split("\n")
        return "\n".join(f"{line}  # {number}\n" if number % 5 == 0 else line for number, line in enumerate(lines)) + mark + rest


def is_accepted(document):
    """Whether a document's tasks have their numbers, and no task is read directly by one that is ranked above."""
    is_fixed = document.policy.word == "fp"
    numbers = [task.prio if is_fixed else task.deadline for task in document.tasks]
    if None in numbers:
        return False
    keys = [(-it if is_fixed else it, place) for place, it in enumerate(numbers)]
    return all(keys[it] < keys[reader] for it, readers in enumerate(readers_of(document)) for reader in readers)


def lines_of(document):
    """Returns the lines of the meaning of a document: each out counts its instances, and adds what is read."""
    places, times = {it.name: at for at, it in enumerate(document.tasks)}, [[*document.times(it)] for it in document.tasks]
    order, values, lines = order_of(document, readers_of(document)), [[at] for at in range(len(times))], {}
    for time in range(UNTIL):
        for place in (it for it in order if time in times[it]):
            total, number = len(values[place]) - 1, len(values[place])
            for read in document.tasks[place].reads:
                writer = places[read.writer]
                total += values[writer][max(bisect_right(times[writer], time) - read.delay, 0)]
            values[place].append(total % 1000)
            lines[time, place] = f"{time},t{place},{number},{total % 1000}\n"
    return "".join(line for _, line in sorted(lines.items())).encode()


def of_all_tasks(sources):
    """Returns the canonical text of a document of a period and as many tasks as there may be; the reads of each are given."""
    lines = ["dbp 1", "policy fp", f"until {UNTIL}"]
    for place, reads in enumerate(sources):
        lines += [f"task t{place} every 5 from 0 cost 1", *(f"  read x{at} = t{it}.y at 0" for at, it in enumerate(reads))]
        lines += [f"  out y = {place} then {place}"]
    return "\n".join([*lines, "done", ""]).encode()


def large_forms():
    """Yields the names and the texts of documents with long chains, long cycles, and as many links as there may be."""
    places = range(MOST_TASKS)
    yield "each task reads the next", of_all_tasks([[it + 1] for it in places[:-1]] + [[]])
    yield "each task reads the one before", of_all_tasks([[]] + [[it - 1] for it in places[1:]])
    yield "a cycle of all tasks", of_all_tasks([[it - 1] for it in [MOST_TASKS, *places[1:]]])
    yield "a cycle of all tasks, the other way", of_all_tasks([[(it + 1) % MOST_TASKS] for it in places])
    yield "a cycle of the last two tasks", of_all_tasks([[it - 1] if it else [] for it in places[:-2]] + [[31], [30]])
    yield "two layers", of_all_tasks([[] for _ in range(24)] + [[*range(at, at + 16)] for at in range(8)])
    yield "many cycles", of_all_tasks([[(it + step) % MOST_TASKS for step in (3, 5, 11, 17)] for it in places])


def cases_of(name, text, form):
    """Yields the cases of a document and its canonical text."""
    status, wanted = ranked(form)
    yield f"rank of {name}", ["rank"], text, status, wanted
    if status != OK:
        return
    yield f"rank of that of {name}", ["rank"], wanted, OK, wanted
    document = read_document(form)
    if document.trace is not None:
        lines = lines_of(document)
        yield f"mean of that of {name}", ["mean"], wanted, OK, lines
        if is_accepted(document):
            yield f"mean of {name}", ["mean"], text, OK, lines


def cases():
    for seed in range(DOCUMENTS):
        drawing = Drawing(random.Random(f"rank {seed}"))
        yield from cases_of(f"document {seed}", drawing.text().encode(), drawing.form.encode())
    for name, form in large_forms():
        yield from cases_of(name, form, form)
