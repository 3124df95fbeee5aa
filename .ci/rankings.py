"""What `rank` makes of a document, by a plain formula: the order of its tasks, or the cycle of direct links that is told."""

import re
import sys
from pathlib import Path

sys.path.insert(0, str(Path(__file__).resolve().parents[1] / "tools"))

from canonical import Every, read_document, split_sections  # noqa: E402

OK, REFUSED = 0, 1
RANK = re.compile(r"( prio \d+)?( deadline \d+)? cost ")


def readers_of(document):
    """Returns, for each task by its place, the places of the tasks that read it directly, in their order."""
    places = {task.name: place for place, task in enumerate(document.tasks)}
    readers = [set() for _ in document.tasks]
    for place, task in enumerate(document.tasks):
        for read in task.reads:
            if read.delay == 0:
                readers[places[read.writer]].add(place)
    return [sorted(it) for it in readers]


def urgency(document, place):
    """Returns what orders tasks that are free, the least first: a shorter period, no event, an earlier line."""
    clock = document.tasks[place].clock
    return (0, clock.period, place) if isinstance(clock, Every) else (1, 0, place)


def order_of(document, readers):
    """Returns the order of the tasks, or nothing if no task is free before all have a place."""
    left, order = set(range(len(readers))), []
    while left:
        free = left.difference(*(readers[it] for it in left))
        if not free:
            return None
        order.append(min(free, key=lambda it: urgency(document, it)))
        left.remove(order[-1])
    return order


def cycle_from(start, readers):
    """Returns the first of the shortest cycles from a task, or nothing: paths grow by one task in the order of lists, and
    the first one to a task is kept."""
    paths, reached = [[start]], {start}
    while paths:
        longer = []
        for path in paths:
            if start in readers[path[-1]]:
                return path
            for reader in readers[path[-1]]:
                if reader not in reached:
                    reached.add(reader)
                    longer.append([*path, reader])
        paths = longer
    return None


def with_rank(line, prio):
    """Returns the first line of a task with another priority."""
    return RANK.sub(lambda it: f" prio {prio}{it[2] or ''} cost ", line, count=1)


def ranked(form):
    """Returns the exit status of `rank`, and what it writes, of a canonical text without a fault that `rank` tries."""
    document = read_document(form)
    readers = readers_of(document)
    order = order_of(document, readers)
    if order is None:
        cycle = next(filter(None, (cycle_from(it, readers) for it in range(len(readers)))))
        return REFUSED, f"refused: 37 Cycle {' '.join(document.tasks[it].name for it in cycle)}\n".encode()
    lines = form.decode().split("\n")
    lines[1] = "policy fp"
    tasks = [at for at, line in enumerate(split_sections(lines[:-1])[0]) if line.startswith("task ")]
    for prio, place in enumerate(reversed(order)):
        lines[tasks[place]] = with_rank(lines[tasks[place]], prio)
    return OK, "\n".join(lines).encode()
