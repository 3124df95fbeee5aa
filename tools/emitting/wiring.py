"""The tables of a diagram: its links, what its tasks hear and read, and where their slots are.

The numbers of slots are the program's. Links, orders, turns and addresses are those of docs/PROTOCOL.md.
"""

from dataclasses import dataclass
from typing import Tuple

FIRST_ADDRESS = 1  # word 0 of the table is no task's and no link's
PLAIN_WORDS_OF_TASK = 2  # its gate and its ended number; its aim is an order


@dataclass(frozen=True)
class Link:
    """A link, by the numbers of its writer and its reader."""

    writer: int
    reader: int
    delay: int


@dataclass(frozen=True)
class TurnOfRead:
    """A read: its number, the place of its link's order among those that the task hears, and what it reads."""

    read: int
    order: int
    writer: int
    port: int


@dataclass(frozen=True)
class Wired:
    """What the steps look up of a task."""

    first_slot: int
    slots: int
    kept: int
    links: Tuple[int, ...]
    leaving: Tuple[int, ...]
    reads: Tuple[TurnOfRead, ...]


@dataclass(frozen=True)
class Wiring:
    """What the steps look up of a diagram."""

    links: Tuple[Link, ...]
    tasks: Tuple[Wired, ...]
    word_count: int


def links_of(document, numbers):
    """Returns the links in the order of their first `read` lines."""
    reads = ((reader, read) for reader, task in enumerate(document.tasks) for read in task.reads)
    return tuple(dict.fromkeys(Link(numbers[read.writer], reader, read.delay) for reader, read in reads))


def turns_of(document, numbers, links, into, reader):
    """Returns the reads of a task in the order of their turns."""
    found = []
    for number, read in sorted(enumerate(document.tasks[reader].reads), key=lambda it: it[1].at):
        writer = numbers[read.writer]
        order = 1 + into.index(links.index(Link(writer, reader, read.delay)))
        port = [out.name for out in document.tasks[writer].outs].index(read.port)
        found.append(TurnOfRead(number, order, writer, port))
    return tuple(found)


def wiring_of(document, slots, words_of_value=1):
    """Returns the tables of a diagram, of which each task has so many slots; an order or a value takes so many words."""
    numbers = {task.name: number for number, task in enumerate(document.tasks)}
    links = links_of(document, numbers)
    address = FIRST_ADDRESS + (PLAIN_WORDS_OF_TASK + words_of_value) * len(document.tasks) + words_of_value * len(links)
    tasks = []
    for number, task in enumerate(document.tasks):
        into = tuple(at for at, link in enumerate(links) if link.reader == number)
        leaving = tuple(at for at, link in enumerate(links) if link.writer == number)
        kept = max((links[at].delay for at in leaving), default=0)
        turns = turns_of(document, numbers, links, into, number)
        tasks.append(Wired(address, slots[number], kept, into, leaving, turns))
        address += slots[number] * (1 + words_of_value * len(task.outs))
    return Wiring(links, tuple(tasks), address)
