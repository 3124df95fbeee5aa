"""The signals of a document: what its trace gives and its tasks write, by ticks.

The values are the program's: they are taken from the lines that it prints and from the document's trace.
"""

from dataclasses import dataclass
from enum import Enum
from itertools import groupby
from typing import Iterable, NamedTuple, Tuple

TRACE_SCOPE = "trace"  # a keyword: no task has this name


class Kind(Enum):
    """What a signal is: a number that stays until the next one, the number of a task's last instance, or 1 at the ticks
    of an event and 0 at all others."""

    NUMBER = "number"
    INSTANCE = "instance"
    EVENT = "event"


@dataclass(frozen=True)
class Signal:
    """A value in time, with its first one."""

    scope: str
    name: str
    kind: Kind
    first: int

    @property
    def full_name(self):
        """Returns the name that the signal has among all signals of the document."""
        return self.name if self.kind is Kind.INSTANCE else f"{self.scope}.{self.name}"


class Change(NamedTuple):
    """A signal, by its index, takes a value at a tick."""

    tick: int
    signal: int
    value: int


class Occurrence(NamedTuple):
    """A line that the program prints: an instance of a task, and its outs."""

    tick: int
    task: str
    instance: int
    outs: Tuple[int, ...]


@dataclass(frozen=True)
class Waves:
    """The signals of a document, and their changes by tick; events have only the changes to 1."""

    until: int
    signals: Tuple[Signal, ...]
    changes: Tuple[Change, ...]


def by_tick(changes):
    """Returns each tick at which something changes, with its changes."""
    return groupby(changes, key=lambda change: change.tick)


def occurrences_of(lines):
    """Returns the occurrences that the lines of `mean`, `sim`, `cpus` or `run` tell."""
    return [occurrence_of(line) for line in lines.decode("ascii").splitlines()]


def occurrence_of(line):
    """Returns the occurrence of one line, as in 10,filter,2,50."""
    tick, task, *numbers = line.split(",")
    instance, *outs = map(int, numbers)
    return Occurrence(int(tick), task, instance, tuple(outs))


def instance_name(task):
    """Returns the name of the row of a task's instances: TASK_instance, with `_` after it if an out is named so."""
    name, taken = f"{task.name}_instance", {out.name for out in task.outs}
    while name in taken:
        name += "_"
    return name


def task_signals(task):
    """Returns the signals of a task: how many instances it has had, and its outs with their first values."""
    instances = Signal(task.name, instance_name(task), Kind.INSTANCE, 0)
    return [instances, *(Signal(task.name, out.name, Kind.NUMBER, out.first) for out in task.outs)]


def trace_signals(document):
    """Returns the signals that come from outside: the inputs, then the events."""
    inputs = [Signal(TRACE_SCOPE, it.name, Kind.NUMBER, it.first) for it in document.inputs]
    return [*inputs, *(Signal(TRACE_SCOPE, event, Kind.EVENT, 0) for event in document.events)]


def trace_changes(document) -> Iterable[Change]:
    """Yields the changes of the signals that come from outside, signal by signal."""
    for signal, it in enumerate(document.inputs):
        for tick, value in document.samples(it.name):
            yield Change(tick, signal, value)
    for signal, event in enumerate(document.events, len(document.inputs)):
        for tick in document.event_times(event):
            yield Change(tick, signal, 1)


def task_changes(occurrences, first_signals) -> Iterable[Change]:
    """Yields the changes that the occurrences make; `first_signals` has the index of the first signal of each task."""
    for occurrence in occurrences:
        first = first_signals[occurrence.task]
        for signal, value in enumerate((occurrence.instance, *occurrence.outs), first):
            yield Change(occurrence.tick, signal, value)


def waves_of(document, occurrences):
    """Returns the signals of a document and their changes, at one tick in the order of the signals."""
    signals = trace_signals(document)
    first_signals = {}
    for task in document.tasks:
        first_signals[task.name] = len(signals)
        signals += task_signals(task)
    changes = [*trace_changes(document), *task_changes(occurrences, first_signals)]
    return Waves(document.until, tuple(signals), tuple(sorted(changes)))
