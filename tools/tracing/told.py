"""What is told of a log: each value that isn't taken as it stands, and each row that is dropped, by its line.

Where many lines have the same, the first ones are told each, and of the rest how many there are.
"""

from dataclasses import dataclass, field
from enum import Enum
from typing import List

from checking.text import times

MOST_TOLD = 3


class Kind(Enum):
    """What is told of a line, as it is said of the lines after the first ones."""

    ROUNDED = "rounded"
    SATURATED = "saturated"
    NO_NUMBER = "no number"
    TAKEN_AS_ONE = "taken as 1"
    OUTDONE = "dropped for a later one of the same tick"
    NO_TIME = "no time, so that the row is dropped"
    OTHER_CELLS = "another number of cells than the header, so that the row is dropped"
    BEFORE = "before tick 0, so that the row is dropped"
    BEYOND = "past the end, so that the row is dropped"


@dataclass
class Group:
    """The lines of a column of which the same is told: the texts of the first ones, their count, and the last line."""

    texts: List[str] = field(default_factory=list)
    count: int = 0
    since: int = 0
    last: int = 0


class Told:
    """Collects what is told of the lines of a log."""

    def __init__(self, log, is_all):
        self.log = log
        self.most = None if is_all else MOST_TOLD
        self.groups = {}

    def add(self, line, column, kind, text):
        """Tells something of a column in a line."""
        group = self.groups.setdefault((column, kind), Group())
        group.count += 1
        if self.most is None or group.count <= self.most:
            group.texts.append(f"{self.log}:{line}: {column}: {text}\n")
        elif group.count == self.most + 1:
            group.since = line
        group.last = line

    def lines(self):
        """Yields the lines of what was told, column by column."""
        for (column, kind), group in self.groups.items():
            yield from group.texts
            left = group.count - len(group.texts)
            if left:
                span = f"line {group.last}" if left == 1 else f"lines {group.since} to {group.last}"
                yield f"{self.log}: {column}: {times(left, 'more', 'more')} in {span}: {kind.value}\n"
