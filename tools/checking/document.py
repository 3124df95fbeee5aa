"""A document as it was read, with the places of its parts."""

from __future__ import annotations

from dataclasses import dataclass, field
from typing import NamedTuple

from checking.language import VERSIONS
from checking.statements import Statement
from checking.text import Line
from checking.tokens import Token


@dataclass
class Task:
    """A task: its first line, whether that has no fault, and the lines of its body that have none.

    `has_faults` says whether other lines of its body have one, `hides_names` whether such a line hides the name that it
    declares.
    """

    head: Statement
    is_whole: bool
    body: list[Statement] = field(default_factory=list)
    has_faults: bool = False
    hides_names: bool = False

    @property
    def name(self):
        """Its name, or nothing if its first line has none."""
        return self.head.name.text if self.head.name else None

    def lines(self, *words):
        """Returns the lines of its body that begin with one of these words."""
        return [it for it in self.body if it.word in words]

    def declared(self, *words):
        """Returns the names that lines of these kinds declare, each with its first line."""
        return first_of_each(self.lines(*words))


class Step(NamedTuple):
    """A line of the script that has tokens."""

    line: int
    tokens: tuple[Token, ...]

    @property
    def text(self):
        """The step as it is kept: its tokens with one space between."""
        return " ".join(token.text for token in self.tokens)

    @property
    def is_trace(self):
        """Whether it is the word `trace` alone, which begins another section and is no step."""
        return len(self.tokens) == 1 and self.tokens[0].text == "trace"


@dataclass
class Document:
    """What the lines say.

    `version` is the latest one until the header is read, so that a fault of the header leads to no others. `sections` has
    the lines after which a section begins, each with its number in `places.Section`. `doubtful` has
    the names in lines with faults, of which nothing is known; `hides_names` says whether such a line hides the name of an
    input, an event or a task, `is_header_bad` whether the trace's header has a byte that isn't allowed.
    """

    lines: list[Line]
    version: int = VERSIONS[-1]
    policy: str | None = None
    until: Statement | None = None
    declarations: list[Statement] = field(default_factory=list)
    tasks: list[Task] = field(default_factory=list)
    trace_at: int | None = None
    rows: list[Line] = field(default_factory=list)
    is_header_bad: bool = False
    script_at: int | None = None
    steps: list[Step] = field(default_factory=list)
    done_at: int | None = None
    sections: list[tuple[int, int]] = field(default_factory=list)
    doubtful: set[str] = field(default_factory=set)
    hides_names: bool = False

    def declared(self, *words):
        """Returns the names that `input` or `event` lines declare, each with its first line."""
        return first_of_each(it for it in self.declarations if it.word in words)

    @property
    def named_tasks(self):
        """The tasks by their names; of two with one name the first."""
        found = {}
        for task in self.tasks:
            found.setdefault(task.name, task)
        found.pop(None, None)
        return found

    @property
    def reads(self):
        """The `read` lines of all tasks, each with its task."""
        return [(task, read) for task in self.tasks for read in task.lines("read")]


def first_of_each(statements):
    """Returns statements by the names that they declare; of two with one name the first."""
    found = {}
    for statement in statements:
        if statement.name:
            found.setdefault(statement.name.text, statement)
    return found
