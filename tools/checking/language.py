"""The words, the forms of lines and the limits of the language, as docs/LANGUAGE.md has them.

A new keyword is also added in editors/vim/syntax/dbp.vim and in editors/vscode/dbp.tmLanguage.json; the gate compares
both with the list in the docs.
"""

from dataclasses import dataclass

from policies import POLICIES

RESERVED = frozenset(
    "and at cost cpu dbp deadline done edf else event every fp from if input let max min next not on or out policy pre "
    "prio read script sense state task then trace until when".split()
)

LEAST_VALUE = -(2**63)
GREATEST_VALUE = 2**63 - 1
MOST_BYTES = 1_048_576
MOST_NAME = 24
MOST_NODES = 64
MOST_DEPTH = 64
MOST_ROWS = 50_000
MOST_OCCURRENCES = 100_000
GREATEST_SLOT = 2**32 - 1
GREATEST_DELAY = 8
GREATEST_CPU = 7
VERSIONS = (1, 2)


@dataclass(frozen=True)
class Span:
    """The least and the greatest value of a number of a line."""

    least: int
    greatest: int

    def has(self, value):
        """Whether a number is neither less nor greater."""
        return self.least <= value <= self.greatest


TIME = Span(0, 1_000_000_000)
LENGTH = Span(1, 1_000_000_000)

# The limits of numbers, by the word that a number follows.
SPANS = {
    "until": TIME,
    "from": TIME,
    "at": TIME,
    "every": LENGTH,
    "deadline": LENGTH,
    "cost": LENGTH,
    "prio": Span(0, 1_000_000),
    "pre": Span(1, GREATEST_DELAY),
    "cpu": Span(0, GREATEST_CPU),
}

# How many there may be of a part: in the document, except for those of one task.
COUNTS = {"inputs": 16, "events": 16, "tasks": 32, "body": 64, "reads": 16, "links": 128, "outs": 8}

COUNTED = {
    "inputs": "inputs in a document",
    "events": "events in a document",
    "tasks": "tasks in a document",
    "body": "lines in the body of a task",
    "reads": "`read` lines in a task",
    "links": "`read` lines in a document",
    "outs": "`out` lines in a task",
}

FORMS = {
    "dbp": "` or `".join(f"dbp {version}" for version in VERSIONS),
    "policy": "` or `".join(f"policy {word}" for word in POLICIES),
    "until": "until N",
    "input": "input NAME = V",
    "event": "event NAME",
    "task": "task NAME CLOCK cost N",
    "state": "state NAME = V",
    "sense": "sense NAME = NAME",
    "read": "read NAME = [pre [K]] NAME.NAME [at N]",
    "let": "let NAME = E",
    "next": "next NAME = E",
    "out": "out NAME = V then E",
    "trace": "trace",
    "script": "script",
    "done": "done",
}

# What stands after the clock in a `task` line, by the version of the document, in its order. Only `cost` must be there.
AFTER_CLOCK = {
    1: ("from", "prio", "deadline", "cost"),
    2: ("from", "when", "prio", "deadline", "cost", "cpu"),
}

BODY = ("state", "sense", "read", "let", "next", "out")

STEP_FORMS = {
    "seen": ("seen T",),
    "aim": ("aim T S",),
    "claim": ("claim T W", "claim T pre W", "claim T pre N W"),
    "open": ("open T",),
    "start": ("start T",),
    "hear": ("hear T",),
    "look": ("look T R",),
    "take": ("take T R",),
    "shut": ("shut T",),
    "put": ("put T P",),
    "done": ("done T",),
    "end": ("end T",),
}


def parts_after(clock, version):
    """Returns the words of what may stand after a clock in a `task` line; a task on an event has no offset."""
    return [word for word in AFTER_CLOCK[version] if word != "from" or clock == "every"]


def part_form(word):
    """Returns a word of a `task` line and what stands after it."""
    return f"{word} NAME" if word in ("on", "when") else f"{word} N"


def task_form(clock, version):
    """Returns the form of a `task` line with a clock."""
    parts = [part_form(word) if word == "cost" else f"[{part_form(word)}]" for word in parts_after(clock, version)]
    return " ".join(["task NAME", part_form(clock), *parts])
