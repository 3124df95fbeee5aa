"""What is printed of a document: errors and warnings, with their places and notes."""

from __future__ import annotations

from dataclasses import dataclass
from enum import Enum


class Severity(Enum):
    """Whether the program refuses the document for it, else whether it is hardly meant or only to be known."""

    ERROR = "error"
    WARNING = "warning"
    NOTE = "note"


@dataclass(frozen=True)
class Note:
    """A further place, and what stands there; in the file of the message unless it names another one."""

    line: int
    column: int
    text: str
    file: str | None = None


@dataclass(frozen=True)
class Message:
    """An error or a warning at a place; `width` is how many bytes it is about."""

    line: int
    column: int
    severity: Severity
    code: int | None
    name: str
    text: str
    notes: tuple[Note, ...] = ()
    width: int = 1


def error(line, column, code, text, *notes, width=1, detail=""):
    """Makes the message of a refusal; `detail` is the limit's word of code 6."""
    name = f"{CODE_NAMES[code]} {detail}".rstrip()
    return Message(line, column, Severity.ERROR, code, name, text, notes, width)


def error_at(token, line, code, text, *notes, detail=""):
    """Makes the message of a refusal at a token of a line."""
    return error(line, token.column, code, text, *notes, width=token.width, detail=detail)


def warning(line, token, name, text, *notes):
    """Makes a warning at a token of a line."""
    return Message(line, token.column, Severity.WARNING, None, name, text, notes, token.width)


def warning_over(line, tokens, name, text, *notes, severity=Severity.WARNING):
    """Makes a warning, or a note, over several tokens of a line."""
    column = tokens[0].column
    return Message(line, column, severity, None, name, text, notes, tokens[-1].end - column)


CODE_NAMES = {
    1: "BadByte",
    2: "BadToken",
    3: "BadLine",
    4: "NumberTooWide",
    5: "NameTooLong",
    6: "LimitHit",
    7: "MissingDone",
    8: "MissingHeader",
    9: "DepthHit",
    10: "Duplicate",
    11: "Unknown",
    12: "SelfLink",
    13: "LetCycle",
    14: "MissingPrio",
    15: "MissingDeadline",
    16: "ReadPastCost",
    17: "NoOut",
    18: "UndelayedUpward",
    20: "BadHeader",
    21: "BadRow",
    22: "BadCell",
    23: "TimeNotRising",
    24: "TimePastEnd",
    25: "TooManyOccurrences",
    26: "TooManyRows",
    27: "BadStep",
    28: "StepName",
    29: "NoScript",
}
