"""A table of expected outs: FILE.expect, in the form of a trace.

Its columns are outs, `TASK.OUT`. A cell has a number, or a range `X..Y`; an empty one expects nothing. A `#` begins a
comment.
"""

import re
from typing import NamedTuple, Optional, Tuple

from checking.language import GREATEST_VALUE, LEAST_VALUE
from checking.line_faults import byte_fault
from checking.text import lines_of, times
from checking.tokens import code_of
from testing.beside import fault, port_faults, without_code

CELL = re.compile(r"(-?[0-9]+)(?:\s*\.\.\s*(-?[0-9]+))?")
PORT = re.compile(r"([A-Za-z_]\w*)(\s*\.\s*)([A-Za-z_]\w*)", re.ASCII)
MOST_DIGITS = 19


class Cell(NamedTuple):
    """A cell: its text without blanks around it, and its column in the line."""

    text: str
    column: int

    @property
    def width(self):
        return max(1, len(self.text))


class Wanted(NamedTuple):
    """What is expected of an out at a time: a value from the least to the greatest; and where that is said."""

    line: int
    cell: Cell
    time: int
    port: Tuple[str, str]
    least: int
    greatest: int

    @property
    def range(self):
        """What is wanted, as it is told."""
        return str(self.least) if self.least == self.greatest else f"{self.least}..{self.greatest}"


class Expectations(NamedTuple):
    """What a table expects, the columns of its outs, and its faults."""

    wanted: Tuple[Wanted, ...]
    ports: Tuple[Tuple[str, str], ...]
    faults: Tuple


def cells_of(line):
    """Returns the cells of a line, which ends at a comment."""
    found, at = [], 0
    for part in code_of(line.text).split(","):
        blanks = len(part) - len(part.lstrip(" \t"))
        found.append(Cell(part.strip(" \t"), at + blanks + 1))
        at += len(part) + 1
    return found


def number_of(digits):
    """Returns the number of some digits, with a sign or not, if it has 64 bits."""
    if len(digits.lstrip("-0")) > MOST_DIGITS:
        return None
    value = int(digits)
    return value if LEAST_VALUE <= value <= GREATEST_VALUE else None


def read_expectations(text, declared):
    """Returns the table of a text; its names are those that a document declares."""
    return Reader(declared).read(text)


class Reader:
    """Reads a table, and keeps its faults."""

    def __init__(self, declared):
        self.declared = declared
        self.ports, self.wanted, self.faults = [], [], []
        self.time = -1

    def fail(self, line, cell, name, text):
        """Keeps a fault at a cell."""
        self.faults.append(fault(line.number, cell.column, name, text, cell.width))

    def read(self, text):
        """Reads all lines."""
        is_headed = False
        for line in lines_of(text):
            cells, wrong = cells_of(line), byte_fault(line)
            if wrong:
                self.faults.append(without_code(wrong))
            elif len(cells) == 1 and not cells[0].text:
                continue
            elif is_headed:
                self.read_row(line, cells)
            else:
                self.read_header(line, cells)
            is_headed = True
        if not is_headed:
            self.faults.append(fault(1, 1, "BadHeader", "the table must begin with `time,TASK.OUT`"))
        return Expectations(tuple(self.wanted), tuple(filter(None, self.ports)), tuple(self.faults))

    def read_header(self, line, cells):
        """Reads the names of the columns."""
        if cells[0].text != "time":
            self.fail(line, cells[0], "BadHeader", "the table must begin with `time`, and each other column is `TASK.OUT`")
        self.ports = [self.port_of(line, it) for it in cells[1:]]
        for cell, port in zip(cells[1:], self.ports):
            first = self.ports.index(port)
            if port and self.ports[first:].count(port) > 1 and cells[first + 1] is not cell:
                self.fail(line, cell, "Duplicate", f"`{cell.text}` has a column already")

    def port_of(self, line, cell):
        """Returns the task and the out that a column names, or nothing."""
        found = PORT.fullmatch(cell.text)
        if not found:
            self.fail(line, cell, "BadHeader", f"`{cell.text}` is no out: a column is `TASK.OUT`")
            return None
        task, between, out = found.groups()
        places = (cell.column, len(task)), (cell.column + len(task) + len(between), len(out))
        wrong = port_faults(self.declared, line.number, task, out, *places)
        self.faults += wrong
        return None if wrong else (task, out)

    def read_row(self, line, cells):
        """Reads a row below the header."""
        time, *values = cells
        if len(values) != len(self.ports):
            text = f"the row has {times(len(cells), 'cell')}, and the header {len(self.ports) + 1}"
            self.fail(line, values[len(self.ports)] if len(values) > len(self.ports) else cells[-1], "BadRow", text)
            return
        tick = self.time_of(line, time)
        for cell, port in zip(values, self.ports):
            least, greatest = self.range_of(line, cell)
            if port and tick is not None and least is not None:
                self.wanted.append(Wanted(line.number, cell, tick, port, least, greatest))

    def time_of(self, line, cell) -> Optional[int]:
        """Returns the time of a row, or nothing if it has a fault."""
        tick = number_of(cell.text) if cell.text.isdigit() else None
        if tick is None:
            self.fail(line, cell, "BadCell", f"`{cell.text}` is no time: digits, with a value below 2^63")
        elif tick <= self.time:
            self.fail(line, cell, "TimeNotRising", f"the time {tick} doesn't come after {self.time}, that of a row above")
        elif self.declared.until is not None and tick >= self.declared.until:
            self.fail(line, cell, "TimePastEnd", f"the time {tick} isn't below `until {self.declared.until}`")
        else:
            self.time = tick
            return tick
        return None

    def range_of(self, line, cell):
        """Returns the least and the greatest value that a cell allows, or nothing if it is empty or has a fault."""
        found = CELL.fullmatch(cell.text)
        if not found:
            if cell.text:
                self.fail(line, cell, "BadCell", f"`{cell.text}` is neither a number nor a range `X..Y`")
            return None, None
        least, greatest = number_of(found[1]), number_of(found[2] or found[1])
        if least is None or greatest is None:
            self.fail(line, cell, "NumberTooWide", f"a number has 64 bits, from {LEAST_VALUE} to {GREATEST_VALUE}")
            return None, None
        if least > greatest:
            self.fail(line, cell, "BadCell", f"the range `{cell.text}` is empty: its least value comes first")
            return None, None
        return least, greatest


def updated(text, found):
    """Returns the text of a table with other values: `found` has them by what is wanted and isn't there."""
    lines = text.split(b"\n")
    for wanted, value in sorted(found.items(), key=lambda it: (it[0].line, it[0].cell.column), reverse=True):
        line, at = lines[wanted.line - 1], wanted.cell.column - 1
        lines[wanted.line - 1] = line[:at] + str(value).encode() + line[at + wanted.cell.width :]
    return b"\n".join(lines)
