"""Faults of the trace section: its header and its rows."""

import re
from dataclasses import dataclass

from checking.language import GREATEST_VALUE, LEAST_VALUE, MOST_ROWS
from checking.line_faults import about_row
from checking.messages import Note, error
from checking.text import times, what_there_is

TIME_CELL = re.compile(r"[0-9]+")
VALUE_CELL = re.compile(r"-?[0-9]+")
MOST_DIGITS = 19


@dataclass(frozen=True)
class Cell:
    """What stands between two commas, without the blanks around it."""

    text: str
    column: int

    @property
    def width(self):
        """How many bytes it has; an empty one is shown as one."""
        return max(1, len(self.text))


@dataclass(frozen=True)
class Row:
    """A kept line of the trace, cut into its cells."""

    line: int
    cells: tuple[Cell, ...]

    @property
    def time(self):
        """The time of a row whose first cell is one."""
        return number(self.cells[0].text)


def number(text):
    """Returns the value of digits, of which there may be many, or nothing if it needs more than 64 bits."""
    digits = text.lstrip("-0") or "0"
    if len(digits) > MOST_DIGITS:
        return None
    value = -int(digits) if text.startswith("-") else int(digits)
    return value if LEAST_VALUE <= value <= GREATEST_VALUE else None


def row_of(line):
    """Cuts a kept line at its commas."""
    cells, start = [], 0
    for part in line.text.decode("latin-1").split(","):
        inside = part.strip(" \t")
        cells.append(Cell(inside, start + (part.index(inside) if inside else 0) + 1))
        start += len(part) + 1
    return Row(line.number, tuple(cells))


class TraceFaults:
    """The faults of a document's trace section."""

    def __init__(self, document):
        self.document = document
        self.inputs = document.declared("input")
        self.events = document.declared("event")
        self.rows = [row_of(line) for line in document.rows[: MOST_ROWS + 2]]

    def all(self):
        """Returns the messages of the header, or those of the rows, one for each row with a fault."""
        if self.document.trace_at is None or self.document.is_header_bad:
            return []
        fault = self.header_fault()
        if fault:
            return [fault]
        found, last = [], None
        for place, row in enumerate(self.rows[1:]):
            if place == MOST_ROWS:
                found.append(at_cell(row, row.cells[0], 26, f"a trace has at most {MOST_ROWS:,} rows after its header"))
                break
            fault = self.shape_fault(row) or self.time_fault(row, last)
            found.append(fault)
            last = row if fault is None else last
        return [it for it in found if it]

    def header_fault(self):
        """Returns the message of what is no header, or nothing."""
        at = self.document.trace_at
        if not self.rows:
            text = "the trace has no header: its first line is `time`, and then names with commas between"
            return error(at, 1, 20, text, width=5)
        header = self.rows[0]
        if header.cells[0].text != "time":
            names = ",".join(["time", *self.inputs, *self.events])
            text = f"the trace's first line is its header, which begins with `time`, as `{names}`"
            return at_cell(header, header.cells[0], 20, text + about_row(header.cells[0].text))
        seen = {}
        for cell in header.cells[1:]:
            fault = self.name_fault(header, cell, seen)
            if fault:
                return fault
            seen[cell.text] = cell
        return None

    def name_fault(self, header, cell, seen):
        """Returns the message of a name that can't name a column, or nothing."""
        if cell.text in seen:
            note = Note(header.line, seen[cell.text].column, "the first one is here")
            return at_cell(header, cell, 20, f"the column `{cell.text}` stands a second time", note)
        is_doubtful = self.document.hides_names or cell.text in self.document.doubtful
        if cell.text in self.inputs or cell.text in self.events or is_doubtful and cell.text:
            return None
        kinds = {"input": self.inputs, "event": self.events}
        declared = [what_there_is(kind, names, wrong=cell.text or None) for kind, names in kinds.items() if names]
        there = ", and ".join(declared or ["no input and no event is declared"])
        what = f"`{cell.text}` is no declared input or event" if cell.text else "this cell is empty"
        return at_cell(header, cell, 20, f"{what}: {there}")

    def shape_fault(self, row):
        """Returns the message of a row that has too few or too many cells, or a bad one, or nothing."""
        header = self.rows[0].cells
        if len(row.cells) != len(header):
            columns = ",".join(it.text for it in header)
            text = f"this row has {times(len(row.cells), 'cell')}, and the header `{columns}` has {len(header)}"
            cell = row.cells[min(len(row.cells), len(header) + 1) - 1]
            note = Note(self.rows[0].line, 1, "the header is here")
            return at_cell(row, cell, 21, text + about_row(row.cells[0].text), note)
        for column, cell in zip(header, row.cells):
            wanted = self.wanted(column is header[0], column.text, cell.text)
            if wanted:
                shown = f"`{cell.text}` stands" if cell.text else "nothing stands"
                return at_cell(row, cell, 22, f"{shown} in the column `{column.text}`, where {wanted}")
        return None

    def wanted(self, is_time, name, text):
        """Returns what must stand in a cell, or nothing if it is as it must be."""
        if is_time:
            is_time_of_64_bits = TIME_CELL.fullmatch(text) and number(text) is not None
            return None if is_time_of_64_bits else f"a time must stand: digits, with a value up to {GREATEST_VALUE}"
        if name in self.inputs:
            is_value = text == "" or VALUE_CELL.fullmatch(text) and number(text) is not None
            return None if is_value else "a value of 64 bits must stand, as `12` or `-5`, or nothing for no new value"
        if name in self.events:
            return None if text in ("", "0", "1") else "`1` must stand if the event occurs, else `0` or nothing"
        return None

    def time_fault(self, row, last):
        """Returns the message of a row whose time doesn't rise, or is past the end, or nothing."""
        if last is not None and row.time <= last.time:
            note = Note(last.line, last.cells[0].column, "the row before is here")
            text = f"the time {row.time} doesn't come after {last.time}, the time of the row before: times rise"
            return at_cell(row, row.cells[0], 23, text, note)
        until = self.document.until
        if until is not None and row.time >= until.number("until"):
            end = until.number("until")
            note = Note(until.line, until.numbers["until"].column, "the end is here")
            text = f"the time {row.time} isn't below the end of the document, `until {end}`"
            return at_cell(row, row.cells[0], 24, text, note)
        return None


def at_cell(row, cell, code, text, *notes):
    """Makes the message of a refusal at a cell of a row."""
    return error(row.line, cell.column, code, text, *notes, width=cell.width)


def trace_faults(document):
    """Returns the messages of the trace, in its order."""
    return TraceFaults(document).all()
