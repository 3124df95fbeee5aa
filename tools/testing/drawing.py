"""Traces that are drawn from a number, within the ranges of FILE.props.

Words of 64 bits are drawn from SplitMix64. An input without a range, and an event without distances, keep what the
document's own trace says.
"""

import re
from typing import Dict, NamedTuple, Tuple

from checking.language import MOST_ROWS, Span

MASK = 2**64 - 1
PARTS, SLOWEST = 64, 8  # without `every` two samples of an input are a 64th to an eighth of the time apart


class Column(NamedTuple):
    """A column of a trace: its name, and the time and the value of each cell that isn't empty."""

    name: str
    cells: Tuple[Tuple[int, int], ...]


class Words:
    """Words of 64 bits, drawn by SplitMix64 from two numbers."""

    def __init__(self, seed, number):
        self.state = seed & MASK
        self.state = self.word() ^ number
        self.state = self.word()

    def word(self):
        """Returns the next word."""
        self.state = (self.state + 0x9E3779B97F4A7C15) & MASK
        mixed = ((self.state ^ (self.state >> 30)) * 0xBF58476D1CE4E5B9) & MASK
        mixed = ((mixed ^ (mixed >> 27)) * 0x94D049BB133111EB) & MASK
        return mixed ^ (mixed >> 31)

    def of(self, span):
        """Returns a number of a span."""
        return span.least + self.word() % (span.greatest - span.least + 1)

    def one_of(self, values):
        """Returns one of some values."""
        return values[self.word() % len(values)]


def distances(every, until):
    """Returns the distances of the cells of a column, which may be left to this."""
    return every or Span(max(1, until // PARTS), max(1, until // SLOWEST))


def numbers_of(text):
    """Returns the numbers that stand in a document, each with its neighbours: where a limit may be one off."""
    code = re.sub(rb"#.*", b"", text)
    found = {int(it) for it in re.findall(rb"\b[0-9]{1,19}\b", code)}
    return sorted({sign * it + more for it in found for sign in (1, -1) for more in (-1, 0, 1)})


class Drawer:
    """Draws traces for a document: `ranges` says what is drawn, and the numbers of its text are drawn more often."""

    def __init__(self, document, text, ranges):
        self.document, self.ranges = document, ranges
        numbers = numbers_of(text)
        self.likely = {it.name: likely_values(it.values, numbers) for it in ranges if it.values}

    def columns(self, seed, number):
        """Returns the columns of the trace of a number."""
        words = Words(seed, number)
        drawn = {it.name: self.column(it, words) for it in self.ranges}
        names = [*(it.name for it in self.document.inputs), *self.document.events]
        return [drawn[name] if name in drawn else self.own_column(name) for name in names]

    def own_column(self, name):
        """Returns a column as the document's own trace has it."""
        cells = tuple((time, int(text)) for time, text in self.document.cells_under(name))
        return Column(name, cells)

    def column(self, it, words):
        """Draws a column. An input has a sample at 0, so that it is in its range at all times."""
        every, until = distances(it.every, self.document.until), self.document.until
        time = words.of(Span(0, every.greatest)) if it.values is None else 0
        cells = []
        while time < until and len(cells) <= MOST_ROWS:
            cells.append((time, 1 if it.values is None else self.value(it, words)))
            time += words.of(every)
        return Column(it.name, tuple(cells))

    def value(self, it, words):
        """Draws a value of an input: each second time one that is likely to matter."""
        return words.of(it.values) if words.word() % 2 else words.one_of(self.likely[it.name])


def likely_values(values, numbers):
    """Returns the values of a span that are likely to matter: its ends, 0, and numbers of the document."""
    found = {values.least, values.greatest, *(it for it in (0, *numbers) if values.has(it))}
    return sorted(found)


def is_allowed(column, it, document):
    """Whether a column is one that may be drawn in a range until the end of a document."""
    times = [time for time, _ in column.cells]
    gaps = [later - time for time, later in zip(times, times[1:])]
    if it.values is not None:
        first = next(own.first for own in document.inputs if own.name == it.name)
        is_in_range = all(it.values.has(value) for _, value in column.cells)
        is_begun = times[:1] == [0] or it.values.has(first) and it.every is None
        return is_in_range and is_begun and (it.every is None or are_allowed(gaps, times, it.every, document.until))
    begin = times[0] if times else document.until - 1
    return begin <= it.every.greatest and are_allowed(gaps, times, it.every, document.until)


def are_allowed(gaps, times, every, until):
    """Whether distances are within their limits, and the last one isn't too long ago at the end."""
    is_to_the_end = not times or until - 1 - times[-1] <= every.greatest
    return is_to_the_end and all(every.has(gap) for gap in gaps)


def rows_of(columns) -> Dict[int, Dict[str, int]]:
    """Returns the cells of columns by their times and names."""
    rows = {}
    for column in columns:
        for time, value in column.cells:
            rows.setdefault(time, {})[column.name] = value
    return rows


def trace_lines(columns):
    """Returns the lines of a trace of columns."""
    names = [it.name for it in columns]
    rows = sorted(rows_of(columns).items())
    return [",".join(["time", *names]),
            *(",".join([str(time), *(str(cells.get(name, "")) for name in names)]) for time, cells in rows)]
