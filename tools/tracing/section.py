"""The rows of a trace section, made of the rows of a log.

Values stay until the next one, so a value is written only where it changes. Of several values of an input in one tick the
last one counts; an event occurs in a tick if a row of it says so.
"""

from dataclasses import dataclass, field
from decimal import Decimal
from typing import Dict, List, Tuple

from checking.language import MOST_ROWS
from checking.text import times
from tracing.columns import TIME
from tracing.log import quoted
from tracing.numbers import number_of, scaled, tick_of, whole_of
from tracing.told import Kind

OCCURS = "1"


@dataclass(frozen=True)
class Clock:
    """How times become ticks: the time of tick 0, the length of a tick, and the tick at which the document ends."""

    start: Decimal
    length: Decimal
    until: int


@dataclass
class Pending:
    """What the rows of one tick have given so far, from a line of the log on: values of inputs, and the events that occur,
    each with its line."""

    tick: int
    line: int
    values: Dict[str, Tuple[int, int]] = field(default_factory=dict)
    events: Dict[str, int] = field(default_factory=dict)


@dataclass(frozen=True)
class Section:
    """A trace section: the names of its columns after the time, and its rows of cells."""

    names: List[str]
    rows: List[List[str]]

    def lines(self):
        """Returns the lines of the section, without their ends."""
        return ["trace", ",".join([TIME, *self.names]), *map(",".join, self.rows)]


class Maker:
    """Makes the rows of a section, one row of the log after another, and tells what isn't taken as it stands."""

    def __init__(self, log, columns, document, factors, clock, told):
        self.log, self.columns, self.factors, self.clock, self.told = log, columns, factors, clock, told
        self.has_commas = log.separator != ","
        self.values = {it.name: it.first for it in document.inputs}
        self.pending = Pending(0, 1)
        self.last_time = None
        self.last_line = 0
        self.rows = []

    def section(self):
        """Returns the section of all rows of the log."""
        for row in self.log.rows:
            self.take(row)
        self.finish_tick()
        return Section(self.columns.names, self.rows)

    def take(self, row):
        """Takes a row of the log; one with other cells than the header, or without a tick, is dropped."""
        cells = row.cells[: self.columns.count]
        if len(cells) < self.columns.count or any(row.cells[len(cells) :]):
            text = f"it has {times(len(row.cells), 'cell')}, and the header {self.columns.count}: it is dropped"
            self.told.add(row.line, "row", Kind.OTHER_CELLS, text)
            return
        tick = self.tick_of_row(row.line, cells[self.columns.time])
        if tick is None:
            return
        if tick > self.pending.tick:
            self.finish_tick()
            self.pending = Pending(tick, row.line)
        for name, place in self.columns.inputs.items():
            self.take_value(row.line, name, cells[place])
        for name, place in self.columns.events.items():
            self.take_occurrence(row.line, name, cells[place])

    def tick_of_row(self, line, cell):
        """Returns the tick of a row, if it is one of the document. The times of a log may not fall."""
        time = number_of(cell, self.has_commas)
        if time is None or not time.is_finite():
            what = f"{quoted(cell)} is no time" if cell else "no time stands here"
            self.told.add(line, TIME, Kind.NO_TIME, f"{what}: the row is dropped")
            return None
        if self.last_time is not None and time < self.last_time:
            raise self.log.fault(line, f"the time {quoted(cell)} comes before that of line {self.last_line}")
        self.last_time, self.last_line = time, line
        tick = tick_of(time, self.clock.start, self.clock.length, self.clock.until)
        if tick.number < 0:
            self.told.add(line, TIME, Kind.BEFORE, f"{quoted(cell)} is before tick 0: the row is dropped")
            return None
        if tick.number >= self.clock.until:
            text = f"{quoted(cell)} isn't before the end, `until {self.clock.until}`: the row is dropped"
            self.told.add(line, TIME, Kind.BEYOND, text)
            return None
        if tick.is_rounded:
            self.told.add(line, TIME, Kind.ROUNDED, f"{quoted(cell)} is rounded to tick {tick.number}")
        return tick.number

    def number_in(self, line, name, cell):
        """Returns the number in a cell that isn't empty, or nothing if it has none."""
        number = number_of(cell, self.has_commas) if cell else None
        if cell and number is None:
            self.told.add(line, name, Kind.NO_NUMBER, f"{quoted(cell)} is no number: it gives no value")
        return number

    def take_value(self, line, name, cell):
        """Takes what stands under an input."""
        number = self.number_in(line, name, cell)
        if number is None:
            return
        factor = self.factors.get(name)
        whole = whole_of(number if factor is None else scaled(number, factor))
        shown = quoted(cell) if factor is None else f"{quoted(cell)} times {factor}"
        if whole.is_rounded:
            self.told.add(line, name, Kind.ROUNDED, f"{shown} is rounded to {whole.value}")
        if whole.is_saturated:
            self.told.add(line, name, Kind.SATURATED, f"{shown} is outside of 64 bits: it becomes {whole.value}")
        value, before = self.pending.values.get(name, (whole.value, line))
        if value != whole.value:
            text = f"{value} of tick {self.pending.tick} is dropped for {whole.value} of line {line}"
            self.told.add(before, name, Kind.OUTDONE, text)
        self.pending.values[name] = whole.value, line

    def take_occurrence(self, line, name, cell):
        """Takes what stands under an event, which occurs if it is a number that isn't 0."""
        number = self.number_in(line, name, cell)
        if not number:
            return
        if number != 1:
            self.told.add(line, name, Kind.TAKEN_AS_ONE, f"{quoted(cell)} isn't 0: the event occurs")
        if name in self.pending.events:
            text = f"the occurrence of line {self.pending.events[name]} is dropped for this one of the same tick"
            self.told.add(line, name, Kind.OUTDONE, f"{text}, {self.pending.tick}")
        self.pending.events[name] = line

    def finish_tick(self):
        """Writes the row of a tick, if it changes something."""
        values = {name: value for name, (value, _) in self.pending.values.items() if value != self.values[name]}
        if not values and not self.pending.events:
            return
        if len(self.rows) == MOST_ROWS:
            text = f"with this row more than {MOST_ROWS:,} change something: take a longer tick or a smaller `until`"
            raise self.log.fault(self.pending.line, text)
        self.values.update(values)
        cells = {**values, **{name: OCCURS for name in self.pending.events}}
        self.rows.append([str(self.pending.tick), *(str(cells.get(name, "")) for name in self.columns.names)])
