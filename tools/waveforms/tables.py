"""Waves, and the lines of the program, as tables of comma-separated values, each with a header."""

import csv
import io

from waveforms.signals import Kind, by_tick, task_signals

TICK_COLUMN = "tick"


def headed_lines(lines, tasks):
    """Returns the lines that the program prints, below a header with a column for each out of the task with the most."""
    most = max((len(task.outs) for task in tasks), default=0)
    columns = [TICK_COLUMN, "task", "instance", *(f"out{number}" for number in range(1, most + 1))]
    return ",".join(columns) + "\n" + lines.decode("ascii")


def rows_of_task(task, occurrences):
    """Yields the header and the rows of one task: a row for each of its instances."""
    yield [TICK_COLUMN, *(signal.full_name for signal in task_signals(task))]
    for occurrence in occurrences:
        if occurrence.task == task.name:
            yield [occurrence.tick, occurrence.instance, *occurrence.outs]


def wide_rows(waves):
    """Yields the header and a row for tick 0 and each later one at which something comes, with all values then."""
    yield [TICK_COLUMN, *(signal.full_name for signal in waves.signals)]
    values = [signal.first for signal in waves.signals]
    events = [index for index, signal in enumerate(waves.signals) if signal.kind is Kind.EVENT]
    if waves.until and not (waves.changes and waves.changes[0].tick == 0):
        yield [0, *values]
    for tick, changes in by_tick(waves.changes):
        for index in events:
            values[index] = 0
        for change in changes:
            values[change.signal] = change.value
        yield [tick, *values]


def write_rows(rows, sink):
    """Writes rows, each ended by a line feed."""
    csv.writer(sink, lineterminator="\n").writerows(rows)


def table_text(rows):
    """Returns rows as a text."""
    sink = io.StringIO()
    write_rows(rows, sink)
    return sink.getvalue()
