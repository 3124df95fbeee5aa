"""Response times as a table for readers, as comma-separated values, and as JSON."""

import json
from dataclasses import astuple, fields
from fractions import Fraction

from pictures.service import Command
from responses.bounds import BEYOND, BY_PROGRAM, BY_TOOL, ONE_PROCESSOR
from responses.measure import Figures
from responses.numbers import decimal
from waveforms.tables import table_text

COLUMNS = tuple(it.name for it in fields(Figures)) + ("load", "bound", "under_bound")
OF_PROCESSORS = ("cpu", "blocked")  # columns of a simulation on several processors alone
NOTHING = "-"


def columns_of(report):
    """Returns the columns of a table."""
    return [it for it in COLUMNS if report.command is Command.CPUS or it not in OF_PROCESSORS]


def rows_of(report):
    """Yields the values of each task's row, in the order of the columns."""
    columns = columns_of(report)
    for values in all_rows(report):
        yield [value for name, value in zip(COLUMNS, values) if name in columns]


def all_rows(report):
    """Yields the values of each task for all columns."""
    for figures, demand, bound in zip(report.figures, report.demands, report.bounds.of_tasks):
        is_number = bound not in (None, BEYOND)
        under = bound - figures.greatest if is_number and figures.greatest is not None else None
        yield (*astuple(figures), demand.load if demand else None, bound, under)


def cell_of(value, nothing):
    """Returns a value as the text of a cell."""
    if value is None:
        return nothing
    return decimal(value) if isinstance(value, Fraction) else str(value)


def csv_text(report):
    """Returns the rows below a header as comma-separated values; a cell without a value is empty."""
    return table_text([columns_of(report), *([cell_of(value, "") for value in row] for row in rows_of(report))])


def aligned(rows):
    """Yields rows of cells as lines, the first column to the left and the others to the right."""
    widths = [max(map(len, column)) for column in zip(*rows)]
    for first, *others in rows:
        cells = [first.ljust(widths[0]), *(cell.rjust(width) for cell, width in zip(others, widths[1:]))]
        yield "  ".join(cells)


def plain_text(report):
    """Returns the table, and below it the load, who says the bounds, and the chain."""
    header = [name.replace("_", " ") for name in columns_of(report)]
    rows = [header, *([cell_of(value, NOTHING) for value in row] for row in rows_of(report))]
    lines = [*aligned(rows), "", load_line(report), bounds_line(report), *chain_lines(report)]
    return "\n".join(lines) + "\n"


def total_load(report):
    """Returns the sum of the loads of all tasks that have one."""
    return sum((demand.load for demand in report.demands if demand), Fraction(0))


def loads_of(report):
    """Returns the load of each processor that has a task."""
    found = {cpu: Fraction(0) for cpu in sorted({it.cpu for it in report.figures})}
    for it, demand in zip(report.figures, report.demands):
        found[it.cpu] += demand.load if demand else 0
    return found


def load_line(report):
    """Returns the line of the load, or of those of the processors, with the tasks that it leaves out."""
    left_out = [it.task for it, demand in zip(report.figures, report.demands) if demand is None]
    by_processor = ", ".join(f"{decimal(load)} on processor {cpu}" for cpu, load in loads_of(report).items())
    load = by_processor if report.command is Command.CPUS else decimal(total_load(report))
    return f"load: {load}" + (f", without {', '.join(left_out)}" if left_out else "")


def bounds_line(report):
    """Returns the line that says whose the bounds are."""
    by, reason = report.bounds.by, report.bounds.reason
    if by == BY_PROGRAM:
        return f"bounds: by `{BY_PROGRAM}`"
    if by == BY_TOOL:
        distances = ", ".join(f"each two `{it.event}` at least {it.distance} apart" for it in report.assumed)
        parts = [f"bounds: by {BY_TOOL} itself, not proved", *(["on several processors"] if reason == ONE_PROCESSOR else [])]
        return ", ".join([*parts, *([f"with {distances}"] if distances else [])])
    return f"bounds: none ({reason})"


def chain_lines(report):
    """Yields the lines of the age and the reaction time of the chain that was asked for."""
    for name, span in report.chain:
        yield f"{name}: {span.line(report.document) if span else NOTHING}"


def json_value(value):
    """Returns a value as JSON has it."""
    return float(decimal(value)) if isinstance(value, Fraction) else value


def json_text(report, verdicts):
    """Returns all that is known as JSON."""
    bounds = report.bounds
    found = {
        "tasks": [dict(zip(columns_of(report), map(json_value, row))) for row in rows_of(report)],
        "load": json_value(total_load(report)),
        "bounds": {"by": bounds.by, "is_proved": bounds.by == BY_PROGRAM, "reason": bounds.reason},
        "chain": {name: span and span.as_json(report.document) for name, span in report.chain},
        "verdicts": verdicts,
    }
    if report.command is Command.CPUS:
        found["loads"] = {str(cpu): json_value(load) for cpu, load in loads_of(report).items()}
    return json.dumps(found, indent=2) + "\n"
