#!/usr/bin/env python3
"""Measures every command of the program on documents at its limits, and prints a table.

  bench/bench.py [--program PROGRAM] [--against OTHER] [--only TEXT] [--runs N] [--load N] [--cores LIST]
                 [--instructions] [--profiles FOLDER]

Times and processor times are medians over the runs; with another program beside it, the runs of the two take turns,
the outputs are compared, and each measure has its ratio. Instructions are counted in a run of their own, by valgrind,
50 times as slow: they don't depend on other load, except those of `run`, whose tasks wait for each other.
"""

import os
import sys
from dataclasses import dataclass
from pathlib import Path
from statistics import median
from typing import Optional

import documents
from endure import load
from running import counted_run, parser_of, peak_megabytes, program, run
from scenario_texts import with_the_most_slots

MEASURES = ("Minstr", "wall s", "cpu s", "peak MB")  # Minstr: millions of instructions


@dataclass(frozen=True)
class Row:
    """A row of the table: a command, its document with the document's name, and the status that is wanted, or none."""

    command: str
    name: str
    document: bytes
    status: Optional[int] = 0

    def title(self):
        return f"{self.command}: {self.name}" if self.name else self.command


def rows_of_tables():
    """Yields the rows of the commands that write a table."""
    for n in (12_500, 25_000, 50_000, 100_000):
        yield Row("mean", f"a task, {n} occurrences", documents.one_task(n))
    for n in (12_000, 24_000, 48_000, 96_000):
        yield Row("mean", f"32 tasks of 63 nodes, {n}", documents.many_tasks(n))
    for n in (25_000, 50_000, 100_000):
        yield Row("mean", f"{n} lines of 170 bytes", documents.wide_rows(n))
    yield Row("mean", "128 reads", documents.many_reads(100_000))
    yield Row("mean", "0.9 MB of expressions", documents.expressions())
    for n in (12_500, 25_000, 50_000):
        yield Row("mean", f"{n} rows of 12 columns", documents.trace(n, 6, 6))
    yield Row("mean", "25000 rows of 32 columns", documents.trace(25_000, 16, 16))
    yield Row("mean", "32 tasks on and off, too often", documents.conditions(32, 20_000), status=1)
    yield Row("mean", "2 tasks on and off, 100000", documents.conditions(2, 2))
    for command in ("sim", "sim --record"):
        for n in (25_000, 50_000, 99_999):
            yield Row(command, f"{n} preemptions", documents.preempted(n))
        yield Row(command, "preemptions in turn", documents.preempted_in_turn(103_190))
        for n in (24_000, 48_000, 96_000):
            yield Row(command, f"32 tasks of 63 nodes, {n}", documents.many_tasks(n))
        yield Row(command, "128 reads", documents.many_reads(100_000))
        yield Row(command, "32 tasks by deadlines", documents.by_deadlines(99_000))
    for command in ("cpus", "cpus --record"):
        for n in (24_000, 48_000, 96_000):
            yield Row(command, f"32 tasks on 8 processors, {n}", documents.many_tasks(n, 8))
            yield Row(command, f"31 tasks, each blocked, {n}", documents.blocked(n))
        yield Row(command, "32 tasks of one processor, 96000", documents.many_tasks(96_000))
        yield Row(command, "32 tasks of a billion ticks", documents.long_costs())
    yield Row("sim", "32 tasks of 8 processors, 96000", documents.many_tasks(96_000, 8))
    for command in ("run --turns 1", "run"):
        yield Row(command, "a task, 100000 occurrences", documents.one_task(100_000))
        yield Row(command, "32 tasks of 63 nodes, 96000", documents.many_tasks(96_000))
        yield Row(command, "128 reads", documents.many_reads(100_000))


def rows_of_texts():
    """Yields the rows of the other commands."""
    for command in ("plan", "rta", "rank"):
        yield Row(command, "0.9 MB of expressions", documents.expressions())
    for command in ("form", "plan", "rank", "need t0"):
        yield Row(command, "0.9 MB of expressions on events", documents.expressions_on_events())
    yield Row("plan", "128 reads", documents.many_reads(100_000))
    yield Row("rta", "30 tasks below a full processor", documents.rates(documents.FULL_ABOVE))
    yield Row("rta", "27 tasks below one nearly full", documents.rates(documents.NEARLY_FULL_ABOVE))
    yield Row("rta", "9 tasks of several scales", documents.rates(documents.SEVERAL_SCALES))
    yield Row("need t0", "the most slots", with_the_most_slots().encode())
    yield Row("rank", "32 tasks by deadlines", documents.by_deadlines(99_000))
    yield Row("rank", "a cycle of 32 tasks", documents.cycle(32), status=1)
    yield Row("rank", "50000 rows of 12 columns", documents.trace(50_000, 6, 6))
    for command in ("form", "upgrade"):
        yield Row(command, "0.9 MB of expressions", documents.expressions())
        yield Row(command, "50000 rows of 12 columns", documents.trace(50_000, 6, 6))
        yield Row(command, "1,000,000 blank lines", documents.script_of(""))
        yield Row(command, "500,000 steps of a letter", documents.script_of("a"))
        yield Row(command, "a step of 500,000 names", documents.script_of("a " * 523_000))
        yield Row(command, "32 tasks on and off, too often", documents.conditions(32, 20_000))
    for command in ("replay", "replay --ranked"):
        for n in (4_000, 8_000, 16_000):
            yield Row(command, f"{9 * n} steps of a task", documents.instances(n))
        yield Row(command, "1 MB of steps of 32 tasks", documents.chain_script(32))
    for command in ("gen 7 32", "soak 7 8", "soak 7 32"):
        yield Row(command, "", b"")


def rows_of_runs(path):
    """Yields more rows of runs, one of a document that the program makes."""
    yield Row("run", "99999 preemptions", documents.preempted(99_999))
    yield Row("run", "gen 7 32", run([path, "gen", "7", "32"], b"").stdout)


class Trial:
    """A program on a row: its timed runs, and the run whose instructions are counted."""

    def __init__(self, path, row):
        self.command = [path, *row.command.split()]
        self.document = row.document
        self.timed = []
        self.counted = []
        self.million_instructions = None

    def time(self):
        self.timed.append(run(self.command, self.document))

    def count(self, profile):
        counted, self.million_instructions = counted_run(self.command, self.document, profile)
        self.counted.append(counted)

    def ends(self):
        return {(it.status, it.stdout) for it in self.timed + self.counted}

    def figures(self):
        """Returns what was measured, in the order of MEASURES."""
        seconds = median(it.seconds for it in self.timed) if self.timed else None
        processor_seconds = median(it.processor_seconds for it in self.timed) if self.timed else None
        return self.million_instructions, seconds, processor_seconds, peak_megabytes(self.command, self.document)


def trials_of(programs, row, options):
    """Returns the trials of the programs, whose runs take turns."""
    trials = [Trial(it, row) for it in programs]
    for number in range(options.runs):
        for trial in trials[:: -1 if number % 2 else 1]:
            trial.time()
    if options.instructions or options.profiles:
        for place, trial in enumerate(trials):
            trial.count(options.profiles and options.profiles / f"{row.title().replace(' ', '_')}.{place}")
    return trials


def are_alike(trials, row):
    """Whether all runs ended with the wanted status and the same output."""
    ends = set().union(*(it.ends() for it in trials))
    return len(ends) == 1 and all(row.status in (None, status) for status, _ in ends)


def cells_of(figures):
    """Returns the cells of a row: each measure of each program, and the ratio of two."""
    for measures in zip(*figures):
        yield from ("" if it is None else f"{it:.3f}" if it < 100 else f"{it:.1f}" for it in measures)
        if len(measures) == 2:
            yield "" if None in measures or not measures[1] else f"{measures[0] / measures[1]:.2f}"


def line_of(title, cells):
    return f"| {title:<42} |" + "".join(f" {it:>9} |" for it in cells)


def read_options(description):
    """Returns what is asked for, with the programs that are measured."""
    parser = parser_of(description)
    parser.add_argument("--against", type=program, help="another program, measured side by side")
    parser.add_argument("--only", default="", help="the rows that have this text")
    parser.add_argument("--runs", type=int, default=3, help="timed runs of each row (3)")
    parser.add_argument("--load", type=int, default=0, help="processes that compute beside the runs (0)")
    parser.add_argument("--cores", default="", help="the processors for all this, as 2,3 (all)")
    parser.add_argument("--instructions", action="store_true", help="count instructions")
    parser.add_argument("--profiles", type=Path, help="a folder for the files of callgrind")
    options = parser.parse_args()
    options.programs = [options.program] + ([options.against] if options.against else [])
    if options.cores:
        os.sched_setaffinity(0, {int(it) for it in options.cores.split(",")})
    return options


def measured(rows, options):
    """Prints the table of the rows, and yields each row with the figures of each program; last it prints which rows differ."""
    columns = [it for measure in MEASURES for it in [measure] + ["other", "ratio"] * (len(options.programs) - 1)]
    print(line_of("command and document", columns))
    print(line_of(":--", ["--:"] * len(columns)), flush=True)
    differing = []
    with load(options.load):
        for row in rows:
            if options.only in row.title():
                trials = trials_of(options.programs, row, options)
                differing += [] if are_alike(trials, row) else [row.title()]
                figures = [it.figures() for it in trials]
                print(line_of(row.title(), cells_of(figures)), flush=True)
                yield row, figures, are_alike(trials, row)
    for title in differing:
        print(f"not all runs ended with the wanted status and the same output: {title}")


def main():
    """Measures all rows, and returns the exit status."""
    options = read_options(__doc__)
    rows = [*rows_of_tables(), *rows_of_texts(), *rows_of_runs(options.program)]
    return 0 if all([is_right for _, _, is_right in measured(rows, options)]) else 1


if __name__ == "__main__":
    sys.exit(main())
