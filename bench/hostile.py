#!/usr/bin/env python3
"""Measures every command of the program on hostile documents, most of a mebibyte, and prints a table as bench/bench.py does.

  bench/hostile.py [--program PROGRAM] [--against OTHER] [--only TEXT] [--runs N] [--instructions] [--profiles FOLDER] ..

The documents fill the mebibyte by comments, by rows of the trace or by steps. Each is given to each command that reads a
document. Last the rows are told that are above the limits, of processor time and of memory: the command's text, which is
written, and the evaluation of expressions may take more. The exit status is 0 only if there are none, and both programs
end alike.
"""

import re
import sys

import documents
from bench import Row, measured, read_options
from drawn_texts import made
from refuse_memory import commands_of
from scenario_texts import with_the_most_slots

MOST_SECONDS, MOST_MEGABYTES = 0.2, 80
UNTIL = b"until 15625"  # 32 tasks of period 5 have 100,000 occurrences


def hostile_conditions():
    """Yields documents whose inputs alternate."""
    yield "32 tasks every 1 when x, alternating", documents.alternating(32, 4)
    yield "8 tasks every 1 when x, alternating", documents.alternating(8, 1)
    yield "32 tasks every 1 when x, too often", documents.alternating(32, 1, occurrences=2**30)
    yield "32 tasks every 999983 when x", documents.alternating(32, 1, 999_983, occurrences=2**30)
    yield "2 tasks when x, 50000 rows", documents.filled(documents.conditions(2, 2))
    yield "32 tasks when x, far too often", documents.filled(documents.conditions(32, 20_000))


def hostile_rates():
    """Yields documents whose response times take long to find."""
    for name, tasks in (("full above", documents.FULL_ABOVE), ("nearly full above", documents.NEARLY_FULL_ABOVE),
                        ("several scales", documents.SEVERAL_SCALES)):
        yield f"rates, {name}", documents.filled(documents.rates(tasks))


def hostile_readers():
    """Yields documents with many slots, and with many readers that are blocked."""
    slots = with_the_most_slots().encode()
    yield "15 readers, delays of 8, rows", documents.with_rows(slots.replace(b"until 0", b"until 50000"))
    yield "15 readers, delays of 8, blank lines", documents.filled(slots, b"")
    yield "31 blocked readers", documents.with_rows(documents.blocked(96_000))
    yield "8 readers, each blocked 16 times", documents.with_rows(documents.blocked_often(266_000))
    yield "32 tasks by deadlines", documents.with_rows(documents.by_deadlines(99_000))
    yield "128 reads", documents.filled(documents.many_reads(100_000))
    yield "8 readers of 16 reads, 100000", documents.filled(documents.mostly_reads(100_000))


def hostile_links():
    """Yields documents whose tasks are hard to rank: long chains and cycles in each order, and dense links."""
    for place, (name, form) in enumerate(made("drawn_ranks").large_forms()):
        ranked = re.sub(rb"(?m)^(task t([0-9]+) .*) cost", lambda it: b"%s prio %d cost" % (it[1], 32 - int(it[2])), form)
        text = re.sub(rb"(?m)^until [0-9]+$", UNTIL, ranked)
        yield f"{name}", documents.filled(text, b"# a comment") if place % 2 else documents.with_rows(text)


def hostile_texts():
    """Yields documents of long expressions, of many rows and of many steps."""
    yield "expressions on events", documents.filled(documents.expressions_on_events())
    yield "50000 rows of 12 columns", documents.filled(documents.trace(50_000, 6, 6))
    yield "500,000 steps of a letter", documents.script_of("a")
    yield "steps of 32 tasks", documents.filled(documents.chain_script(32))
    yield "a step of 500,000 names", documents.script_of("a " * 523_000)


def hostile_rows():
    """Yields each document with each command; which status is right depends on both."""
    for found in (hostile_conditions, hostile_rates, hostile_readers, hostile_links, hostile_texts):
        for name, document in found():
            for words in commands_of(document):
                yield Row(" ".join(words), name, document, status=None)


def main():
    """Measures all rows, tells those above the limits, and returns the exit status."""
    above, all_right = [], True
    for row, figures, is_right in measured(hostile_rows(), read_options(__doc__)):
        _, _, seconds, megabytes = figures[0]
        all_right &= is_right
        if (seconds or 0) > MOST_SECONDS or megabytes > MOST_MEGABYTES:
            above.append(f"ABOVE THE LIMITS: {row.title()}: {seconds:.3f} s, {megabytes:.1f} MB")
    print("\n".join(above or [f"no row is above {MOST_SECONDS} s of processor time or {MOST_MEGABYTES} MB"]))
    return 1 if above or not all_right else 0


if __name__ == "__main__":
    sys.exit(main())
