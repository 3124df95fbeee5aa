#!/usr/bin/env python3
"""Runs the C of all examples in real time and on a Cortex-M3, and compares it with the program.

  bench/deploy.py [--program PROGRAM] [--loops N] [--ticks N] [--only TEXT] [--rights]

Each example that `mean` accepts and that has a task runs for 2000 ticks of a millisecond, as an ordinary user, beside four
busy loops: undisturbed, with signals to the releaser, with stops, and with threads that are held up as by a debugger. What is
compared is said in .ci/real_time.py. Then it runs in QEMU as .ci/on_target.py says. With --rights threads have real-time
priorities, if the system grants them. Prints a row for each example: its rows and overruns in each of the four runs, and on
the target the late releases and the interrupts of the timer that came into a task. The exit status is 0 only if nothing
differs and nothing was skipped.
"""

import shutil
import sys
from pathlib import Path

TOP = Path(__file__).resolve().parent.parent
sys.path.insert(0, str(TOP / ".ci"))
sys.dont_write_bytecode = True

import on_target  # noqa: E402
import real_time  # noqa: E402
from comparing import Wrong  # noqa: E402
from compiled import run_program  # noqa: E402
from running import parser_of  # noqa: E402

LONGEST_TRACE = 3_000  # ticks that are emulated


def documents(program, only):
    """Yields the names and the bytes of the examples that have a task with an occurrence."""
    for file in sorted((TOP / "examples").rglob("*.dbp")):
        name, document = str(file.relative_to(TOP)), file.read_bytes()
        ran = run_program(program, ["mean"], document)
        if only in name and ran.status == 0 and ran.stdout:
            yield name, document


def told_runs(options, document):
    """Yields what came of the four runs of a document in real time."""
    for disturb in real_time.DISTURBANCES:
        with real_time.new_folder() as place:
            it = real_time.built(options.program, document, place)
            started = real_time.start(it, options.ticks, 5, is_ordinary=not options.rights)
            disturb(it, started)
            found = real_time.finish(it, started)
            overruns = real_time.compare_run(options.program, it, found, options.ticks)
            yield f"{len(found.times)}, {overruns}"


def told_target(options, document):
    """Returns what came of a document on the target, or why it was left out."""
    if [it for it in on_target.NEEDED if not shutil.which(it)]:
        return "SKIPPED"
    last = run_program(options.program, ["mean"], document).stdout.splitlines()[-1]
    if int(last.split(b",")[0]) > LONGEST_TRACE:
        return "too long"
    return "{}, {}".format(*on_target.compare_target(options.program, document))


def row_of(options, name, document):
    """Returns the row of an example, and whether it is as wanted."""
    try:
        cells = [*told_runs(options, document), told_target(options, document)]
    except Wrong as fault:
        return f"| {name} | WRONG: {fault} |", False
    return f"| {name} | {' | '.join(cells)} |", "SKIPPED" not in cells


def main():
    """Makes all runs, and returns the exit status."""
    parser = parser_of(__doc__)
    parser.add_argument("--loops", type=int, default=4, help="busy loops beside (4)")
    parser.add_argument("--ticks", type=int, default=real_time.TICKS, help="ticks of each run (2000)")
    parser.add_argument("--only", default="", help="the examples whose names have this text")
    parser.add_argument("--rights", action="store_true", help="with real-time priorities")
    options = parser.parse_args()
    columns = [it.__name__ for it in real_time.DISTURBANCES]
    print(f"| Example | {' | '.join(columns)} | on a Cortex-M3 |\n|---|{'---|' * (1 + len(columns))}", flush=True)
    is_right = True
    with real_time.busy_loops(options.loops):
        for name, document in documents(options.program, options.only):
            row, is_so = row_of(options, name, document)
            is_right = is_right and is_so
            print(row, flush=True)
    return 0 if is_right else 1


if __name__ == "__main__":
    sys.exit(main())
