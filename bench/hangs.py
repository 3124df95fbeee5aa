#!/usr/bin/env python3
"""Runs `run` many times on four small documents, and looks for runs that hang or print other bytes than `mean`.

  bench/hangs.py [--program PROGRAM] [--only TEXT] [--share SHARE] [--limit SECONDS] [--vary]

Each document is run beside nothing, beside processes that compute without a pause, on few processors, and by a user who
may make few threads or none (which needs `prlimit`, and `setpriv` for root). A run that hasn't ended after so many
seconds (60) hangs: it is killed. SHARE is the part of the runs that is made (1). With --vary each run of a document has a time of
its own until which it runs; from it a program of `bench/planted.py drawn_pauses` draws. Prints a table; the exit status is
0 only if each run gave the bytes of `mean`.
"""

import os
import re
import shutil
import sys
import tempfile
from contextlib import contextmanager
from dataclasses import dataclass
from pathlib import Path
from statistics import median

from documents import many_tasks, one_task, preempted
from endure import load
from running import parser_of, run

NOBODY = 65534  # a user without processes


@dataclass(frozen=True)
class Condition:
    """How often each document is run, beside how many processes, on how many processors, and with how many threads."""

    name: str
    runs: int
    load: int = 0
    processors: int = 0  # 0: all
    threads: int = 0  # at most, with the first one; 0: as many as there are parties


CONDITIONS = (
    Condition("alone", 2000),
    Condition("beside 4", 2000, load=4),
    Condition("beside 16", 500, load=16),
    Condition("on one processor", 500, processors=1),
    Condition("on two processors", 500, processors=2),
    *(Condition(f"threads: {count}", 10, threads=count) for count in (1, 2, 3, 5, 9, 17, 33)),
    Condition("threads: 1, beside 4", 5, load=4, threads=1),
)


def documents_of(program):
    """Returns the documents with their names: of 2, 3, 9 and 33 parties, and of one round and several."""
    return {
        "a task": one_task(1500),
        "preempted": preempted(300),
        "gen 7 8": run([program, "gen", "7", "8"], b"").stdout,
        "32 tasks": many_tasks(96),
    }


@contextmanager
def processors(count):
    """On so many processors, if it isn't 0."""
    all_of_them = os.sched_getaffinity(0)
    if count:
        os.sched_setaffinity(0, sorted(all_of_them)[:count])
    try:
        yield
    finally:
        os.sched_setaffinity(0, all_of_them)


def limited(program, threads):
    """Returns the command that runs the program with so many threads at most, if it isn't 0."""
    if not threads:
        return [program]
    if os.geteuid():
        # what runs already counts: so many are too few for another thread
        return ["prlimit", "--nproc=0", program]
    user = ["setpriv", f"--reuid={NOBODY}", f"--regid={NOBODY}", "--clear-groups"]
    return ["prlimit", f"--nproc={threads}", *user, program]


@dataclass(frozen=True)
class Found:
    """The runs of a document in a condition: their seconds, how many hung, and how many ended otherwise than is wanted."""

    seconds: list
    hung: int
    wrong: int

    def cells(self):
        times = (min(self.seconds), median(self.seconds), max(self.seconds))
        return [len(self.seconds), self.hung, self.wrong, *(f"{it:.4f}" for it in times)]


def found_in(command, document, wanted, runs, limit):
    """Runs the command so often."""
    return found_of([(run(command, document, limit), wanted) for _ in range(runs)])


def found_of(ends):
    """Counts runs, each with the status and the bytes that are wanted of it."""
    hung = sum(it.status == -9 for it, _ in ends)
    wrong = sum((it.status, it.stdout) != wanted and it.status != -9 for it, wanted in ends)
    return Found([it.seconds for it, _ in ends], hung, wrong)


def varied_runs(program, command, document, runs, limit):
    """Yields runs, each until a later time than the one before, and what is wanted of it."""
    before, until, after = re.split(rb"^until ([0-9]+)$", document, maxsplit=1, flags=re.M)
    for more in range(runs):
        later = b"%suntil %d%s" % (before, int(until) + more, after)
        meant = run([program, "mean"], later)
        yield run(command, later, limit), (0, meant.stdout)


def line_of(names, cells):
    return "| " + " | ".join([f"{it:<20}" for it in names] + [f"{it:>8}" for it in cells]) + " |"


def read_options():
    parser = parser_of(__doc__)
    parser.add_argument("--only", default="", help="the conditions and documents that have this text")
    parser.add_argument("--share", type=float, default=1, help="the part of the runs that is made (1)")
    parser.add_argument("--limit", type=float, default=60, help="the seconds that a run may take (60)")
    parser.add_argument("--vary", action="store_true", help="each run of a document ends at another time")
    return parser.parse_args()


def all_found(program, options):
    """Yields the names of each condition and document, and what was found."""
    for condition in CONDITIONS:
        command = [*limited(program, condition.threads), "run"]
        runs = max(1, round(condition.runs * options.share))
        for name, document in documents_of(program).items():
            if options.only not in f"{condition.name}: {name}":
                continue
            meant = run([program, "mean"], document)
            with load(condition.load), processors(condition.processors):
                if options.vary:
                    found = found_of([*varied_runs(program, command, document, runs, options.limit)])
                else:
                    found = found_in(command, document, (0, meant.stdout), runs, options.limit)
            yield (condition.name, name), found


def main():
    options = read_options()
    print(line_of(("condition", "document"), ("runs", "hung", "wrong", "min s", "median s", "max s")))
    print(line_of((":--", ":--"), ["--:"] * 6), flush=True)
    runs = faults = 0
    with tempfile.TemporaryDirectory() as folder:
        # a copy that any user may run
        Path(folder).chmod(0o755)
        program = shutil.copy(options.program, folder)
        for names, found in all_found(program, options):
            print(line_of(names, found.cells()), flush=True)
            runs += len(found.seconds)
            faults += found.hung + found.wrong
    print(f"{runs} runs: {'all' if not faults else 'NOT all'} gave the bytes of mean")
    return 1 if faults or not runs else 0


if __name__ == "__main__":
    sys.exit(main())
