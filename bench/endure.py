#!/usr/bin/env python3
"""Runs the program many times on documents, and compares the bytes of each run with those of `mean`.

  bench/endure.py [--program PROGRAM] [--words WORDS] [--runs N] [--seeds COUNT] [--size SIZE] [--load N]
                  [--at-once N] [--cores LIST] [--occurrences N] [DOCUMENT ..]

Besides the documents named, those that `gen` draws from the seeds 0, 1, .. are run, and one of 32 tasks with so many
occurrences. The load is so many processes that compute without a pause. Prints a table; the exit status is 0 only if
each document had one output, that of `mean`.
"""

import os
import subprocess
import sys
from concurrent.futures import ThreadPoolExecutor
from contextlib import contextmanager
from pathlib import Path
from statistics import median

from documents import many_tasks
from running import parser_of, run


def documents_of(options):
    """Yields each document with its name."""
    for file in options.documents:
        yield file.stem, file.read_bytes()
    for seed in range(options.seeds):
        words = ["gen", str(seed), str(options.size)]
        yield " ".join(words), run([options.program, *words], b"").stdout
    if options.occurrences:
        yield f"32 tasks, {options.occurrences} occurrences", many_tasks(options.occurrences)


@contextmanager
def load(count):
    """So many processes that compute beside what is done meanwhile."""
    busy = [subprocess.Popen([sys.executable, "-c", "while True: pass"]) for _ in range(count)]
    try:
        yield
    finally:
        for process in busy:
            process.kill()
            process.wait()


def row_of(name, runs, wanted):
    """Returns the line of a document, and whether all its runs gave what is wanted."""
    outputs, statuses = {it.stdout for it in runs}, {it.status for it in runs}
    times = [it.seconds for it in runs]
    is_right = outputs == {wanted.stdout} and statuses == {wanted.status} == {0}
    cells = [len(runs), len(outputs), "/".join(map(str, sorted(statuses))), "yes" if is_right else "NO"]
    cells += [f"{it:.3f}" for it in (min(times), median(times), max(times))]
    return line_of(name, cells), is_right


def line_of(name, cells):
    return f"| {name:<36} |" + "".join(f" {it:>8} |" for it in cells)


def read_options():
    parser = parser_of(__doc__)
    parser.add_argument("documents", nargs="*", type=Path)
    parser.add_argument("--words", default="run", help="the command (run)")
    parser.add_argument("--runs", type=int, default=42, help="of each document (42)")
    parser.add_argument("--seeds", type=int, default=0, help="how many documents are drawn (0)")
    parser.add_argument("--size", type=int, default=8, help="the tasks of those (8)")
    parser.add_argument("--occurrences", type=int, default=0, help="of the document of 32 tasks (no such document)")
    parser.add_argument("--load", type=int, default=0, help="processes that compute beside the runs (0)")
    parser.add_argument("--at-once", type=int, default=1, help="runs side by side (1)")
    parser.add_argument("--cores", default="", help="the processors for all this, as 2,3 (all)")
    return parser.parse_args()


def main():
    options = read_options()
    if options.cores:
        os.sched_setaffinity(0, {int(it) for it in options.cores.split(",")})
    command = [options.program, *options.words.split()]
    print(line_of("document", ["runs", "outputs", "statuses", "as mean", "min s", "median s", "max s"]))
    print(line_of(":--", ["--:"] * 7), flush=True)
    rows = []
    with load(options.load), ThreadPoolExecutor(options.at_once) as pool:
        for name, document in documents_of(options):
            wanted = run([options.program, "mean"], document)
            runs = [*pool.map(run, [command] * options.runs, [document] * options.runs)]
            rows.append(row_of(name, runs, wanted))
            print(rows[-1][0], flush=True)
    all_right = all(is_right for _, is_right in rows)
    print(f"{len(rows) * options.runs} runs: {'all' if all_right else 'NOT all'} gave the bytes of mean")
    return 0 if all_right else 1


if __name__ == "__main__":
    sys.exit(main())
