"""`run` again and again: each run of the documents of bench/hangs.py ends, and prints the bytes of `mean`."""

import sys
from functools import partial
from pathlib import Path

TOP = Path(__file__).resolve().parents[2]
sys.path[:0] = [str(TOP / "bench"), str(TOP / ".ci")]

from awaited import SECONDS  # noqa: E402
from hangs import documents_of, found_in  # noqa: E402
from running import run  # noqa: E402

RUNS = 100


def fault_of(program, document):
    """Returns what is wrong with so many runs of the document, or nothing."""
    wanted = run([program, "mean"], document)
    found = found_in([program, "run"], document, (0, wanted.stdout), RUNS, SECONDS)
    if found.hung or found.wrong:
        return f"of {RUNS} runs {found.hung} hadn't ended after {SECONDS} seconds, and {found.wrong} gave other bytes"
    return None


def trials(program):
    for name, document in documents_of(program).items():
        yield f"run: {name}", partial(fault_of, program, document)
