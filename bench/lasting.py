#!/usr/bin/env python3
"""Runs diagrams in threads again and again for an hour, by `run` and by the C that tools/emit_c writes, beside busy loops.

  bench/lasting.py [--program PROGRAM] [--seconds N] [--load N] [--at-once N] [--limit SECONDS] [--keep FOLDER] [DOCUMENT ..]

In each round come the documents named (the examples with threads worth the name, if none is), one of 32 tasks, and one that
`gen` draws from the round's number. Each is given to `run`, to `run --turns N`, to its C compiled by cc, and to that with
a seed; each answer is compared with that of `mean`. A call that hasn't ended after so many seconds (1,200) hangs: it is
killed. Each fault is told as it comes, and its document and answer are kept in the folder. The exit status is 0 only if there
is none.
"""

import sys
import tempfile
import time
from collections import Counter
from concurrent.futures import ThreadPoolExecutor
from dataclasses import dataclass
from pathlib import Path

TOP = Path(__file__).resolve().parent.parent
sys.path.insert(0, str(TOP / ".ci"))
sys.dont_write_bytecode = True

from compiled import Toolchain, trace_of  # noqa: E402
from documents import many_tasks  # noqa: E402
from endure import load  # noqa: E402
from running import parser_of, run  # noqa: E402

OCCURRENCES = 9_600  # of the document of 32 tasks
MOST_SIZE = 32
FIRST_SEED = 5_000
HANGS = -9


@dataclass(frozen=True)
class Call:
    """A command that a document is given to; `kind` is what it is counted under."""

    kind: str
    command: tuple


@dataclass(frozen=True)
class Fault:
    """A call, its document with the name, and its status and output."""

    call: Call
    name: str
    document: bytes
    status: int
    stdout: bytes

    def __str__(self):
        end = "hung" if self.status == HANGS else f"ended with {self.status}"
        return f"{self.name}: {' '.join(map(str, self.call.command))}: {end}, {len(self.stdout)} bytes"


def documents_of(options, number):
    """Yields the names and documents of a round."""
    for file in options.documents or sorted((TOP / "examples").glob("*.dbp")):
        yield file.stem, file.read_bytes()
    yield f"32 tasks, {OCCURRENCES}", many_tasks(OCCURRENCES)
    words = ["gen", str(FIRST_SEED + number), str(1 + number % MOST_SIZE)]
    yield " ".join(words), run([options.program, *words], b"").stdout


def calls_of(program, number, compiled):
    """Returns the calls of a document in a round."""
    return [
        Call("run", (program, "run")),
        Call("run --turns", (program, "run", "--turns", str(number))),
        Call("trace", (compiled,)),
        Call("trace --seed", (compiled, "--seed", str(number))),
    ]


def fault_of(call, name, document, wanted, limit):
    """Makes a call; returns its fault, or nothing."""
    ran = run([*map(str, call.command)], document, limit)
    is_right = (ran.status, ran.stdout) == (0, wanted)
    return None if is_right else Fault(call, name, document, ran.status, ran.stdout)


def round_of(options, number, toolchain):
    """Yields each call of a round with its fault, if it has one."""
    for name, document in documents_of(options, number):
        meant = run([options.program, "mean"], document)
        if meant.status != 0:
            continue
        with tempfile.TemporaryDirectory() as folder:
            compiled = trace_of(options.program, toolchain, document, folder)
            for call in calls_of(options.program, number, compiled):
                yield call, fault_of(call, name, document, meant.stdout, options.limit)


def keep(folder, fault, number):
    """Writes a fault's document and output into the folder."""
    folder.mkdir(parents=True, exist_ok=True)
    (folder / f"{number}.dbp").write_bytes(fault.document)
    (folder / f"{number}.found").write_bytes(fault.stdout)
    (folder / f"{number}.call").write_text(f"{fault}\n")


def rounds_until(stop, options, first):
    """Makes each so many-th round until the time is over, and returns how many calls of each kind, and how many faults."""
    calls, faults, number = Counter(), 0, first
    with tempfile.TemporaryDirectory() as room:
        toolchain = Toolchain(room)
        while time.monotonic() < stop:
            for call, fault in round_of(options, number, toolchain):
                calls[call.kind] += 1
                if fault:
                    faults += 1
                    print(f"round {number}: {fault}", flush=True)
                    keep(options.keep, fault, f"{number}-{faults}")
            number += options.at_once
    return calls, faults, number


def read_options():
    parser = parser_of(__doc__)
    parser.add_argument("documents", nargs="*", type=Path)
    parser.add_argument("--seconds", type=float, default=3600, help="how long (3600)")
    parser.add_argument("--load", type=int, default=4, help="processes that compute beside the runs (4)")
    parser.add_argument("--at-once", type=int, default=1, help="rounds side by side (1)")
    parser.add_argument("--limit", type=float, default=1200, help="the seconds that a call may take (1200)")
    parser.add_argument("--keep", type=Path, default=Path("faults"), help="the folder of what is wrong (faults)")
    return parser.parse_args()


def main():
    options = read_options()
    start = time.monotonic()
    with load(options.load), ThreadPoolExecutor(options.at_once) as pool:
        ends = [*pool.map(lambda it: rounds_until(start + options.seconds, options, it), range(options.at_once))]
    calls, faults = sum((it[0] for it in ends), Counter()), sum(it[1] for it in ends)
    print(f"{time.monotonic() - start:.0f} seconds, {', '.join(f'{kind}: {count}' for kind, count in sorted(calls.items()))}")
    print(f"{sum(calls.values())} calls, {faults} faults")
    return 1 if faults or not calls else 0


if __name__ == "__main__":
    sys.exit(main())
