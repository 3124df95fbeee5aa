#!/usr/bin/env python3
"""Compares the evaluator of `tools/test` with the program on documents that are drawn, and gives the tool changed files.

  bench/testing.py [--program PROGRAM] [--documents N] [--first N] [--mutants N]

Each document is one of `dbp gen` with drawn lets and outs; each let is an out, too. Prints the seeds of those on which
`mean` and the evaluator differ. Then the document of examples/cruise_control and what stands beside it are changed, N times
in all: the tool must end with a status that docs/TOOLS.md names, and raise nothing. Prints the counts last; the exit status
is 1 if something is wrong.
"""

import random
import sys
import tempfile
from pathlib import Path

TOP = Path(__file__).resolve().parent.parent
sys.path[:0] = [str(TOP / "tools"), str(TOP / ".ci")]
sys.dont_write_bytecode = True

from canonical import read_document  # noqa: E402
from checking.reading import read_document as read_places  # noqa: E402
from drawn_documents import drawn_document  # noqa: E402
from mutants import fault_of_call, mutant_of  # noqa: E402
from program import run_program  # noqa: E402
from running import parser_of  # noqa: E402
from testing import command  # noqa: E402
from testing.meaning import Meaning  # noqa: E402


EXAMPLE = TOP / "examples" / "cruise_control"
CHANGED = (".dbp", ".props", ".props", ".expect")
WORDS = ("--traces", "2", "--coverage", "--tap")


def is_same(program, seed):
    """Whether the program accepts the document of a seed, and `mean` prints what the evaluator computes; and its lines."""
    text = drawn_document(program, seed)
    printed, form = (run_program(program, [command], text) for command in ("mean", "form"))
    if printed.status or form.status:
        return False, 0
    document = read_document(form.stdout)
    lines = [it.line for it in Meaning(read_places(text)[0], document).instances(document)]
    return lines == printed.stdout.decode().splitlines(), len(lines)


def fault_of_mutant(program, draw, room):
    """Changes one of the files of the example, and returns what is wrong with the end of the tool, or nothing."""
    changed = draw.choice(CHANGED)
    for ending in set(CHANGED):
        text = (EXAMPLE / f"{EXAMPLE.name}{ending}").read_bytes()
        (room / f"a{ending}").write_bytes(mutant_of(draw, text) if ending == changed else text)
    words = ["--program", program, "--keep", str(room / "kept"), *WORDS, str(room / "a.dbp")]
    fault, _ = fault_of_call(command.main, words)
    return fault and f"{fault}: {(room / f'a{changed}').read_bytes()!r}"


def faults_of_mutants(program, count):
    """Returns what is wrong with the ends of the tool on changed files."""
    draw = random.Random(count)
    with tempfile.TemporaryDirectory() as place:
        (Path(place) / "kept").mkdir()
        return [fault for _ in range(count) if (fault := fault_of_mutant(program, draw, Path(place)))]


def main():
    parser = parser_of(__doc__)
    parser.add_argument("--documents", type=int, default=1000, metavar="N", help="how many are drawn (1000)")
    parser.add_argument("--first", type=int, default=1, metavar="N", help="the first seed (1)")
    parser.add_argument("--mutants", type=int, default=100, metavar="N", help="how many changed files there are (100)")
    options = parser.parse_args()
    seeds = range(options.first, options.first + options.documents)
    found = {seed: is_same(options.program, seed) for seed in seeds}
    differing = [seed for seed, (same, _) in found.items() if not same]
    for seed in differing:
        print(f"seed {seed}: they differ")
    faults = faults_of_mutants(options.program, options.mutants)
    for fault in faults:
        print(fault)
    lines = sum(count for _, count in found.values())
    drawn = f"{len(found)} documents, {lines} lines, {len(differing)} differ"
    print(f"{drawn}; {options.mutants} changed files, {len(faults)} faults")
    return 1 if differing or faults else 0


if __name__ == "__main__":
    sys.exit(main())
