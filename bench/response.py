#!/usr/bin/env python3
"""Compares the figures of tools/response with those of a plain walk through the ticks, for drawn documents and offsets.

  bench/response.py [--program PROGRAM] [--documents N] [--offsets N] [--jobs N]

500 documents are drawn, each with 20 offsets, and tried as .ci/tried/response.py does with fewer. Prints each fault, the
counts, and last the processor time of the tool on documents with 100,000 occurrences; the exit status is 0 only if there
is no fault.
"""

import os
import sys
from concurrent.futures import ProcessPoolExecutor
from functools import partial
from pathlib import Path

TOP = Path(__file__).resolve().parent.parent
sys.path.insert(0, str(TOP / ".ci" / "tried"))
sys.dont_write_bytecode = True

from response import LARGE, large_call, seed_fault  # noqa: E402
from running import parser_of  # noqa: E402


def numbered_fault(program, offsets, seed):
    """Returns the fault of a document with its number, or nothing."""
    fault = seed_fault(program, seed, offsets)
    return f"document {seed}: {fault}" if fault else None


def main():
    """Tries all documents, and returns the exit status."""
    parser = parser_of(__doc__)
    parser.add_argument("--documents", type=int, default=500, help="that are drawn (500)")
    parser.add_argument("--offsets", type=int, default=20, help="of each document (20)")
    parser.add_argument("--jobs", type=int, default=os.cpu_count(), help="documents at a time (as many as processors)")
    options = parser.parse_args()
    with ProcessPoolExecutor(options.jobs) as pool:
        tried = pool.map(partial(numbered_fault, options.program, options.offsets), range(options.documents))
        faults = [fault for fault in tried if fault]
    print("".join(f"{fault}\n" for fault in faults), end="")
    print(f"{options.documents} documents, {options.offsets} offsets each: {len(faults)} faults")
    for name, (document, _) in LARGE.items():
        print(f"100,000 occurrences of {name}: {large_call(options.program, document).processor_seconds:.1f} s")
    return 1 if faults else 0


if __name__ == "__main__":
    sys.exit(main())
