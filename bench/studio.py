#!/usr/bin/env python3
"""Measures the page of tools/studio in a browser, with the pages that the trials of .ci/tried/studio.py use.

  bench/studio.py [--program PROGRAM]

Prints in milliseconds: from a keystroke to its report; from a key in a document of a mebibyte to its first picture; and the
longest time for which the page does nothing else. Needs what those trials need, and says what is missing.
"""

import sys
from pathlib import Path

TOP = Path(__file__).resolve().parent.parent
sys.path[:0] = [str(TOP / "tools"), str(TOP / ".ci"), str(TOP / ".ci" / "tried")]

from running import parser_of  # noqa: E402
from studio import missing_part, used_pages  # noqa: E402


def main():
    """Prints the times, and returns the exit status."""
    parser = parser_of(__doc__)
    program = parser.parse_args().program
    missing = missing_part()
    if missing:
        print(f"there is no {missing}", file=sys.stderr)
        return 2
    pages = used_pages(program)
    large = pages["large"][0]["found"]
    for name, found in (("keystroke", pages["speed"][0]["found"]), ("first picture", large["first"]), ("stall", large["stalls"])):
        print(f"{name:14} {' '.join(f'{it:.0f}' for it in found)}")
    return 0


if __name__ == "__main__":
    sys.exit(main())
