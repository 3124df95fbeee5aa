#!/usr/bin/env python3
"""Makes reports of many documents, or the pictures of reports and of tools/studio in docs/pictures.

  bench/report.py [--program PROGRAM] [--documents N] [--seed N] [--jobs N]
  bench/report.py --pictures [--program PROGRAM]

There are N (300) documents of each kind: examples, generated ones, and mutants of examples; of the examples no more than
there are. Each call must end with status 0 or 1, without a traceback, and tidy must find no error in its page, nor may a
text be markup. Prints each fault, and the counts; the exit status is 0 only if there is no fault.
"""

import base64
import json
import os
import random
import shutil
import subprocess
import sys
import tempfile
from concurrent.futures import ProcessPoolExecutor
from functools import partial
from pathlib import Path

TOP = Path(__file__).resolve().parent.parent
sys.path[:0] = [str(TOP / ".ci" / "tried"), str(TOP / ".ci"), str(TOP / "tools")]
sys.dont_write_bytecode = True

from mutants import mutant_of  # noqa: E402
from pictures.asking import answer  # noqa: E402
from report import PYTHON, call, missing_part, page_fault  # noqa: E402
from running import parser_of  # noqa: E402
from served import Served  # noqa: E402
from studio import AFTER_COST, COSTS, DELETE, EDITED  # noqa: E402

# The pictures of docs/pictures: a document, the first and the last part that is shown, a tick, and light or dark.
PICTURES = {
    "report_preempted.png": ("examples/preempted.dbp", ["#d1 header", "#d1-tasks"], 3, "light"),
    "report_feedback.png": ("examples/feedback.dbp", ["#d1-time .controls", "#d1-time table.slots"], 5, "light"),
    "report_heater.png": ("examples/heater.dbp", ["#d1-time .controls", "#d1-outs h4:nth-of-type(2)"], 20, "dark"),
}


def documents(program, count, seed):
    """Yields documents by their names."""
    draw, files = random.Random(seed), sorted((TOP / "examples").rglob("*.dbp"))
    for file in files[:count]:
        yield str(file.relative_to(TOP)), file.read_bytes()
    for number in range(count):
        yield f"gen {number}", answer(program, ["gen", str(number), str(1 + number % 8)], b"")
    for number in range(count):
        file = files[number % len(files)]
        yield f"mutant {number} of {file.relative_to(TOP)}", mutant_of(draw, file.read_bytes())


def numbered_fault(program, has_tidy, document):
    """Returns the fault of a document with its name, or nothing."""
    name, text = document
    fault = page_fault(program, text, has_tidy)
    return f"{name}: {fault}" if fault else None


def try_all(options):
    """Makes the reports of all documents, prints their faults, and returns the exit status."""
    given = [*documents(options.program, options.documents, options.seed)]
    has_tidy = bool(shutil.which("tidy"))
    with ProcessPoolExecutor(options.jobs) as pool:
        faults = [it for it in pool.map(partial(numbered_fault, options.program, has_tidy), given) if it]
    print("".join(f"{fault}\n" for fault in faults), end="")
    print(f"{len(given)} documents, {'' if has_tidy else 'without tidy, '}{len(faults)} faults")
    return 1 if faults else 0


def draw_pictures(program):
    """Takes the pictures of reports, and returns the exit status."""
    missing = missing_part()
    if missing:
        sys.exit(f"the pictures need {missing}")
    with tempfile.TemporaryDirectory() as place:
        jobs = []
        for name, (document, parts, tick, scheme) in PICTURES.items():
            page = str(Path(place) / f"{name}.html")
            call(program, ["-o", page, document])
            jobs.append({"page": page, "shot": {"of": parts, "tick": tick, "scheme": scheme}})
        words = [PYTHON, "-B", TOP / ".ci" / "browse.py"]
        ran = subprocess.run(words, input=json.dumps(jobs).encode(), stdout=subprocess.PIPE, check=True)
    for name, found in zip(PICTURES, json.loads(ran.stdout)):
        (TOP / "docs" / "pictures" / name).write_bytes(base64.b64decode(found["shot"]))
    (TOP / "docs" / "pictures" / "studio.png").write_bytes(base64.b64decode(studio_picture(program)))
    return 0


def studio_picture(program):
    """Returns a picture of tools/studio, with an overrun, as base64."""
    with Served(program, EDITED.encode()) as it:
        edit = [8, AFTER_COST, DELETE, str(COSTS["overrun"])]
        job = {"do": "shot", "address": it.address, "edit": edit, "part": "#d1-time"}
        words = [PYTHON, "-B", TOP / ".ci" / "browse_studio.py"]
        ran = subprocess.run(words, input=json.dumps([job]).encode(), stdout=subprocess.PIPE, check=True)
    return json.loads(ran.stdout)[0]["found"]


def main():
    """Does what the words ask for, and returns the exit status."""
    parser = parser_of(__doc__)
    parser.add_argument("--documents", type=int, default=300, help="of each kind (300)")
    parser.add_argument("--seed", type=int, default=1, help="what mutants are drawn from (1)")
    parser.add_argument("--jobs", type=int, default=os.cpu_count(), help="documents at a time (as many as processors)")
    parser.add_argument("--pictures", action="store_true", help="take the pictures of docs/pictures instead")
    options = parser.parse_args()
    return draw_pictures(options.program) if options.pictures else try_all(options)


if __name__ == "__main__":
    sys.exit(main())
