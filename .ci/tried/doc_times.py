"""The documents of the docs are in time: each one that a page gives commands for is simulated without an overrun, unless
a command below it prints one."""

import subprocess
import sys
from functools import partial
from pathlib import Path

TOP = Path(__file__).resolve().parents[2]
sys.path[:0] = [str(TOP / ".ci"), str(TOP / ".ci" / "tried")]

from doc_examples import examples_of  # noqa: E402
from doc_pages import pages  # noqa: E402

OVERRUN = 3  # the exit status of a simulation that overruns


def late_document(program, page):
    """Returns the first document of a page that overruns though no command below it says so, or nothing."""
    shown = {}
    for example in examples_of(page.read_text()):
        shown.setdefault(example.document, []).extend([(example.number, line) for line in example.lines])
    for document, lines in shown.items():
        ran = subprocess.run([program, "sim"], input=document.encode(), capture_output=True, check=False)
        if ran.returncode == OVERRUN and not any(line.startswith("overrun: ") for _, line in lines):
            return f"the document above line {lines[0][0]} has `{ran.stdout.decode().strip()}`"
    return None


def trials(program):
    """Yields the trials of the pages, each a name and a call that returns what differs, or nothing."""
    for page in pages():
        yield page.name, partial(late_document, program, page)
