"""Standard streams that fail: a folder can't be read, and /dev/full takes no byte."""

import os
import subprocess
import sys
import tempfile
from functools import partial
from pathlib import Path

TOP = Path(__file__).resolve().parents[2]
sys.path.insert(0, str(TOP / ".ci"))

from awaited import SECONDS  # noqa: E402

EXAMPLES = TOP / "examples"
EXAMPLE = EXAMPLES / "two_rates.dbp"
UNKNOWN = EXAMPLES / "refused" / "11_unknown.dbp"
NOT_FIXED = EXAMPLES / "refused_rta" / "31_not_fixed.dbp"
NOT_PERIODIC = EXAMPLES / "refused_rta" / "32_not_periodic.dbp"
SCENARIO = EXAMPLES / "need" / "wheel.dbp"
NOT_ON_EVENTS = EXAMPLES / "refused_need" / "33_not_on_events.dbp"
LATE = EXAMPLES / "cpus" / "one_processor.dbp"
CYCLE = EXAMPLES / "refused_rank" / "37_cycle.dbp"
NO_LINES = b"dbp 1\npolicy fp\nuntil 0\ndone\n"

# The name, the words, the document or None for one that can't be read, whether the output can't be written, and the
# exit status. What is written if the output can be written isn't compared, except that a failed read writes nothing.
TRIALS = [
    ("unread document", ["mean"], None, False, 4),
    ("unread document of a run", ["run"], None, False, 4),
    ("unwritten lines", ["mean"], EXAMPLE.read_bytes(), True, 5),
    ("unwritten lines of a run", ["run"], EXAMPLE.read_bytes(), True, 5),
    ("unwritten refusal", ["mean"], b"", True, 5),
    ("unwritten overrun", ["sim"], EXAMPLE.read_bytes(), True, 5),
    ("unread document, and no output", ["mean"], None, True, 4),
    ("unread document of an upgrade", ["upgrade"], None, False, 4),
    ("unread document of an upgrade, and no output", ["upgrade"], None, True, 4),
    ("unwritten upgrade", ["upgrade"], EXAMPLE.read_bytes(), True, 5),
    ("unwritten upgrade of names that are not there", ["upgrade"], UNKNOWN.read_bytes(), True, 5),
    ("unwritten refusal of an upgrade", ["upgrade"], b"", True, 5),
    ("unread document of response times", ["rta"], None, False, 4),
    ("unread document of response times, and no output", ["rta"], None, True, 4),
    ("unwritten response times", ["rta"], EXAMPLE.read_bytes(), True, 5),
    ("unwritten refusal before response times", ["rta"], UNKNOWN.read_bytes(), True, 5),
    ("unwritten refusal of response times by a policy", ["rta"], NOT_FIXED.read_bytes(), True, 5),
    ("unwritten refusal of response times by a task", ["rta"], NOT_PERIODIC.read_bytes(), True, 5),
    ("no response times to be written", ["rta"], NO_LINES, True, 0),
    ("unread document of a scenario", ["need", "pulse"], None, False, 4),
    ("unread document of a scenario, and no output", ["need", "pulse"], None, True, 4),
    ("unwritten scenario", ["need", "pulse"], SCENARIO.read_bytes(), True, 5),
    ("unwritten refusal before a scenario", ["need", "pulse"], UNKNOWN.read_bytes(), True, 5),
    ("unwritten refusal of a scenario", ["need", "w"], NOT_ON_EVENTS.read_bytes(), True, 5),
    ("unwritten refusal of a scenario of no task", ["need", "dbp"], SCENARIO.read_bytes(), True, 5),
    ("no command without a task, and no document", ["need"], None, True, 2),
    ("unread document of priorities", ["rank"], None, False, 4),
    ("unread document of priorities, and no output", ["rank"], None, True, 4),
    ("unwritten priorities", ["rank"], EXAMPLE.read_bytes(), True, 5),
    ("unwritten refusal before priorities", ["rank"], UNKNOWN.read_bytes(), True, 5),
    ("unwritten refusal by a cycle", ["rank"], CYCLE.read_bytes(), True, 5),
    ("unread document of processors", ["cpus"], None, False, 4),
    ("unread document of processors, and no output", ["cpus"], None, True, 4),
    ("unread document of a record on processors", ["cpus", "--record"], None, False, 4),
    ("unwritten lines of processors", ["cpus"], EXAMPLE.read_bytes(), True, 5),
    ("unwritten record on processors", ["cpus", "--record"], EXAMPLE.read_bytes(), True, 5),
    ("unwritten overrun on processors", ["cpus"], LATE.read_bytes(), True, 5),
    ("unwritten overrun in place of a record", ["cpus", "--record"], LATE.read_bytes(), True, 5),
    ("unwritten refusal before processors", ["cpus"], UNKNOWN.read_bytes(), True, 5),
    ("no lines of processors to be written", ["cpus"], NO_LINES, True, 0),
    ("unread canonical text", ["form"], None, False, 4),
    ("unwritten canonical text", ["form"], EXAMPLE.read_bytes(), True, 5),
    ("nothing to be written", ["mean"], NO_LINES, True, 0),
    ("no command", ["men"], None, True, 2),
    ("no words", [], None, True, 2),
    ("an empty word", [""], None, True, 2),
    ("an empty word after a command", ["form", ""], None, True, 2),
    ("an empty word before a command", ["", "form"], None, True, 2),
    ("a blank after a command", ["mean "], None, True, 2),
    ("an empty number of turns", ["run", "--turns", ""], None, True, 2),
    ("a blank after a number of turns", ["run", "--turns", "9 "], None, True, 2),
    ("no command with an empty task", ["need", ""], None, True, 2),
    ("no command with a number as a task", ["need", "9x"], None, True, 2),
    ("no command with two tasks", ["need", "a", "b"], None, True, 2),
    ("no document is needed", ["soak", "0", "1"], None, False, 0),
]


def fault_of(program, words, document, is_full, status):
    """Returns what differs, or nothing."""
    with tempfile.TemporaryFile() as given, tempfile.TemporaryFile() as kept, open("/dev/full", "wb") as full:
        given.write(document or b"")
        given.seek(0)
        folder = os.open("/", os.O_RDONLY)
        try:
            streams = {"stdin": folder if document is None else given, "stdout": full if is_full else kept}
            ran = subprocess.run([program, *words], stderr=subprocess.DEVNULL, timeout=SECONDS, check=False, **streams)
        finally:
            os.close(folder)
        kept.seek(0)
        written = kept.read()
    if ran.returncode != status:
        return f"the status is {ran.returncode}, and {status} is wanted"
    return f"{len(written)} bytes were written" if status == 4 and written else None


def trials(program):
    for name, words, document, is_full, status in TRIALS:
        yield name, partial(fault_of, program, words, document, is_full, status)
