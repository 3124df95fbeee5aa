"""tools/canonical.py on the canonical text of each document of examples/ and cases/: nothing of it gets lost."""

import subprocess
import sys
from pathlib import Path

TOP = Path(__file__).resolve().parent.parent.parent
sys.path[:0] = [str(TOP / "tools"), str(TOP / ".ci")]

from awaited import SECONDS  # noqa: E402
from canonical import Every, read_document  # noqa: E402


def head_of(task, version):
    """Returns the first line of a task, in a document of a version."""
    clock = task.clock
    words = f"every {clock.period} from {clock.offset}" if isinstance(clock, Every) else f"on {clock.event}"
    optional = {"when": task.when, "prio": task.prio, "deadline": task.deadline}
    given = "".join(f" {word} {it}" for word, it in optional.items() if it is not None)
    cpu = f" cpu {task.cpu}" if version > 1 else ""
    return f"task {task.name} {words}{given} cost {task.cost}{cpu}"


def body_of(task):
    """Yields the lines of a task's body, kind by kind."""
    for it in task.reads:
        delay = "" if it.delay == 0 else "pre " if it.delay == 1 else f"pre {it.delay} "
        yield f"  read {it.name} = {delay}{it.writer}.{it.port} at {it.at}"
    yield from (f"  state {it.name} = {it.first}" for it in task.states)
    yield from (f"  sense {it.name} = {it.input}" for it in task.senses)
    yield from (f"  let {it.name} = {it.expression}" for it in task.lets)
    yield from (f"  next {it.state} = {it.expression}" for it in task.nexts)
    yield from (f"  out {it.name} = {it.first} then {it.expression}" for it in task.outs)


def lines_of(document):
    """Yields the lines that a document was read from, those of a body and of the declarations in another order."""
    yield from (f"dbp {document.version}", f"policy {document.policy.word}", f"until {document.until}")
    yield from (f"input {it.name} = {it.first}" for it in document.inputs)
    yield from (f"event {name}" for name in document.events)
    for task in document.tasks:
        yield head_of(task, document.version)
        yield from body_of(task)
    for word, lines in (("trace", document.trace and document.trace.lines), ("script", document.script)):
        if lines is not None:
            yield from (word, *lines)
    yield "done"


def lost(program):
    """Returns the first document of which a line is lost or changed."""
    for file in sorted([*(TOP / "examples").rglob("*.dbp"), *(TOP / "cases").rglob("*.dbp")]):
        ran = subprocess.run([program, "form"], input=file.read_bytes(), capture_output=True, timeout=SECONDS, check=False)
        lines = ran.stdout.decode().splitlines()
        if ran.returncode == 0 and sorted(lines_of(read_document(ran.stdout))) != sorted(lines):
            return f"{file.relative_to(TOP)}: a line is lost or changed"
    return None


def trials(program):
    """Yields the trials: a name, and a call that returns what differs, or nothing."""
    yield "all documents", lambda: lost(program)
