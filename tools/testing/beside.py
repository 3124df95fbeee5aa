"""What stands beside a document: its expectations and its properties, and the names that they may use."""

from dataclasses import replace
from pathlib import Path
from typing import Dict, NamedTuple, Optional, Tuple

from checking.messages import Message, Severity
from checking.text import what_there_is
from command_line import MOST_BYTES
from ending import Ended, Status

DOCUMENT, EXPECTED, PROPERTIES = ".dbp", ".expect", ".props"


class Declared(NamedTuple):
    """What a document declares: the outs of each task, its inputs and events, and its end, if it has one."""

    outs: Dict[str, Tuple[str, ...]]
    inputs: Tuple[str, ...]
    events: Tuple[str, ...]
    until: Optional[int]


def declared_in(document):
    """Returns what a document, read as places, declares."""
    outs = {name: tuple(task.declared("out")) for name, task in document.named_tasks.items()}
    until = document.until.number("until") if document.until else None
    return Declared(outs, tuple(document.declared("input")), tuple(document.declared("event")), until)


def expected_file(document):
    """Returns the file of a document's expectations."""
    return Path(document).with_suffix(EXPECTED)


def properties_file(document):
    """Returns the file of a document's properties: of a.b.dbp it is a.b.props, and without one a.props."""
    own = Path(document).with_suffix(PROPERTIES)
    parts = own.name[: -len(PROPERTIES)].split(".")
    names = [".".join(parts[:count]) + PROPERTIES for count in range(len(parts), 0, -1)]
    found = [own.with_name(name) for name in names if name != PROPERTIES]
    return next((it for it in found if it.is_file()), own)


def document_beside(file):
    """Returns the document that a file of expectations or properties stands beside."""
    return Path(file).with_suffix(DOCUMENT)


def must_be_whole(file, text):
    """Ends the tool if a file has more bytes than a document may have."""
    if len(text) > MOST_BYTES:
        raise Ended(Status.TOO_LARGE, f"{file}: the file has more than {MOST_BYTES:,} bytes")


def fault(line, column, name, text, width=1):
    """Makes the message of a fault of what stands beside a document."""
    return Message(line, column, Severity.ERROR, None, name, text, (), width)


def fault_over(line, tokens, name, text):
    """Makes the message of a fault over some tokens of a line."""
    return fault(line, tokens[0].column, name, text, tokens[-1].end - tokens[0].column)


def without_code(message):
    """Returns a message of a document's line as one of a line beside it, which the program doesn't read."""
    return replace(message, code=None)


def port_faults(declared, line, task, out, task_place, out_place):
    """Returns the message of a task or an out that the document hasn't; a place is a column and a width."""
    if task not in declared.outs:
        text = f"no task `{task}` is declared; {what_there_is('task', declared.outs, wrong=task)}"
        return [fault(line, task_place[0], "Unknown", text, task_place[1])]
    if out not in declared.outs[task]:
        there = what_there_is("out", declared.outs[task], task, wrong=out)
        return [fault(line, out_place[0], "Unknown", f"`{task}` has no out `{out}`; {there}", out_place[1])]
    return []
