"""Copies of a document in which more of a task's values are outs, so that the program's table has them.

An out that some task reads stays in each copy, so that all tasks get the values that they get in the document.
"""

from dataclasses import dataclass
from typing import Optional, Tuple

from checking.language import COUNTS
from checking.names import DECLARING
from checking.statements import Statement
from checking.tokens import code_of


@dataclass(frozen=True, eq=False)
class Column:
    """What a task's column of a table is about: an out of the document, or an expression over states and lets."""

    task: str
    statements: Tuple[Statement, ...]
    expression: Optional[str] = None


def columns_of_copy(document, asked, keeps_all):
    """Returns the columns of a copy, by the names of the tasks, and those of the asked ones that have no room in it."""
    is_read = {(read.source.text, read.port.text) for _, read in document.reads}
    columns, left = {}, []
    for task in document.tasks:
        outs = [it for it in task.lines("out") if keeps_all or (task.name, it.name.text) in is_read]
        own = [it for it in asked if it.task == task.name]
        body = len(task.body) - len(task.lines("out"))
        room = min(COUNTS["outs"], COUNTS["body"] - body) - len(outs)
        outs = outs if outs or own and room > 0 else task.lines("out")[:1]
        columns[task.name] = [Column(task.name, (it,)) for it in outs] + own[: max(0, room)]
        left += own[max(0, room) :]
    return columns, left


def copy_of(document, columns):
    """Returns the text of a copy: without comments and script, and with the outs that its columns want."""
    lines = [f"dbp {document.version}", f"policy {document.policy}", source(document, document.until)]
    lines += [source(document, it) for it in document.declarations]
    for task in document.tasks:
        lines.append(source(document, task.head))
        lines += [source(document, it) for it in task.body if it.word != "out"]
        names = unused_names(task)
        for column in columns[task.name]:
            is_own = column.expression is None
            own = column.statements[0]
            lines.append(source(document, own) if is_own else f"out {next(names)} = 0 then {column.expression}")
    text = "\n".join(lines).encode()
    if document.trace_at is not None:
        text = b"\n".join([text, b"trace", *(row.text for row in document.rows)])
    return text + b"\ndone\n"


def source(document, statement):
    """Returns a line of the document without its comment."""
    return code_of(document.lines[statement.line - 1].text).strip(" \t")


def unused_names(task):
    """Yields names that a task doesn't declare."""
    used = task.declared(*DECLARING)
    number = 0
    while True:
        if f"v{number}" not in used:
            yield f"v{number}"
        number += 1
