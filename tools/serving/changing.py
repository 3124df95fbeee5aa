"""Changes of a document: a name by another one everywhere, and its layout."""

import re
import subprocess

from checking.language import MOST_BYTES, MOST_NAME, RESERVED
from checking.names import SAID
from ending import Ended
from layout import laid_out
from serving.texts import lines_with_ends

NAME = re.compile(r"[A-Za-z_][A-Za-z0-9_]*", re.ASCII)


class NotDone(Exception):
    """A change can't be made: why."""


def renamed(version, name, new):
    """Returns the edits by which a name is another one everywhere."""
    names = version.names
    declared = names.declared(name)
    if declared is None:
        raise NotDone(f"`{name.text}` isn't declared")
    if not NAME.fullmatch(new) or new in RESERVED or len(new) > MOST_NAME:
        rule = f"letters, digits and `_`, at most {MOST_NAME}, begins with no digit, and is no keyword"
        raise NotDone(f"a name has {rule}")
    if new == name.text:
        return []
    other = names.declared(name._replace(text=new))
    if other is not None:
        raise NotDone(f"`{new}` is {SAID[other.word]} already, declared in line {other.line}")
    must_be_readable(version, (name.text, new))
    places = names.places_of(name)
    if len(version.text.content) + len(places) * (len(new) - len(name.text)) > MOST_BYTES:
        raise NotDone("the document would be too large")
    return [{"range": version.range_of(it), "newText": new} for it in places]


def must_be_readable(version, texts):
    """Refuses to rename if a line with a fault has one of two names, since nobody knows what it means there."""
    document = version.document
    for text in texts:
        if text in document.doubtful or text in version.names.faulty_in_steps:
            raise NotDone(f"a line with a fault has `{text}`: mend that line first")
    if document.is_header_bad:
        raise NotDone("the header of the trace has a fault: mend it first")
    heads = [task.name for task in document.tasks]
    twice = next((it for it in heads if it is not None and heads.count(it) > 1), None)
    if twice is not None:
        raise NotDone(f"two tasks are `{twice}`: rename one by hand first")


def layout_edits(version, program):
    """Returns the edits by which a document is laid out as by tools/format, line by line; none if `dbp form` refuses it."""
    try:
        made = laid_out(program, version.text.content)
    except (Ended, subprocess.TimeoutExpired):
        return []
    old, new = version.text.lines, lines_with_ends(made.decode("ascii"))
    edits = []
    for number, (line, wanted) in enumerate(zip(old, new)):
        content, wanted = (line, wanted) if line == wanted else (line.rstrip("\r\n"), wanted.rstrip("\n"))
        if content != wanted:
            start, end = {"line": number, "character": 0}, {"line": number, "character": len(content)}
            edits.append({"range": {"start": start, "end": end}, "newText": wanted})
    if len(new) > len(old):  # the last line has no end, so it gets that of the first one
        end = version.text.end()
        edits.append({"range": {"start": end, "end": end}, "newText": "\r\n" if old[0].endswith("\r\n") else "\n"})
    return edits
