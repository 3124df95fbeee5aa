"""A document with another trace: as records, and as text in which all else stands as before."""

from dataclasses import replace

from canonical import Trace
from testing.drawing import trace_lines


def traced(document, columns, until=None):
    """Returns the records of a document with a trace of these columns, up to an end."""
    end = document.until if until is None else until
    return replace(document, trace=Trace(tuple(trace_lines(columns))), until=end)


def traced_text(places, columns, until=None, comment=None):
    """Returns the text of a document, read as places, with a trace of these columns and without its script; a comment may
    stand above."""
    ends = (places.trace_at, places.script_at, places.done_at)
    lines = [it.text for it in places.lines[: min(at for at in ends if at is not None) - 1]]
    if until is not None:
        at, number = places.until.line - 1, places.until.numbers["until"]
        lines[at] = lines[at][: number.column - 1] + str(until).encode() + lines[at][number.end - 1 :]
    head = [f"# {comment}".encode()] if comment else []
    tail = ["trace", *trace_lines(columns), "done", ""]
    return b"\n".join([*head, *lines, *(it.encode() for it in tail)])
