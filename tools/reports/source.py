"""A document with the numbers and the colours of its lines."""

from enum import Enum
from html import escape
from itertools import groupby

from checking.printed import shown
from checking.text import lines_of
from checking.tokens import Kind, tokens_of
from reports.markup import tag

MOST_COLOURED = 2_000  # bytes of a line that has colours
MOST_LINES, MOST_BYTES = 1_000, 100_000  # of a document that is shown as a whole


class Section(Enum):
    """Where a line is: in a trace `#` begins no comment."""

    DIAGRAM = "diagram"
    TRACE = "trace"


# The class of each kind of token; blanks have none.
CLASSES = {Kind.NAME: "n", Kind.WORD: "w", Kind.NUMBER: "d", Kind.SYMBOL: "s", Kind.BAD: "e"}
COMMENT = "c"


def runs_of(line, section):
    """Returns a line as runs, each a class and its text."""
    if len(line.text) > MOST_COLOURED:
        return [("", shown(line.text))]
    runs, at = [], 0
    for token in tokens_of(line.text):
        runs += [("", line.text[at : token.column - 1]), (CLASSES[token.kind], line.text[token.column - 1 : token.end - 1])]
        at = token.end - 1
    rest = line.text.find(b"#", at)
    if rest >= 0:
        kind = CLASSES[Kind.BAD] if section is Section.TRACE else COMMENT
        runs += [("", line.text[at:rest]), (kind, line.text[rest:])]
        at = len(line.text)
    runs.append(("", line.text[at:]))
    joined = [(kind, b"".join(text for _, text in run)) for kind, run in groupby(runs, key=lambda run: run[0])]
    return [(kind, shown(text)) for kind, text in joined if text]


def section_of(number, sections):
    """Returns the section of the line of this number."""
    ends = [at for at in (sections.script_at, sections.done_at) if at is not None]
    is_after = sections.trace_at is not None and number > sections.trace_at
    return Section.TRACE if is_after and number < min(ends, default=number + 1) else Section.DIAGRAM


def coloured_lines(text, sections=None):
    """Returns the runs of each line of a document; without sections none is in a trace."""
    return [
        runs_of(line, section_of(line.number, sections) if sections else Section.DIAGRAM) for line in lines_of(text)
    ]


def is_paged(text):
    """Whether a document is too long to be shown as a whole."""
    return len(text) > MOST_BYTES or text.count(b"\n") > MOST_LINES


def source_html(lines, name):
    """Returns a document as a list of its lines; each can be linked to, by the name and its number."""
    return tag("ol", *(line_html(runs, f"{name}-{at}") for at, runs in enumerate(lines, 1)), cls="source") + "\n"


def line_html(runs, name):
    """Returns a line."""
    parts = [tag("span", escape(text), cls=kind) if kind else escape(text) for kind, text in runs]
    return tag("li", tag("code", *parts), id=name) + "\n"
