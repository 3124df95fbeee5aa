"""Coverage as marks on the text of documents: a page of HTML."""

from html import escape

from checking.printed import shown
from checking.text import lines_of
from reports.markup import page_head, table, tag
from testing.coverage import coverage_rows

STYLES = """.source mark { color: inherit; background: none; border-bottom: 2px solid var(--good) }
.source mark.part { border-bottom: 3px double var(--warn); background: var(--head) }
.source mark.none { border-bottom: 3px solid var(--bad); background: var(--head) }
"""
KINDS = ("all", "part", "none")


def marked_page(found):
    """Yields the pieces of a page of documents, each with its name, its text and its coverage."""
    title = "Coverage"
    yield page_head(title, STYLES) + tag("h1", title) + "\n"
    yield tag("p", *legend()) + "\n"
    for number, it in enumerate(found, 1):
        yield document_html(f"d{number}", *it)
    yield "</body>\n</html>\n"


def legend():
    """Yields what the marks mean."""
    for kind, about in zip(KINDS, ("all of it was taken", "a part of it was taken", "nothing of it was taken")):
        yield tag("span", tag("mark", about, cls=kind), cls="source") + " "


def document_html(identity, name, text, coverage):
    """Returns a document with its table and its marks."""
    header, *rows = coverage_rows(coverage)
    cells = [[escape(cell) for cell in row] for row in rows]
    lines = [tag("li", tag("code", *pieces), id=f"{identity}-{number}") + "\n"
             for number, pieces in enumerate(marked_lines(text, coverage), 1)]
    head = tag("h2", escape(printable(name))) + table(header, cells, "choices by task")
    return head + tag("ol", *lines, cls="source") + "\n"


def printable(name):
    """Returns the name of a file without what can't be shown."""
    return "".join(it if it.isprintable() else "?" for it in name)


def marked_lines(text, coverage):
    """Yields the pieces of each line: its text, with a mark at each choice."""
    points = {}
    for it in coverage.sorted_points():
        points.setdefault(it.line, []).append(it)
    for line in lines_of(text):
        pieces, at = [], 0
        for it in points.get(line.number, ()):
            start, end = it.token.column - 1, it.token.end - 1
            pieces += [escape(shown(line.text[at:start])), mark_of(it, coverage)]
            at = end
        yield [*pieces, escape(shown(line.text[at:]))]


def mark_of(point, coverage):
    """Returns the mark of a choice, which says how often each of what it may come to was taken."""
    missed = len(coverage.missed(point))
    kind = KINDS[0] if not missed else KINDS[2] if missed == len(point.choices) else KINDS[1]
    counts = coverage.counts[point.first :]
    about = "; ".join(f"{what}: {count}" for what, count in zip(point.choices, counts))
    return tag("mark", escape(point.token.text), cls=kind, title=f"{point.text}: {about}")
