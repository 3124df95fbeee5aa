"""The docs as pages of the web, made of their Markdown: of as much of it as they use."""

import html
import re
from dataclasses import dataclass

FENCE = re.compile(r"```(\w*)")
SPAN = re.compile(r"(`+)(.+?)\1(?!`)")
HEADING = re.compile(r"(#{1,6}) (.*)")
ITEM = re.compile(r"(-|\d+\.) (.*)")
RULE = re.compile(r"\|(?:\s*:?-+:?\s*\|)+")
IMAGE = re.compile(r"!\[([^\]]*)\]\(([^)\s]+)\)")
LINK = re.compile(r"\[([^\]]*)\]\(([^)\s]+)\)")
STYLE = """body { max-width: 50rem; margin: 2rem auto; padding: 0 1rem; font: 16px/1.5 sans-serif }
body { color: #222; background: #fff }
pre, code { font-family: monospace; font-size: 0.9em; background: #f4f4f4 }
pre { padding: 0.6rem; overflow-x: auto }
table { border-collapse: collapse }
th, td { border: 1px solid #bbb; padding: 0.2rem 0.5rem; text-align: left; vertical-align: top }
img { max-width: 100% }"""


@dataclass
class Pages:
    """The pages that are made: which links to files there are, so that others become plain text."""

    names: frozenset  # the paths of all files beside the pages

    def target(self, page, link):
        """Returns where a link of a page leads among the pages, or nothing."""
        path, sign, anchor = link.partition("#")
        if "://" in link or not path:
            return link
        folder = page.rpartition("/")[0]
        whole = f"{folder}/{path}" if folder else path
        if whole not in self.names:
            return None
        return (path[: -len("md")] + "html" if path.endswith(".md") else path) + sign + anchor

    def link(self, page, found):
        """Returns a link, or its text alone if it leads to no file here."""
        target = self.target(page, found[2])
        return found[1] if target is None else f'<a href="{target}">{found[1]}</a>'

    def inline(self, page, text):
        """Returns the marks of a line of text."""
        spans = []

        def keep(found):
            spans.append(f"<code>{html.escape(found[2].strip(), False)}</code>")
            return f"\0{len(spans) - 1}\0"

        text = html.escape(SPAN.sub(keep, text), False)
        text = IMAGE.sub(lambda it: f'<img src="{it[2]}" alt="{html.escape(restored(it[1], spans))}">', text)
        text = LINK.sub(lambda it: self.link(page, it), text)
        text = re.sub(r"\*\*(.+?)\*\*", r"<strong>\1</strong>", text)
        text = re.sub(r"(?<!\*)\*([^* ][^*]*)\*(?!\*)", r"<em>\1</em>", text)
        return re.sub("\0(\\d+)\0", lambda it: spans[int(it[1])], text)

    def cells(self, page, line, kind):
        """Returns a row of a table."""
        kept = SPAN.sub(lambda it: it[0].replace("|", "\1"), line)
        cells = [it.replace("\1", "|").strip() for it in kept.strip().strip("|").split("|")]
        return "<tr>" + "".join(f"<{kind}>{self.inline(page, it)}</{kind}>" for it in cells) + "</tr>"

    def table(self, page, lines):
        """Returns a table."""
        rows = [self.cells(page, line, "td") for line in lines[2:]]
        return "\n".join(["<table>", self.cells(page, lines[0], "th"), *rows, "</table>"])

    def items(self, page, lines):
        """Returns a list."""
        found = [ITEM.match(line) for line in lines]
        kind = "ul" if found[0][1] == "-" else "ol"
        return "\n".join([f"<{kind}>", *(f"<li>{self.inline(page, it[2])}</li>" for it in found), f"</{kind}>"])

    def heading(self, page, found, anchors):
        """Returns a heading, with the anchor that links name it by."""
        anchor = re.sub(r"[^\w\- ]", "", found[2].strip().lower()).replace(" ", "-")
        anchors.append(anchor)
        count = anchors.count(anchor) - 1
        level = len(found[1])
        name = f"{anchor}-{count}" if count else anchor
        return f'<h{level} id="{name}">{self.inline(page, found[2])}</h{level}>'

    def part(self, page, lines, anchors):
        """Returns a part of a page: consecutive lines, none of them blank."""
        found = HEADING.fullmatch(lines[0])
        if found:
            return "\n".join([self.heading(page, found, anchors), *(self.part(page, it, anchors) for it in [lines[1:]] if it)])
        if len(lines) > 1 and RULE.fullmatch(lines[1].strip()):
            return self.table(page, lines)
        first = next((at for at, line in enumerate(lines) if ITEM.match(line)), len(lines))
        listed = all(ITEM.match(line) for line in lines[first:])
        if first == 0 and listed:
            return self.items(page, lines)
        return f"<p>{self.inline(page, ' '.join(lines))}</p>"

    def page(self, name, text):
        """Returns the page of a text; `name` is the path of its file."""
        anchors = []
        parts = [code_of(it) if it[0].startswith("```") else self.part(name, it, anchors) for it in parts_of(text)]
        found = re.search(r"(?m)^# (.*)$", text)
        title = html.escape(found[1].replace("`", "") if found else name)
        return "\n".join([
            "<!DOCTYPE html>", '<html lang="en">', '<head><meta charset="utf-8">', f"<title>{title}</title>",
            f"<style>\n{STYLE}\n</style></head>", "<body>", *parts, "</body>", "</html>", ""])


def restored(text, spans):
    """Returns a text with the words of its code spans."""
    return html.unescape(re.sub("\0(\\d+)\0", lambda it: re.sub("</?code>", "", spans[int(it[1])]), text))


def parts_of(text):
    """Yields the parts of a text: fenced blocks, and consecutive lines that aren't blank."""
    lines, is_code = [], False
    for line in text.splitlines():
        is_fence = FENCE.fullmatch(line.strip()) is not None
        if lines and (is_fence and not is_code or not line.strip() and not is_code):
            yield lines
            lines = []
        if is_code or line.strip():
            lines.append(line)
        if is_code and is_fence:
            yield lines
            lines = []
        is_code ^= is_fence
    if lines:
        yield lines


def code_of(lines):
    """Returns a fenced block."""
    return f"<pre><code>{html.escape(chr(10).join(lines[1:-1]), False)}\n</code></pre>"
