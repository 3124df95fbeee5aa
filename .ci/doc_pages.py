"""The pages of the docs, read as Markdown: their fenced blocks, code spans, links and headings."""

import re
from dataclasses import dataclass
from pathlib import Path

TOP = Path(__file__).resolve().parent.parent
MADE = TOP / "docs" / "CONTRACTS.md"  # tools/contracts makes it, and its own trial compares it

FENCE = re.compile(r"(`{3,})(.*)")
SPAN = re.compile(r"(`+)(.+?)\1(?!`)")
LINK = re.compile(r"\[[^\]]*\]\(([^)\s]+)\)")


@dataclass(frozen=True)
class Block:
    """A fenced block: the line of its fence, the word after it, and its lines."""

    number: int
    word: str
    lines: list


def pages():
    """Returns the files of the docs that people write."""
    written = [TOP / "README.md", TOP / "CONTRIBUTING.md", *sorted((TOP / "docs").glob("*.md"))]
    return [it for it in written if it != MADE]


def blocks_and_prose(text):
    """Returns the fenced blocks of a page, and its other lines with their numbers."""
    blocks, prose, opened = [], [], None
    for number, line in enumerate(text.splitlines(), 1):
        fence = FENCE.fullmatch(line.strip())
        if opened is None and fence:
            opened = (fence[1], Block(number, fence[2].strip(), []))
        elif opened is None:
            prose.append((number, line))
        elif fence and fence[1] == opened[0] and not fence[2]:
            blocks.append(opened[1])
            opened = None
        else:
            opened[1].lines.append(line)
    return blocks, prose


def spans(line):
    """Returns the code spans of a line."""
    return [it[2].strip() for it in SPAN.finditer(line)]


def without_spans(line):
    """Returns a line without its code spans and its links' targets."""
    return re.sub(r"\]\([^)\s]+\)", "]", SPAN.sub(" ", line))


def links(line):
    """Returns the targets of the links and the pictures of a line."""
    return LINK.findall(SPAN.sub(" ", line))


def anchors(text):
    """Returns the anchors of the headings of a page, as they are made of headings on the web."""
    found = []
    for _, line in blocks_and_prose(text)[1]:
        if re.match(r"#{1,6} ", line):
            words = re.sub(r"[^\w\- ]", "", line.lstrip("#").strip().lower()).replace(" ", "-")
            found.append(f"{words}-{found.count(words)}" if words in found else words)
    return set(found)
