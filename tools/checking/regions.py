"""Where messages stand, as services of continuous integration take it: in UTF-16 code units, and by marks that stay the
same when lines move."""

from __future__ import annotations

from codecs import BOM_UTF8
from collections import Counter
from dataclasses import dataclass
from hashlib import sha256

from checking.messages import Message
from checking.text import Line

LEADING_BITS, GOES_ON = 0xC0, 0x80  # the bits of a byte that goes on with a character of UTF-8


@dataclass(frozen=True)
class Checked:
    """A file with its lines and the messages that are printed of it; without a text that was judged it has no lines."""

    file: str
    status: int
    lines: list[Line]
    messages: list[Message]


@dataclass(frozen=True)
class Region:
    """A part of a line: the column of its first code unit, and the one after its last; both count from 1."""

    line: int
    start: int
    end: int


def units_in(text):
    """Returns how many code units the first bytes of a line are; a byte order mark is none."""
    shown = text[len(BOM_UTF8) :] if text.startswith(BOM_UTF8) else text
    return len(shown.decode("utf-8", "replace").encode("utf-16-le")) // 2


def region_of(lines, line, column, width):
    """Returns the region of so many bytes at a place of a document; one after its last line is at the end of that.

    A character of which the last byte is a part belongs to it.
    """
    if line > len(lines):
        end = units_in(lines[-1].text if lines else b"") + 1
        return Region(max(1, len(lines)), end, end)
    text, end = lines[line - 1].text, column - 1 + width
    while width and text[end : end + 1] and text[end] & LEADING_BITS == GOES_ON:
        end += 1
    return Region(line, units_in(text[: column - 1]) + 1, units_in(text[:end]) + 1)


def regions_of(checked):
    """Returns the region of each message of a file."""
    return [region_of(checked.lines, it.line, it.column, it.width) for it in checked.messages]


def path_of(file):
    """Returns the name of a file without `./` before it."""
    while file.startswith("./"):
        file = file[2:].lstrip("/")
    return file


def rule_of(message):
    """Returns the name of the rule that a message is of: that of its refusal or warning, without the word of a limit."""
    return message.name.split()[0]


def fingerprints_of(checked):
    """Returns a mark of each message: of its file, its rule, the text of its line, and how many have had the same before."""
    before, found = Counter(), []
    file = path_of(checked.file).encode("utf-8", "surrogateescape")
    for it in checked.messages:
        text = checked.lines[it.line - 1].text if it.line <= len(checked.lines) else b""
        key = b"\0".join([file, rule_of(it).encode(), b" ".join(text.split())])
        found.append(sha256(b"%s\0%d" % (key, before[key])).hexdigest())
        before[key] += 1
    return found
