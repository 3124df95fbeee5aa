"""A document in an editor: its lines, changes of ranges, and its places in UTF-16.

The protocol ends a line at a carriage return alone too, the language doesn't. So a line of the language may be several
lines here. Bytes are those of UTF-8, in which half a character of UTF-16 has three.
"""

import re
from bisect import bisect_right
from functools import cached_property

LINE_END = re.compile(r"(\r\n|\r|\n)")
BEYOND = 0xFFFF  # characters above have two units of UTF-16


def lines_with_ends(text):
    """Returns the lines of a text with their ends; the last one has none, and may be empty."""
    if "\r" not in text:
        *ended, last = text.split("\n")
        return [f"{line}\n" for line in ended] + [last]
    parts = LINE_END.split(text)
    return [line + end for line, end in zip(parts[::2], parts[1::2])] + [parts[-1]]


def units_of(text):
    """Returns how many units of UTF-16 a text has."""
    return len(text) if text.isascii() else len(text) + sum(ord(it) > BEYOND for it in text)


def bytes_of(text):
    """Returns the bytes of a text."""
    return text.encode("utf-8", "surrogatepass")


def index_of(line, character):
    """Returns the place in a line that is so many units after its start, at most its end."""
    content = line.rstrip("\r\n")
    if content.isascii():
        return min(character, len(content))
    for index, it in enumerate(content):
        character -= 1 + (ord(it) > BEYOND)
        if character < 0:
            return index
    return len(content)


def index_of_byte(line, size):
    """Returns the place in a line that is so many bytes after its start, at most its end."""
    if line.isascii():
        return min(size, len(line))
    for index, it in enumerate(line):
        if size <= 0:
            return index
        size -= len(bytes_of(it))
    return len(line)


class Text:
    """The text of a version of a document."""

    def __init__(self, lines):
        self.lines = lines

    @cached_property
    def content(self):
        """The bytes that tools and the program read."""
        return bytes_of("".join(self.lines))

    @cached_property
    def starts(self):
        """The line here at which each line of the language begins."""
        if b"\r" not in self.content.replace(b"\r\n", b""):
            return range(len(self.lines))
        ended = (number for number, line in enumerate(self.lines, 1) if line.endswith("\n"))
        return [0, *ended]

    def changed(self, span, text):
        """Returns the text with a range replaced."""
        (first, start), (last, end) = self.clamped(span["start"]), self.clamped(span["end"])
        if (last, end) < (first, start):
            (first, start), (last, end) = (last, end), (first, start)
        made = self.lines[first][:start] + text + self.lines[last][end:]
        if first and made.startswith("\n") and self.lines[first - 1].endswith("\r"):
            first -= 1
            made = self.lines[first] + made
        after = self.lines[last + 1 :]
        new = lines_with_ends(made)
        return Text([*self.lines[:first], *(new[:-1] if after else new), *after])

    def clamped(self, position):
        """Returns the line and the place in it of a position; one past an end is that end."""
        line, character = position["line"], position["character"]
        if line >= len(self.lines):
            return len(self.lines) - 1, len(self.lines[-1])
        return line, index_of(self.lines[line], character)

    def spot(self, position):
        """Returns the line of the language and the column, both from 1, of a position."""
        line, index = self.clamped(position)
        number = bisect_right(self.starts, line)
        before = "".join(self.lines[self.starts[number - 1] : line]) + self.lines[line][:index]
        return number, len(bytes_of(before)) + 1

    def position(self, number, column):
        """Returns the position of a line and a column of the language."""
        if number > len(self.starts):
            return self.end()
        line, size = self.starts[number - 1], column - 1
        while line + 1 < len(self.lines) and self.lines[line].endswith("\r") and size >= len(bytes_of(self.lines[line])):
            size -= len(bytes_of(self.lines[line]))
            line += 1
        content = self.lines[line].rstrip("\r\n")
        return {"line": line, "character": units_of(content[: index_of_byte(content, size)])}

    def range(self, number, column, width):
        """Returns the range of so many bytes from a line and a column of the language on, within one line of the editor."""
        start, end = self.position(number, column), self.position(number, column + width)
        if start["line"] != end["line"]:
            end = {"line": start["line"], "character": units_of(self.lines[start["line"]].rstrip("\r\n"))}
        return {"start": start, "end": end}

    def range_of_line(self, number):
        """Returns the range of a line of the language, without its end."""
        return self.range(number, 1, len(self.content) + 1)

    def end(self):
        """Returns the position of the end."""
        return {"line": len(self.lines) - 1, "character": units_of(self.lines[-1])}
