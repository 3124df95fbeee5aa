"""A version of a document that is open: its text, the document as tools/check reads it, and its names."""

from bisect import bisect_left
from functools import cached_property

from checking.language import MOST_BYTES
from checking.places import Section
from checking.reading import read_document
from checking.tokens import tokens_of
from serving.names import Names


class Version:
    """A version of a document."""

    def __init__(self, uri, number, text):
        self.uri = uri
        self.number = number
        self.text = text

    @cached_property
    def document(self):
        """The document as it is read. A text that is too large is taken for an empty one."""
        content = self.text.content
        return read_document(content if len(content) <= MOST_BYTES else b"")[0]

    @cached_property
    def names(self):
        """The names of the document."""
        return Names(self.document)

    def line(self, number):
        """Returns the bytes of a line."""
        lines = self.document.lines
        return lines[number - 1].text if number <= len(lines) else b""

    def section(self, number):
        """Returns the section in which a line stands; one that begins a section stands in the one before."""
        found = self.document.sections
        at = bisect_left(found, (number, -1))
        return found[at - 1][1] if at else Section.HEADER

    def tokens(self, number):
        """Returns the tokens of a line; a line of the trace has none."""
        return () if self.section(number) is Section.TRACE else tokens_of(self.line(number))

    def token_at(self, number, column):
        """Returns the token at a column of a line, or the one that ends there, or nothing."""
        found = [it for it in self.tokens(number) if it.column <= column <= it.end]
        return found[-1] if found else None

    def name_at(self, number, column):
        """Returns the name at a column of a line, or nothing; in a line with a fault it is what may be meant."""
        place = self.names.place_at(number, column)
        if place is not None:
            return place.name
        is_read = number in self.names.by_line
        return None if is_read else self.names.meant_by(self.token_at(number, column), number)

    def range_of(self, place):
        """Returns the range of the place of a name."""
        return self.text.range(place.line, place.column, len(place.name.text))

    def range_of_name(self, statement):
        """Returns the range of the name that a line declares."""
        return self.text.range(statement.line, statement.name.column, statement.name.width)

    def source(self, number):
        """Returns a line as a text, without the blanks around it."""
        return self.line(number).decode("ascii", "replace").strip()
