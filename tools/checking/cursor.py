"""A place in the tokens of a line, and what is wrong where the tokens leave the line's form."""

import re

from checking.foreign import about_hyphen, about_pair, about_point, about_word
from checking.language import FORMS
from checking.tokens import Kind


class LeavesForm(Exception):
    """The tokens leave the form of their line: the place, how many bytes it is about, and what is wrong.

    `is_at_end` says whether they end too early, so that the next line may be meant to go on.
    """

    def __init__(self, column, width, text, is_at_end):
        super().__init__(text)
        self.column = column
        self.width = width
        self.text = text
        self.is_at_end = is_at_end


class Cursor:
    """Takes the tokens of a line, of a document of some version, one after another."""

    def __init__(self, tokens, form, version):
        self.tokens = tokens
        self.form = form
        self.version = version
        self.at = 0

    @property
    def here(self):
        """The next token, or nothing at the line's end."""
        return self.tokens[self.at] if self.at < len(self.tokens) else None

    @property
    def last(self):
        """The token before the next one."""
        return self.tokens[self.at - 1]

    def says(self, *texts):
        """Whether the next token is one of these words and symbols."""
        return self.at < len(self.tokens) and self.tokens[self.at].says(*texts)

    def takes(self, *texts):
        """Takes one of these words and symbols, if it comes next."""
        if self.at < len(self.tokens) and self.tokens[self.at].says(*texts):
            self.at += 1
            return self.tokens[self.at - 1]
        return None

    def word(self, *texts):
        """Takes one of these words and symbols; anything else leaves the form."""
        return self.takes(*texts) or self.leave(" or ".join(f"`{text}`" for text in texts))

    def name(self, what):
        """Takes a name."""
        if self.here is None or self.here.kind is not Kind.NAME:
            self.leave(what)
        self.at += 1
        return self.last

    def number(self, what):
        """Takes a number."""
        if self.here is None or self.here.kind is not Kind.NUMBER:
            self.leave(what)
        self.at += 1
        return self.last

    def end(self):
        """Takes the line's end."""
        if self.here is not None:
            self.leave("the line's end")

    def leave(self, wanted, why=""):
        """Raises what is wrong here, where something else is wanted."""
        advice = why or self.advice(wanted)
        self.fail(f"{self.found()} where {wanted} must stand" + (f" ({advice})" if advice else ""))

    def fail(self, text):
        """Raises what is wrong at the next token."""
        column, width = (self.here.column, self.here.width) if self.here else (self.tokens[-1].end, 1)
        raise LeavesForm(column, width, f"{text}; the line is `{self.form}`", self.here is None)

    def found(self):
        """Returns what stands here."""
        return f"`{self.here.text}` stands" if self.here else "the line ends"

    def advice(self, wanted):
        """Returns more about what stands here, or nothing."""
        if self.here is None:
            return None
        for about in (about_pair, about_point, about_hyphen):
            more = about(self.tokens, self.at)
            if more:
                return more
        if self.here.says(",") and wanted == "`=`":
            return "each name has a line of its own"
        if self.here.kind is Kind.WORD and "name" in wanted:
            return f"`{self.here.text}` is a keyword, and no name"
        if "line's end" in wanted and self.here.kind is Kind.WORD and self.here.text in FORMS:
            return "each statement has a line of its own"
        if self.here.says("-") and self.at + 1 < len(self.tokens) and self.tokens[self.at + 1].kind is Kind.NUMBER:
            return "a number's sign stands directly before its digits"
        return about_word(self.here, re.findall("`([a-z]+)", wanted))


def cursor_of(tokens, version):
    """Returns a cursor after the first word of a line, which says its form."""
    cursor = Cursor(tokens, FORMS[tokens[0].text], version)
    cursor.at = 1
    return cursor
