"""The tokens of a line, each with its place."""

import re
from enum import Enum
from functools import lru_cache
from typing import NamedTuple

from checking.language import GREATEST_VALUE, LEAST_VALUE, RESERVED

NAME = r"[A-Za-z_][A-Za-z0-9_]*"
SYMBOL = r"==|!=|<=|>=|[=<>+\-*/%(),.]"
# What makes no token is taken as a whole, so that it is shown as a whole.
OTHER = r"&&?|\|\|?|:=|."
PART = re.compile(rf"[ \t]*(?:({NAME})|(-?[0-9]+)({NAME})?|({SYMBOL})|({OTHER}))", re.DOTALL)
MOST_DIGITS = 19
MOST_KEPT = 1 << 15  # lines whose tokens are kept: a script has few different ones, and most stay when one is changed


class Kind(Enum):
    """What a token is; the parts of a line that make no token are BAD."""

    NAME = "name"
    WORD = "keyword"
    NUMBER = "number"
    SYMBOL = "symbol"
    BAD = "bad"


class Token(NamedTuple):
    """A token and its column; columns count bytes from 1."""

    kind: Kind
    text: str
    column: int

    @property
    def width(self):
        """How many bytes it has."""
        return len(self.text)

    @property
    def end(self):
        """The column after it."""
        return self.column + len(self.text)

    @property
    def is_wide(self):
        """Whether it is a number outside of 64 bits."""
        if self.kind is not Kind.NUMBER:
            return False
        is_long = len(self.text.lstrip("-0")) > MOST_DIGITS
        return is_long or not LEAST_VALUE <= self.value <= GREATEST_VALUE

    @property
    def value(self):
        """The value of a number, which may have any number of zeros before its digits."""
        digits = int(self.text.lstrip("-0") or "0")
        return -digits if self.text.startswith("-") else digits

    def says(self, *texts):
        """Whether it is a keyword or a symbol with one of these texts."""
        return self.text in texts and self.kind in (Kind.WORD, Kind.SYMBOL)


def spelled(tokens):
    """Returns tokens of one line as they stand there, with one space for those between."""
    parts = [tokens[0].text] if tokens else []
    for before, token in zip(tokens, tokens[1:]):
        parts.append(" " * (token.column > before.end) + token.text)
    return "".join(parts)


def code_of(text):
    """Returns a line's bytes before its comment, as characters of the same places."""
    return text.split(b"#", 1)[0].decode("latin-1")


@lru_cache(MOST_KEPT)
def tokens_of(text):
    """Returns the tokens of a line's bytes."""
    code, tokens, at = code_of(text).rstrip(" \t"), [], 0
    while at < len(code):
        found = PART.match(code, at)
        tokens.append(token_of(found, tokens[-1] if tokens else None))
        at = tokens[-1].end - 1
    return tuple(tokens)


def token_of(found, before):
    """Returns the token of a part of a line; a sign belongs to a number unless the token before it is an operand's end."""
    name, number, letters, symbol, other = found.groups()
    if name:
        return Token(Kind.WORD if name in RESERVED else Kind.NAME, name, found.start(1) + 1)
    if number and number[0] == "-" and ends_operand(before):
        return Token(Kind.SYMBOL, "-", found.start(2) + 1)
    if number:
        return Token(Kind.BAD if letters else Kind.NUMBER, number + (letters or ""), found.start(2) + 1)
    if symbol:
        return Token(Kind.SYMBOL, symbol, found.start(4) + 1)
    return Token(Kind.BAD, other, found.start(5) + 1)


def ends_operand(token):
    """Whether a `-` after this token can't be the sign of a number."""
    return token is not None and (token.kind in (Kind.NAME, Kind.NUMBER, Kind.BAD) or token.says(")"))
