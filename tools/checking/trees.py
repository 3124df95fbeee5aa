"""Expressions as trees, of lines that the program accepts."""

from dataclasses import dataclass, replace
from typing import Tuple

from checking.expressions import LEVELS
from checking.tokens import Kind, Token, spelled


@dataclass(frozen=True)
class Part:
    """A part of an expression: the token that makes it, its own parts, and all its tokens, parentheses among them."""

    head: Token
    parts: Tuple["Part", ...]
    tokens: Tuple[Token, ...]

    @property
    def text(self):
        """The part as it stands in its line."""
        return spelled(self.tokens)

    @property
    def is_constant(self):
        """Whether no name stands in it."""
        return all(token.kind is not Kind.NAME for token in self.tokens)

    def all(self):
        """Yields the part and those in it."""
        left = [self]
        while left:
            part = left.pop()
            yield part
            left += reversed(part.parts)

    def results(self):
        """Yields the parts of which one is the value of this one: those of choices."""
        if self.head.says("if", "min", "max"):
            for part in self.parts[self.head.says("if") :]:
                yield from part.results()
        else:
            yield self


def expression_of(statement):
    """Returns the tokens of the expression of a `let`, `next` or `out` line."""
    begin = "then" if statement.word == "out" else "="
    at = next(at for at, token in enumerate(statement.tokens) if token.says(begin))
    return statement.tokens[at + 1 :]


def tree_of(statement):
    """Returns the tree of a line's expression."""
    return Tree(expression_of(statement)).expression()


class Tree:
    """Reads a tree from its tokens, which are an expression."""

    def __init__(self, tokens):
        self.tokens = tokens
        self.at = 0

    def take(self):
        """Takes the next token."""
        self.at += 1
        return self.tokens[self.at - 1]

    def says(self, *texts):
        """Whether the next token is one of these words and symbols."""
        return self.at < len(self.tokens) and self.tokens[self.at].says(*texts)

    def made(self, start, head, *parts):
        """Returns a part that begins at a place and ends here."""
        return Part(head, parts, self.tokens[start : self.at])

    def expression(self):
        """Takes an expression."""
        return self.call(3) if self.says("if") else self.level(0)

    def call(self, count):
        """Takes a word or a symbol and its parts, each after one more token but for that of `if`."""
        start, head = self.at, self.take()
        parts = []
        for place in range(count):
            if place or not head.says("if"):
                self.take()
            parts.append(self.expression())
        if not head.says("if"):
            self.take()
        return self.made(start, head, *parts)

    def level(self, depth):
        """Takes operands with the operators of a level and of those that bind tighter."""
        if depth == len(LEVELS):
            return self.operand()
        start, left = self.at, self.level(depth + 1)
        while self.says(*LEVELS[depth]):
            head = self.take()
            left = self.made(start, head, left, self.level(depth + 1))
        return left

    def operand(self):
        """Takes an operand with the signs before it."""
        start = self.at
        if self.says("min", "max"):
            return self.call(2)
        head = self.take()
        if head.says("-", "not"):
            return self.made(start, head, self.operand())
        if head.says("("):
            inner = self.expression()
            self.take()
            return replace(inner, tokens=self.tokens[start : self.at])
        return self.made(start, head)
