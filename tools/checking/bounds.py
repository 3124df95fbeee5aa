"""Which states and lets can't come to the ends of 64 bits, so that the program needn't be asked for their values.

A bound is a size and a growth: after n occurrences of all tasks no value is larger, with either sign, than the size and
n times the growth. The bounds of states and outs are raised until each line keeps them, or has none.
"""

from dataclasses import dataclass

from checking.expressions import COMPARISONS
from checking.language import GREATEST_VALUE, MOST_OCCURRENCES
from checking.tokens import Kind
from checking.trace import row_of
from checking.trees import tree_of

TRUTHS = (*COMPARISONS, "and", "or", "not")
ROUNDS = 20  # after which a bound that still rises is none


@dataclass(frozen=True)
class Bound:
    """A size, and how much it grows with each occurrence."""

    size: int
    growth: int = 0

    @property
    def last(self):
        """The size after all occurrences that there may be."""
        return self.size + self.growth * (MOST_OCCURRENCES + 1)


def added(one, other):
    """Returns the bound of a sum or a difference."""
    return one and other and Bound(one.size + other.size, one.growth + other.growth)


def joined(one, other):
    """Returns the bound of what is one of two values."""
    return one and other and Bound(max(one.size, other.size), max(one.growth, other.growth))


def multiplied(one, other):
    """Returns the bound of a product; there is none if both grow."""
    if one is None or other is None or one.growth and other.growth:
        return None
    return Bound(one.size * other.size, one.growth * other.size + one.size * other.growth)


def rest(one, other):
    """Returns the bound of the rest of a division."""
    return other if one is None or other and not other.growth else one


def raised(bound, following):
    """Returns the bound of a state that may have another one after the next occurrence."""
    if bound is None or following is None:
        return None
    growth = max(bound.growth, following.growth, following.size - bound.size)
    return Bound(bound.size, growth)


OPERATORS = {"+": added, "-": added, "*": multiplied, "/": lambda one, _: one, "%": rest}


class Bounds:
    """The bounds of a document's names, by task and name; names that have none aren't there."""

    def __init__(self, document):
        self.tasks = document.tasks
        self.inputs = bounds_of_inputs(document)
        self.trees = {id(it): tree_of(it) for task in self.tasks for it in task.lines("let", "next", "out")}
        self.known = {}
        for task in self.tasks:
            for it in task.lines("state", "out"):
                self.known[task.name, it.name.text] = Bound(abs(it.value.value))
        for number in range(ROUNDS + len(self.known)):
            if not self.raise_all(is_last=number >= ROUNDS):
                break

    def raise_all(self, is_last):
        """Raises the bounds that a line doesn't keep, in the last rounds to none; returns whether there was one."""
        before = dict(self.known)
        for task in self.tasks:
            values = Values(self, task)
            for it in task.lines("next", "out"):
                key, found = (task.name, it.name.text), values.of(self.trees[id(it)])
                self.known[key] = raised(before[key], found) if it.word == "next" else joined(before[key], found)
        rising = [key for key, bound in self.known.items() if bound != before[key]]
        for key in rising if is_last else ():
            self.known[key] = None
        return rising


class Values:
    """The bounds of the names of a task, by those of its states and of the outs that it reads."""

    def __init__(self, bounds, task):
        self.bounds = bounds
        self.task = task
        self.declared = task.declared("state", "sense", "read", "let")
        self.known = {}

    def named(self, name):
        """Returns the bound of a name."""
        if name not in self.known:
            it = self.declared[name]
            if it.word == "sense":
                self.known[name] = self.bounds.inputs[it.source.text]
            elif it.word == "let":
                self.known[name] = self.of(self.bounds.trees[id(it)])
            else:
                key = (self.task.name, name) if it.word == "state" else (it.source.text, it.port.text)
                self.known[name] = self.bounds.known[key]
        return self.known[name]

    def of(self, part):
        """Returns the bound of a part of an expression, or nothing."""
        head = part.head
        if head.kind is Kind.NUMBER:
            return Bound(abs(head.value))
        if head.kind is Kind.NAME:
            return self.named(head.text)
        if head.says(*TRUTHS):
            return Bound(1)
        parts = [self.of(it) for it in part.parts[head.says("if") :]]
        if len(parts) == 1:
            return parts[0]
        return OPERATORS.get(head.text, joined)(*parts)


def bounds_of_inputs(document):
    """Returns the bounds of a document's inputs: of their first values, and of numbers as long as those in the trace."""
    columns = [cell.text for cell in row_of(document.rows[0]).cells] if document.rows else []
    digits = [0] * len(columns)
    for line in document.rows[1:]:
        digits = list(map(max, digits, map(len, line.text.split(b","))))
    longest = dict(zip(columns, digits))
    firsts = {name: abs(it.value.value) for name, it in document.declared("input").items()}
    return {name: Bound(max(first, 10 ** longest.get(name, 0))) for name, first in firsts.items()}


def bounded_names(document):
    """Returns the states and lets, by task and name, that can't come to an end of 64 bits."""
    bounds, found = Bounds(document), set()
    for task in document.tasks:
        values = Values(bounds, task)
        for name in task.declared("state", "let"):
            bound = values.named(name)
            if bound and bound.last < GREATEST_VALUE:
                found.add((task.name, name))
    return found
