"""The value of an expression, by docs/LANGUAGE.md, and which of its choices an evaluation takes.

A part of an expression becomes a call that takes the values of its names and returns its own. A part that doesn't count
isn't evaluated: the other branch of an `if`, and the right side of an `and` or `or` that the left one decides.
"""

from checking.expressions import COMPARISONS
from checking.language import GREATEST_VALUE, LEAST_VALUE
from checking.tokens import Kind


def saturated(value):
    """Returns the number of 64 bits that is nearest to a value."""
    return LEAST_VALUE if value < LEAST_VALUE else GREATEST_VALUE if value > GREATEST_VALUE else value


def quotient(a, b):
    """Returns `a / b`: truncated towards zero, 0 for a division by 0, and within 64 bits."""
    if b == 0:
        return 0
    value = abs(a) // abs(b)
    return saturated(value if (a < 0) == (b < 0) else -value)


def remainder(a, b):
    """Returns `a % b`, with the sign of `a`; 0 for a division by 0."""
    if b == 0:
        return 0
    value = abs(a) % abs(b)
    return -value if a < 0 else value


ARITHMETIC = {
    "+": lambda a, b: saturated(a + b),
    "-": lambda a, b: saturated(a - b),
    "*": lambda a, b: saturated(a * b),
    "/": quotient,
    "%": remainder,
}

RELATIONS = {
    "==": int.__eq__,
    "!=": int.__ne__,
    "<": int.__lt__,
    "<=": int.__le__,
    ">": int.__gt__,
    ">=": int.__ge__,
}

# What each kind of part may come to; an evaluation takes one of these, by its place in the list.
CHOICES = {
    "if": ("true", "false"),
    "and": ("left false", "right false", "both true"),
    "or": ("left true", "right true", "both false"),
    "min": ("the first is less", "the second is less"),
    "max": ("the first is greater", "the second is greater"),
    **dict.fromkeys(COMPARISONS, ("true", "false")),
}


def is_choice(part):
    """Whether a part comes to one of several choices."""
    return part.head.kind is not Kind.NUMBER and part.head.text in CHOICES and bool(part.parts)


def unseen(_):
    """Counts nothing: the call for each part whose choices aren't counted."""
    return ignore


def ignore(_):
    """Takes a choice, and does nothing."""


def evaluator(part, counting=unseen):
    """Returns the call that evaluates a part: `counting` gives for each choice the call that takes what it came to."""
    head, operands = part.head, [evaluator(it, counting) for it in part.parts]
    if not operands:
        return leaf(head)
    if is_choice(part):
        return MAKERS.get(head.text, relation)(head.text, *operands, counting(part))
    if len(operands) == 1:
        return negation(*operands) if head.text == "not" else opposite(*operands)
    return operation(ARITHMETIC[head.text], *operands)


def leaf(head):
    """Returns what evaluates a name or a number."""
    if head.kind is Kind.NAME:
        name = head.text
        return lambda values: values[name]
    number = head.value
    return lambda values: number


def negation(operand):
    """Returns what evaluates `not a`."""
    return lambda values: 0 if operand(values) else 1


def opposite(operand):
    """Returns what evaluates `- a`."""
    return lambda values: saturated(-operand(values))


def operation(compute, left, right):
    """Returns what evaluates an operation of arithmetic."""
    return lambda values: compute(left(values), right(values))


def relation(text, left, right, count):
    """Returns what evaluates a comparison."""
    holds = RELATIONS[text]

    def evaluate(values):
        value = holds(left(values), right(values))
        count(0 if value else 1)
        return 1 if value else 0

    return evaluate


def choice(_, condition, yes, no, count):
    """Returns what evaluates an `if`."""

    def evaluate(values):
        if condition(values):
            count(0)
            return yes(values)
        count(1)
        return no(values)

    return evaluate


def conjunction(_, left, right, count):
    """Returns what evaluates an `and`."""

    def evaluate(values):
        if not left(values):
            count(0)
            return 0
        value = 1 if right(values) else 0
        count(1 + value)
        return value

    return evaluate


def disjunction(_, left, right, count):
    """Returns what evaluates an `or`."""

    def evaluate(values):
        if left(values):
            count(0)
            return 1
        value = 1 if right(values) else 0
        count(2 - value)
        return value

    return evaluate


def extreme(text, first, second, count):
    """Returns what evaluates a `min` or a `max`. Of two equal values neither choice is taken."""
    is_before = int.__lt__ if text == "min" else int.__gt__

    def evaluate(values):
        a, b = first(values), second(values)
        if a != b:
            count(0 if is_before(a, b) else 1)
        return a if is_before(a, b) else b

    return evaluate


MAKERS = {"if": choice, "and": conjunction, "or": disjunction, "min": extreme, "max": extreme}
