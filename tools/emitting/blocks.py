"""The expressions of a task as C: each operator is a call of dbp_protocol.h."""

from checking.tokens import Kind, tokens_of
from checking.trees import Tree

OPERATORS = {
    "+": "dbp_add",
    "*": "dbp_mul",
    "/": "dbp_div",
    "%": "dbp_rem",
    "==": "dbp_equal",
    "!=": "dbp_unequal",
    "<": "dbp_less",
    "<=": "dbp_at_most",
    ">": "dbp_greater",
    ">=": "dbp_at_least",
    "and": "dbp_and",
    "or": "dbp_or",
    "not": "dbp_not",
    "min": "dbp_min",
    "max": "dbp_max",
    "if": "dbp_choose",
}
SIGNS = {1: "dbp_neg", 2: "dbp_sub"}  # what `-` is, by how many operands it has
MOST_PLAIN = 2**15 - 1  # numbers up to this one are of the type `int` everywhere
LEAST_VALUE = -(2**63)


def tree_of(expression):
    """Returns the tree of an expression, given as its canonical text."""
    return Tree(tokens_of(expression.encode("ascii"))).expression()


def names_in(tree):
    """Returns the names that stand in an expression."""
    return {part.head.text for part in tree.all() if part.head.kind is Kind.NAME}


def number_text(value):
    """Returns a number as C."""
    if value == LEAST_VALUE:
        return "INT64_MIN"
    return str(value) if abs(value) <= MOST_PLAIN else f"INT64_C({value})"


def called_by(tree):
    """Returns the function that makes an operator."""
    return SIGNS[len(tree.parts)] if tree.head.says("-") else OPERATORS[tree.head.text]


def operators_in(tree):
    """Returns how many operators stand in an expression."""
    return sum(bool(part.parts) for part in tree.all())


def expression_text(tree, names):
    """Returns an expression as C, in which each name of the document has one of C."""
    head = tree.head
    if head.kind is Kind.NAME:
        return names[head.text]
    if head.kind is Kind.NUMBER:
        return number_text(head.value)
    return f"{called_by(tree)}({', '.join(expression_text(part, names) for part in tree.parts)})"


def ordered_lets(lets):
    """Returns lets with their trees in the order of their lines, but each after those that it uses."""
    trees = {let.name: tree_of(let.expression) for let in lets}
    lines = {let.name: let for let in lets}
    uses = {name: [it for it in trees if it in used] for name, used in names_by_let(trees).items()}
    found, left = {}, [*reversed(trees)]
    while left:
        before = [it for it in uses[left[-1]] if it not in found]
        if before and left[-1] not in found:
            left += reversed(before)
        else:
            found.setdefault(left.pop())
    return [(lines[name], trees[name]) for name in found]


def names_by_let(trees):
    """Returns the names that stand in each tree."""
    return {name: names_in(tree) for name, tree in trees.items()}
