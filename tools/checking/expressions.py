"""Expressions: which names they use, and where they leave their form."""

from checking.cursor import LeavesForm
from checking.foreign import CALLS, OF_IF, WORDS, about_word, in_lower_case
from checking.language import FORMS, RESERVED
from checking.tokens import Kind, spelled

OPERAND = "an expression (a number, a name, `(`, `-`, `not`, `min`, `max`)"
COMPARISONS = ("==", "!=", "<", "<=", ">", ">=")
# From the loosest to the tightest.
LEVELS = (("or",), ("and",), COMPARISONS, ("+", "-"), ("*", "/", "%"))
LEVEL_OF = {text: depth for depth, texts in enumerate(LEVELS) for text in texts}


def expression(cursor, names):
    """Takes an expression, and adds the tokens of its names to a list."""
    if not cursor.takes("if"):
        level(cursor, names, 0)
        return
    expression(cursor, names)
    after(cursor, "then")
    expression(cursor, names)
    after(cursor, "else")
    expression(cursor, names)


def level(cursor, names, least):
    """Takes operands with the operators between them that are of a level or bind tighter."""
    start = cursor.at
    operand(cursor, names)
    while level_of(cursor.here) >= least:
        depth, middle = level_of(cursor.here), cursor.at + 1
        cursor.at = middle
        level(cursor, names, depth + 1)
        if LEVELS[depth] is COMPARISONS and cursor.says(*COMPARISONS):
            cursor.leave("another operator", about_chain(cursor, start, middle))


def level_of(token):
    """Returns the level of an operator between two operands, or -1 for what is none."""
    if token is None or token.kind not in (Kind.SYMBOL, Kind.WORD):
        return -1
    return LEVEL_OF.get(token.text, -1)


def about_chain(cursor, start, middle):
    """Returns how two comparisons in a row are written; the first one's operands begin at two places of the tokens."""
    last = cursor.at
    cursor.at += 1
    try:
        level(cursor, [], level_of(cursor.tokens[last]) + 1)
        chain = f"`{spelled(cursor.tokens[start:last])} and {spelled(cursor.tokens[middle : cursor.at])}`"
    except LeavesForm:
        chain = "`A < B and B < C`"
    cursor.at = last
    return f"write {chain}; in parentheses the first one is 0 or 1, and that is compared"


def operand(cursor, names):
    """Takes an operand with the signs before it."""
    while cursor.takes("-", "not"):
        pass
    here = cursor.here
    if cursor.takes("("):
        expression(cursor, names)
        close(cursor, here)
    elif cursor.takes("min", "max"):
        after_call(cursor, names, here)
    elif here is not None and here.kind in (Kind.NUMBER, Kind.NAME):
        cursor.at += 1
        if here.kind is Kind.NAME:
            names.append(here)
    elif cursor.says("if"):
        cursor.leave(OPERAND, "an `if` that is an operand needs parentheses")
    else:
        cursor.leave(OPERAND, about_operand(cursor))


def about_operand(cursor):
    """Returns more about what stands in the place of an operand."""
    if cursor.here is None or cursor.advice("") or cursor.here.kind is not Kind.WORD:
        return ""
    if cursor.says("pre"):
        return "`pre` stands in `read` lines alone; a state keeps a task's own values"
    return f"`{cursor.here.text}` is a keyword, and no name"


def after_call(cursor, names, call):
    """Takes the two arguments of `min` or `max`."""
    if not cursor.says("("):
        cursor.leave("`(`", f"it is `{call.text}(E, E)`")
    opened = cursor.takes("(")
    expression(cursor, names)
    if cursor.says(")"):
        cursor.leave("`,`", f"`{call.text}` takes two expressions: `{call.text}(E, E)`")
    after(cursor, ",")
    expression(cursor, names)
    if cursor.says(","):
        cursor.leave("`)`", f"`{call.text}` takes two expressions: `{call.text}(E, E)`")
    close(cursor, opened)


def after(cursor, text):
    """Takes a word or symbol that comes after an expression."""
    if not cursor.takes(text):
        cursor.leave(end_of(text), about_rest(cursor))


def end_of(text):
    """Returns what may come after an expression that a word or symbol ends."""
    return f"`{text}` or an operator"


def close(cursor, opened):
    """Takes the parenthesis that closes another."""
    if not cursor.takes(")"):
        cursor.leave(end_of(")"), about_rest(cursor) or f"for the `(` in column {opened.column}")


def whole(cursor, names):
    """Takes an expression that goes to the line's end."""
    expression(cursor, names)
    if cursor.here is not None:
        cursor.leave("an operator or the line's end", about_rest(cursor))


def about_rest(cursor):
    """Returns more about what stands after an expression, or nothing."""
    here, before = cursor.here, cursor.last
    if here is None or cursor.advice(""):
        return ""
    if in_lower_case(before, RESERVED):
        return in_lower_case(before, RESERVED)
    if here.says("="):
        return "equal is `==`"
    if here.says("if"):
        return OF_IF
    if here.says(")"):
        return "no parenthesis is open"
    if here.says("(") and before.kind is Kind.NAME:
        meant = CALLS.get(before.text.lower())
        more = f"; `{before.text}(x)` is `{meant}`" if meant else ""
        return f"`{before.text}` can't be called: there are `min(E, E)` and `max(E, E)` alone{more}"
    if here.says(".") and before.kind is Kind.NAME:
        return "the out of a task gets a name by a line `read NAME = TASK.OUT`"
    if here.kind is Kind.WORD and here.text not in FORMS:
        return f"`{here.text}` is a keyword, and no operator"
    return WORDS.get(here.text.lower()) or about_word(here, ("and", "or")) or ""
