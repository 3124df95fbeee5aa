"""Signs and words of other languages, and what is written for them here."""

import re

from checking.nearest import nearest
from checking.tokens import Kind

NO_TOKENS = {
    "&": "`and` is a word here",
    "&&": "`and` is a word here",
    "|": "`or` is a word here",
    "||": "`or` is a word here",
    "!": "`not` is a word here, and unequal is `!=`",
    ":=": "a line sets its name by `=`",
    ":": "there are no types, and a choice is written `if E then E else E`",
    "?": "a choice is written `if E then E else E`",
    ";": "no sign ends a line, and a comment begins with `#`",
    "{": "there are no braces: a body goes to the next `task`, `trace`, `script` or `done`",
    "}": "there are no braces: a body goes to the next `task`, `trace`, `script` or `done`",
    "[": "there are no brackets and no lists",
    "]": "there are no brackets and no lists",
    '"': "there are no texts",
    "'": "there are no texts",
    "^": "there are no powers and no operators on bits",
    "~": "there are no operators on bits",
    "\\": "a line doesn't go on: each statement stands on one line",
}

COMMENT = "a comment begins with `#`"
WHOLE = "values are whole numbers, without a point"
ONE_LINE = "a statement stands on one line"
CHANGED = "a state is changed by a line `next NAME = E`"

# Two tokens side by side that are one sign elsewhere.
PAIRS = {
    "//": COMMENT,
    "/*": COMMENT,
    "--": COMMENT + ", and `--` is two signs",
    "<>": "unequal is `!=`",
    "**": "there are no powers",
    "->": "a first value stands in `out NAME = V then E` or in a `state`",
    "=>": "greater or equal is `>=`",
    "=<": "less or equal is `<=`",
    "++": CHANGED,
    "+=": CHANGED,
    "-=": CHANGED,
    "*=": CHANGED,
    "/=": "unequal is `!=`",
    "=!": "unequal is `!=`",
    "!==": "unequal is `!=`",
    "===": "equal is `==`",
    "<-": "a line sets its name by `=`",
    "<<": "a shift to the left by 2 is `* 4`",
    ">>": "a shift to the right by 2 is `/ 4`, which rounds towards 0",
}

# Words of other languages in an expression.
WORDS = {
    "elsif": "`else if` is two words",
    "elseif": "`else if` is two words",
    "elif": "`else if` is two words",
    "end": "an `if` has no end: its `else` takes all that follows",
    "endif": "an `if` has no end: its `else` takes all that follows",
    "fi": "an `if` has no end: its `else` takes all that follows",
    "xor": "of two values that are 0 or 1 it is `!=`",
    "is": "equal is `==`",
    "div": "a division is `/`",
    "rem": "the rest of a division is `%`",
    "true": "a value is true if it isn't 0, so true is 1",
    "false": "a value is true if it isn't 0, so false is 0",
    "mod": "the rest of a division is `%`",
}

# Calls of other languages.
CALLS = {
    "abs": "max(x, -x)",
    "clamp": "min(max(x, LEAST), GREATEST)",
    "limit": "min(max(x, LEAST), GREATEST)",
    "sat": "min(max(x, LEAST), GREATEST)",
}

KEPT = "a value that is kept is a `state`, any other one a `let`"
REPEATED = "there are no loops: a task occurs again and again, and a state keeps a value for the next time"
OF_TASKS = "it is a part of a `task` line"
OF_IF = "`if E then E else E` is an expression, as in `let NAME = if E then E else E`"
GIVEN = "a line `out NAME = V then E` gives a value to readers"

# Words with which lines begin in other languages, or by mistake.
LINE_WORDS = {
    "end": "the last line is `done`, and a task needs no end",
    "begin": "a task's body follows its line",
    **dict.fromkeys(("var", "const", "int", "bool", "float", "double", "real", "local", "def"), KEPT),
    **dict.fromkeys(("for", "while", "loop", "repeat"), REPEATED),
    **dict.fromkeys(("every", "on", "from", "when", "prio", "deadline", "cost", "cpu", "priority", "period"), OF_TASKS),
    **dict.fromkeys(("node", "block", "module", "process", "thread"), "a line `task NAME every N cost N` begins a task"),
    **dict.fromkeys(("if", "switch", "case"), OF_IF),
    **dict.fromkeys(("output", "return", "write", "print", "emit"), GIVEN),
    **dict.fromkeys(("set", "assign"), CHANGED),
    **dict.fromkeys(("function", "fn", "proc", "sub"), "there are no functions: a `let` names a value"),
    **dict.fromkeys(("import", "include", "use"), "a document stands alone"),
}
# Words of others for those that stand in lines here.
MEANT = {
    "period": "every",
    "offset": "from",
    "phase": "from",
    "delay": "from",
    "priority": "prio",
    "wcet": "cost",
    "budget": "cost",
    "while": "when",
    "guard": "when",
    "enable": "when",
    "core": "cpu",
    "processor": "cpu",
    "affinity": "cpu",
    "rm": "fp",
    "rms": "fp",
    "dm": "fp",
    "dms": "fp",
}
GOING_ON = frozenset("then else and or + - * / % == != < <= > >= ( ) ,".split())

NUMBER_BASES = {"x": 16, "b": 2, "o": 8}


def about_no_token(text):
    """Returns what is to be written for a part that makes no token."""
    if text[0].isdigit() or text[0] == "-":
        return about_number(text)
    advice = NO_TOKENS.get(text)
    return f"`{text}` is no sign of the language" + (f": {advice}" if advice else "")


def about_number(text):
    """Returns what is to be written for a number that goes on with letters."""
    sign, digits = ("-", text[1:]) if text.startswith("-") else ("", text)
    start = f"`{text}` is neither a number nor a name"
    base = NUMBER_BASES.get(digits[1:2].lower()) if digits.startswith("0") else None
    try:
        if base:
            return f"{start}: numbers are decimal digits, so it is {sign}{int(digits, 0)}"
    except ValueError:
        pass
    if re.fullmatch(r"[0-9]+(_[0-9]+)+", digits):
        return f"{start}: digits stand together, as {sign}{digits.replace('_', '')}"
    if re.fullmatch(r"[0-9]+[eE][0-9]+", digits):
        return f"{start}: a number has all its digits, and no exponent"
    rule = "no letter and no `_` follows a number directly"
    return f"{start}: {rule}; a name begins with a letter or `_`, and ticks have no unit"


def about_pair(tokens, at):
    """Returns what is to be written for two tokens side by side that are one sign elsewhere, or nothing."""
    for first in (at - 1, at):
        pair = tokens[max(0, first) : first + 2]
        if len(pair) == 2 and pair[0].end == pair[1].column:
            advice = PAIRS.get(pair[0].text + pair[1].text)
            if advice:
                return advice
    return None


def about_point(tokens, at):
    """Returns what is to be written if a token is part of a number with a point, or nothing."""
    for first in range(max(0, at - 2), at + 1):
        three = tokens[first : first + 3]
        if len(three) == 3 and three[1].says(".") and three[0].kind is Kind.NUMBER and three[2].kind is Kind.NUMBER:
            return f"`{three[0].text}.{three[2].text}` has a point: {WHOLE}"
    return None


def hyphenated(tokens, at):
    """Returns the name with hyphens that begins at a token, if nothing stands between its parts, or nothing."""
    parts = [tokens[at]]
    for token in tokens[at + 1 :]:
        if token.column != parts[-1].end or token.kind is Kind.SYMBOL and token.text != "-":
            break
        parts.append(token)
    whole = "".join(it.text for it in parts)
    return whole if re.fullmatch(r"[A-Za-z_]\w*(-\w+)+", whole) else None


def about_hyphen(tokens, at):
    """Returns what is to be written if a token is a hyphen within a name, or nothing."""
    whole = hyphenated(tokens, at - 1) if tokens[at].says("-") and at > 0 else None
    if whole is None:
        return None
    return f"a name has letters, digits and `_`, so `{whole}` is `{whole.replace('-', '_')}`"


def about_word(token, words):
    """Returns which of the words that may stand at a place a token may be meant for, or nothing."""
    if token.kind is not Kind.NAME or in_lower_case(token, words):
        return in_lower_case(token, words)
    meant = MEANT.get(token.text.lower())
    meant = meant if meant in words else nearest(token.text, words)
    return f"did you mean `{meant}`?" if meant else None


def in_lower_case(token, words):
    """Returns how a word is written that stands in capitals, or nothing."""
    word = token.text.lower()
    return f"words are in lower case: `{word}`" if token.kind is Kind.NAME and word in words else None


def begins_comment(tokens):
    """Whether signs stand in a line that begin a comment in other languages."""
    return any(
        first.end == second.column and first.text + second.text in ("//", "/*", "--")
        for first, second in zip(tokens, tokens[1:])
    )
