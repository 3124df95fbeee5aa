"""Fixes: what is to be changed where the text of a message names the cure.

A fix is a title and edits; an edit is a line, a column, how many bytes go there, and what comes in their place. The trial
.ci/tried/language_server.py has a document for each cure, and compares what tools/check says of it afterwards.
"""

import re

from checking.foreign import PAIRS, WORDS
from checking.tokens import code_of, spelled, tokens_of

MEANT = re.compile(r"did you mean `(\w+)`(?:\?(?! `\1` is )|, the only )")
DIFFERENCE = re.compile(r"did you mean `(\w+)`\? `([\w-]+)` is a difference")
HYPHENS = re.compile(r"so `([\w-]+)` is `(\w+)`")
LOWER_CASE = re.compile(r"words are in lower case: `(\w+)`")
WRITTEN = re.compile(r": write `([^`]+)`")
CHAIN = re.compile(r"\(write `([^`]+)`; in parentheses the first one is 0 or 1")
SIGN = re.compile(r"(?:equal|or equal|it|division) is `([^`\w]+)`")
IS_A_WORD = re.compile(r"`(and|or|not)` is a word here")
TRUTH = re.compile(r"so (?:true|false) is ([01])")
COMMENT = "a comment begins with `#`"
TWO_WORDS = "`else if` is two words"
LAST_LINE = "the last line is `done`"
OUT = re.compile(r"one is enough, as `(out (\w+) [^`]*)`")


class Line:
    """The line of a message, with its tokens."""

    def __init__(self, judged, message):
        self.judged = judged
        self.message = message
        lines = judged.document.lines
        self.text = lines[message.line - 1].text if message.line <= len(lines) else b""
        self.tokens = tokens_of(self.text)

    def fix(self, title, column, width, text):
        """Returns a fix that replaces a part of the line."""
        return {"title": title, "edits": [[self.message.line, column, width, text]]}

    def replaced(self, text):
        """Returns a fix that replaces what the message is about."""
        return self.fix(f"Write `{text}`", self.message.column, self.message.width, text)

    @property
    def at(self):
        """The index of the token at the message's column, or that of the one after it."""
        return next((at for at, it in enumerate(self.tokens) if it.end > self.message.column), len(self.tokens))

    def token_before(self, is_wanted):
        """Returns the last token, up to the one of the message, that is wanted; or nothing."""
        return next((it for it in reversed(self.tokens[: self.at + 1]) if is_wanted(it)), None)


def meant(line):
    """Returns the fix of a name or a word that is meant for another."""
    found = DIFFERENCE.search(line.message.text)
    if found:
        return line.fix(f"Write `{found[1]}`", line.message.column, len(found[2]), found[1])
    found = MEANT.search(line.message.text)
    return line.replaced(found[1]) if found else None


def hyphenated(line):
    """Returns the fix of a name with hyphens."""
    found = HYPHENS.search(line.message.text)
    at = code_of(line.text).find(found[1], max(0, line.message.column - 1 - len(found[1]))) if found else -1
    return line.fix(f"Write `{found[2]}`", at + 1, len(found[1]), found[2]) if at >= 0 else None


def lower_case(line):
    """Returns the fix of a word in capitals."""
    found = LOWER_CASE.search(line.message.text)
    token = line.token_before(lambda it: it.text.lower() == found[1] != it.text) if found else None
    return line.fix(f"Write `{found[1]}`", token.column, token.width, found[1]) if token else None


def written(line):
    """Returns the fix of a comparison that is written out in the text; parentheses around the whole of it stay."""
    found = WRITTEN.search(line.message.text)
    if found is None:
        return None
    end = line.message.column + line.message.width
    tokens = [it for it in line.tokens if line.message.column <= it.column < end]
    return line.replaced(f"({found[1]})" if is_in_parentheses(tokens) else found[1])


def is_in_parentheses(tokens):
    """Whether the first token is a parenthesis that the last one closes."""
    depth = 0
    for at, it in enumerate(tokens):
        depth += it.says("(") - it.says(")")
        if depth == 0:
            return at > 0 and at == len(tokens) - 1
    return False


def chain(line):
    """Returns the fix of two comparisons in a row: the two that the text has, in place of the tokens that make them."""
    found = CHAIN.search(line.message.text)
    tokens, last = line.tokens, line.at
    for start in range(last) if found else ():
        left = spelled(tokens[start:last])
        for end in range(last + 1, len(tokens) + 1) if found[1].startswith(f"{left} and ") else ():
            rest = found[1][len(left) + len(" and ") :]
            if any(spelled(tokens[middle:end]) == rest for middle in range(start + 1, last)):
                column = tokens[start].column
                return line.fix(f"Write `{found[1]}`", column, tokens[end - 1].end - column, found[1])
    return None


def sign(line):
    """Returns the fix of a sign of another language."""
    found = SIGN.search(line.message.text)
    return pair(line, found[1]) if found else None


def pair(line, wanted):
    """Returns the fix of a sign that is two tokens here, or of one token."""
    for first in (line.at - 1, line.at):
        two = line.tokens[max(first, 0) : first + 2]
        if len(two) == 2 and two[0].end == two[1].column and two[0].text + two[1].text in PAIRS:
            return line.fix(f"Write `{wanted}`", two[0].column, two[1].end - two[0].column, wanted)
    token = line.token_before(lambda it: it.text == "=" or it.text.lower() in WORDS)
    return line.fix(f"Write `{wanted}`", token.column, token.width, wanted) if token else None


def word(line):
    """Returns the fix of a sign for which there is a word."""
    found = IS_A_WORD.search(line.message.text)
    if found is None:
        return None
    after = line.text[line.message.column + line.message.width - 1 :]
    return line.replaced(found[1] + " " * (after[:1] not in (b"", b" ", b"\t")))


def truth(line):
    """Returns the fix of a truth value."""
    found = TRUTH.search(line.message.text)
    return line.replaced(found[1]) if found else None


def comment(line):
    """Returns the fix of a comment as in another language."""
    return pair(line, "#") if COMMENT in line.message.text else None


def else_if(line):
    """Returns the fix of `elsif`."""
    return line.replaced("else if") if TWO_WORDS in line.message.text else None


def delayed(line):
    """Returns the fix of a read that needs a delay."""
    return line.fix("Read with `pre`", line.message.column, 0, "pre ") if line.message.code == 18 else None


def undelayed(line):
    """Returns the fix of a read that needs no delay: `pre` and its number go."""
    if line.message.name != "DelayedDownward":
        return None
    column = line.message.column
    source = next(it for it in line.tokens if it.column > column and it.text[0] not in "0123456789")
    return line.fix("Read without `pre`", column, source.column - column, "")


def last_line(line):
    """Returns the fix of a document without `done`: a new line, or the last one if another word stands there."""
    message, judged = line.message, line.judged
    if message.code == 7 and message.notes:
        number = message.notes[-1].line
        token = tokens_of(judged.document.lines[number - 1].text)[:1]
        if number == last_number(judged) and token and "`done`" in message.notes[-1].text:
            return {"title": "Write `done`", "edits": [[number, token[0].column, token[0].width, "done"]]}
    if message.code == 7:
        start = "" if judged.text.endswith(b"\n") else "\n"
        return line.fix("Add the line `done`", 1, 0, f"{start}done\n")
    return line.replaced("done") if LAST_LINE in message.text and message.line == last_number(judged) else None


def last_number(judged):
    """Returns the number of the last line that has more than a comment."""
    return max((it.number for it in judged.document.lines if code_of(it.text).strip(" \t")), default=0)


def first_out(line):
    """Returns the fix of a task without an out, if the name is free."""
    found = OUT.search(line.message.text)
    task = next((it for it in line.judged.document.tasks if it.head.line == line.message.line), None)
    if found is None or task is None or found[2] in task.declared("state", "sense", "read", "let"):
        return None
    number = max((it.line for it in task.body), default=task.head.line)
    width = len(line.judged.document.lines[number - 1].text)
    return {"title": f"Add `{found[1]}`", "edits": [[number, width + 1, 0, f"\n  {found[1]}"]]}


CURES = (meant, hyphenated, lower_case, written, chain, word, sign, truth, comment, else_if, delayed, undelayed, last_line,
         first_out)


def fixes_of(judged, message):
    """Returns the fix of a message in a list, if its text names a cure."""
    line = Line(judged, message)
    return [fix for fix in (cure(line) for cure in CURES) if fix][:1]
