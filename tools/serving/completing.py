"""Words and names that may stand at a place: those with which the line keeps its form.

Each word of the language is tried after the tokens before the place. A name is tried too, and where the line then has it says
of which kind it is.
"""

from checking.cursor import LeavesForm, cursor_of
from checking.language import FORMS, RESERVED, STEP_FORMS
from checking.names import VALUES
from checking.places import ALLOWED, Section
from checking.statements import FORM_OF, Statement
from checking.steps import fits
from checking.tokens import Kind, Token, tokens_of
from checking.trace import row_of

OF_PARTS = {"T": "task", "W": "task", "R": "read", "P": "out"}


class Place:
    """A place in a line: the tokens before it, and the part of a word that stands there already."""

    def __init__(self, version, number, column):
        self.version = version
        self.number = number
        self.before = version.line(number)[: column - 1]
        tokens = tokens_of(self.before)
        is_begun = bool(tokens) and tokens[-1].end == column and tokens[-1].kind in (Kind.NAME, Kind.WORD)
        self.tokens = tokens[:-1] if is_begun else tokens
        self.start = tokens[-1].column if is_begun else column
        self.width = column - self.start

    @property
    def is_open(self):
        """Whether a word may begin here: not in a comment, and not within a number."""
        last = self.tokens[-1] if self.tokens else None
        is_number = last is not None and last.kind in (Kind.NUMBER, Kind.BAD) and last.end == self.start
        return b"#" not in self.before and not is_number


def completions(version, number, column):
    """Returns the place, and the words and names that may stand there: each a text, a kind, and the line that declares it."""
    place, section = Place(version, number, column), version.section(number)
    if section is Section.TRACE:
        return place, [*of_header(place), *(word_item(it) for it in ("script", "done") if not place.tokens)]
    if not place.is_open or section is Section.END:
        return place, []
    if section is Section.SCRIPT:
        return place, of_script(place)
    if not place.tokens:
        return place, [word_item(it) for it in ALLOWED[section]]
    return place, [*of_words(place), *of_names(place)]


def word_item(word):
    """Returns a word as what may stand."""
    return word, "word", None


def statement_with(place, token):
    """Returns the statement of the tokens before a place and one more, or nothing if they leave the form there."""
    tokens = (*place.tokens, token)
    if tokens[0].kind is not Kind.WORD or tokens[0].text not in FORMS:
        return None
    statement = Statement(place.number, tokens[0], tokens=tokens)
    try:
        FORM_OF[statement.word](cursor_of(tokens, place.version.document.version), statement)
    except LeavesForm as leaves:
        return statement if leaves.is_at_end else None
    return statement


def of_words(place):
    """Returns the words that may stand at a place of a line."""
    tried = (Token(Kind.WORD, word, place.start) for word in sorted(RESERVED))
    return [word_item(it.text) for it in tried if statement_with(place, it) is not None]


def of_names(place):
    """Returns the names that may stand at a place of a line."""
    tried = Token(Kind.NAME, "name", place.start)
    statement = statement_with(place, tried)
    if statement is None:
        return []
    document, task = place.version.document, place.version.names.task_at(place.number)
    if statement.condition is tried or statement.source is tried and statement.word == "sense":
        return declared_items(document.declared("input"))
    if statement.source is tried:
        return declared_items(document.declared("event") if statement.word == "task" else readable(document, task))
    if statement.port is tried:
        writer = document.named_tasks.get(statement.source.text)
        return declared_items(writer.declared("out")) if writer is not None else []
    if task is None:
        return []
    if statement.name is tried:
        return declared_items(states_left(task, place.number)) if statement.word == "next" else []
    return declared_items(task.declared(*VALUES)) if tried in statement.names else []


def readable(document, task):
    """Returns the lines of the tasks that a task may read."""
    return {name: it.head for name, it in document.named_tasks.items() if it is not task}


def states_left(task, number):
    """Returns the states of a task that no other line has a `next` of."""
    taken = {it.name.text for it in task.lines("next") if it.line != number}
    return {name: it for name, it in task.declared("state").items() if name not in taken}


def declared_items(found):
    """Returns declared names as what may stand."""
    return [(name, it.word, it) for name, it in found.items()]


def of_header(place):
    """Returns the names that may stand in the header of the trace."""
    document, rows = place.version.document, place.version.document.rows
    if rows and rows[0].number < place.number:
        return []
    if b"," not in place.before:
        return [word_item("time")]
    cells = {it.text for it in row_of(rows[0]).cells} if rows and rows[0].number == place.number else set()
    found = document.declared("input", "event")
    return declared_items({name: it for name, it in found.items() if name not in cells})


def of_script(place):
    """Returns the words and names that may stand at a place of a step."""
    tokens, document = place.tokens, place.version.document
    if not tokens:
        return [word_item(it) for it in STEP_FORMS]
    found = {}
    for form in map(str.split, STEP_FORMS.get(tokens[0].text, ())):
        if len(tokens) >= len(form) or not all(map(fits, form[1:], tokens[1:])):
            continue
        part = form[len(tokens)]
        if part == "pre":
            found["pre"] = word_item("pre")
        elif part in OF_PARTS:
            found.update((it[0], it) for it in of_part(document, tokens, OF_PARTS[part]))
    return [*found.values()]


def of_part(document, tokens, word):
    """Returns the tasks, or the reads or outs of the task of a step."""
    if word == "task":
        return declared_items({name: it.head for name, it in document.named_tasks.items()})
    task = document.named_tasks.get(tokens[1].text)
    return declared_items(task.declared(word)) if task is not None else []
