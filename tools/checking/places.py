"""Faults of a line that has its form: it may not stand at its place, a number is outside, or there are too many."""

from enum import IntEnum

from checking.foreign import GOING_ON, LINE_WORDS, ONE_LINE, about_pair, about_word
from checking.language import BODY, COUNTED, COUNTS, FORMS, SPANS, STEP_FORMS
from checking.messages import Note, error_at
from checking.text import listed
from checking.tokens import Kind


class Section(IntEnum):
    """What stands at a place of a document."""

    HEADER = 0
    POLICY = 1
    UNTIL = 2
    DECLARATIONS = 3
    TASKS = 4
    TRACE = 5
    SCRIPT = 6
    END = 7


# The section in which the line after one of these words stands.
AFTER = {
    "dbp": Section.POLICY,
    "policy": Section.UNTIL,
    "until": Section.DECLARATIONS,
    "input": Section.DECLARATIONS,
    "event": Section.DECLARATIONS,
    "task": Section.TASKS,
    **{word: Section.TASKS for word in BODY},
    "trace": Section.TRACE,
    "script": Section.SCRIPT,
    "done": Section.END,
}

ENDS = ("trace", "script", "done")
ALLOWED = {
    Section.HEADER: ("dbp",),
    Section.POLICY: ("policy",),
    Section.UNTIL: ("until",),
    Section.DECLARATIONS: ("input", "event", "task", *ENDS),
    Section.TASKS: (*BODY, "task", *ENDS),
    Section.END: (),
}


def place_fault(statement, section, document):
    """Returns the message of a line that may not stand at its place, or nothing."""
    head = statement.head
    if head.kind is Kind.WORD and statement.word in ALLOWED[section]:
        return None
    if section is Section.END:
        note = Note(document.done_at, 1, "`done` stands here")
        return error_at(head, statement.line, 3, "no line with tokens may follow `done`", note)
    return error_at(head, statement.line, 3, about_place(statement, section))


def about_place(statement, section):
    """Returns what is wrong with a line that may not stand at its place."""
    word = statement.word
    if section in (Section.POLICY, Section.UNTIL):
        wanted = ALLOWED[section][0]
        which = "second" if wanted == "policy" else "third"
        return f"`{FORMS[wanted]}` must stand here: it is the {which} line with tokens"
    here = f"here may stand {listed(ALLOWED[section], 'or')}"
    if statement.head.kind is not Kind.WORD or word not in FORMS:
        return f"no line begins with `{word}` ({about_start(statement) or here})"
    if word in BODY:
        return f"`{word}` lines stand in the body of a task, after its `task` line; no task stands before this one"
    if word in ("input", "event"):
        return f"`{word}` lines stand before the first `task` line"
    return f"a document has one `{word}` line, at its start; {here}"


def count_fault(statement, document):
    """Returns the message of a line that is one past a count, or nothing."""
    word = statement.word
    body = document.tasks[-1].body if document.tasks else []
    counts = {
        "inputs": word == "input" and sum(it.word == "input" for it in document.declarations),
        "events": word == "event" and sum(it.word == "event" for it in document.declarations),
        "tasks": word == "task" and len(document.tasks),
        "body": word in BODY and len(body),
        "reads": word == "read" and sum(it.word == "read" for it in body),
        "links": word == "read" and len(document.reads),
        "outs": word == "out" and sum(it.word == "out" for it in body),
    }
    for what, count in counts.items():
        if count is not False and count >= COUNTS[what]:
            text = f"there are at most {COUNTS[what]} {COUNTED[what]}, and this is one more"
            return error_at(statement.head, statement.line, 6, text, detail=what)
    return None


def about_start(statement):
    """Returns more about a line that begins with no word of a line, or nothing."""
    tokens = statement.tokens
    pair = about_pair(tokens, 0)
    if pair:
        return pair
    if is_row(tokens):
        return "the rows of a trace stand after a line `trace`"
    if is_step(tokens):
        more = f"; {LINE_WORDS['end']}" if statement.word == "end" else ""
        return f"the steps of a script stand after a line `script`{more}"
    if statement.head.kind is Kind.NAME and len(tokens) > 1 and tokens[1].says("="):
        if len(tokens) > 4 and tokens[3].says(".") or len(tokens) > 2 and tokens[2].says("pre"):
            return f"a line begins with its kind, as `read {statement.word} = TASK.OUT`"
        return f"a line begins with its kind, as `let {statement.word} = E` or `next {statement.word} = E`"
    if may_go_on(statement.head):
        return f"{ONE_LINE}, and can't go on in a second one"
    return LINE_WORDS.get(statement.word.lower()) or about_word(statement.head, FORMS)


def may_go_on(token):
    """Whether a token may be the first of a line that is meant to go on with an expression."""
    return token.kind is Kind.NUMBER or token.says(*GOING_ON)


def is_row(tokens):
    """Whether a line is like a row of a trace."""
    return len(tokens) > 1 and tokens[1].says(",")


def is_step(tokens):
    """Whether a line is like a step of a script."""
    return len(tokens) > 1 and tokens[0].text in STEP_FORMS and tokens[1].kind is Kind.NAME


def number_fault(statement):
    """Returns the message of the first number of a line that is outside of its own limits, or nothing."""
    for word, token in statement.numbers.items():
        span = SPANS[word]
        if not span.least <= token.value <= span.greatest:
            text = f"the number after `{word}` is {token.value}; it must be from {span.least:,} to {span.greatest:,}"
            return error_at(token, statement.line, 6, text, detail="number")
    return None
