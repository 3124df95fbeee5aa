"""Faults of the script's lines: steps without a form, and names that the document doesn't have."""

from dataclasses import replace

from checking.foreign import about_word
from checking.language import GREATEST_DELAY, GREATEST_SLOT, STEP_FORMS
from checking.messages import error, error_at
from checking.text import listed, what_there_is
from checking.tokens import Kind

FORM = {"T": "a task", "W": "a task", "R": "a read", "P": "an out", "S": "a slot", "N": "a delay", "pre": "`pre`"}


def step_faults(document):
    """Returns the messages of the script's lines, in their order; the lines of a trace are told once."""
    found, known, is_in_trace = [], {}, False
    for step in document.steps:
        text = document.lines[step.line - 1].text
        if text not in known:
            known[text] = form_fault(step) or name_fault(step, document)
        fault = known[text]
        if fault and not (is_in_trace and fault.code == 27 and step.tokens[0].text not in STEP_FORMS):
            found.append(replace(fault, line=step.line))
        is_in_trace = is_in_trace or step.is_trace
    return found


def no_script(document):
    """Returns the message of a document without a script section."""
    return error(document.done_at or 1, 1, 29, "the document has no line `script`, and so no steps to take", width=4)


def form_fault(step):
    """Returns the message of a line that has none of the forms of steps, or nothing."""
    tokens, word = step.tokens, step.tokens[0].text
    if step.is_trace:
        text = "`trace` is no step: all lines from `script` to `done` are steps, so the trace must stand before it"
        return error_at(tokens[0], step.line, 27, text)
    if word not in STEP_FORMS:
        meant = about_word(tokens[0], STEP_FORMS)
        there = f"{meant} the steps are" if meant else "there are"
        return error_at(tokens[0], step.line, 27, f"no step begins with `{word}`: {there} {listed(STEP_FORMS)}")
    left = [leaves(form.split(), tokens) for form in STEP_FORMS[word]]
    if None in left:
        return None
    place = max(place for place, _ in left)
    wanted = " or ".join(dict.fromkeys(wanted for at, wanted in left if at == place))
    forms = listed(STEP_FORMS[word], "or")
    if place < len(tokens):
        text = f"`{tokens[place].text}` stands where {wanted} must stand; the step is {forms}"
        return error_at(tokens[place], step.line, 27, text)
    text = f"the line ends where {wanted} must stand; the step is {forms}"
    return error(step.line, tokens[-1].end, 27, text)


def leaves(form, tokens):
    """Returns the place at which tokens leave a form, and what must stand there, or nothing."""
    for place, part in enumerate(form[1:], 1):
        if place == len(tokens) or not fits(part, tokens[place]):
            return place, about_part(part)
    return (len(form), "the line's end") if len(tokens) > len(form) else None


def about_part(part):
    """Returns what must stand for a part of a form."""
    if part == "S":
        return f"the number of a slot, from 0 to {GREATEST_SLOT},"
    if part == "N":
        return f"a delay, from 1 to {GREATEST_DELAY},"
    return "`pre`" if part == "pre" else f"the name of {FORM[part]}"


def fits(part, token):
    """Whether a token may stand for a part of a form."""
    if part == "pre":
        return token.says("pre")
    if part == "S":
        return token.kind is Kind.NUMBER and 0 <= token.value <= GREATEST_SLOT
    if part == "N":
        return token.kind is Kind.NUMBER and 1 <= token.value <= GREATEST_DELAY
    return token.kind is Kind.NAME


def name_fault(step, document):
    """Returns the message of a step whose names the document doesn't have, or nothing."""
    tokens, tasks = step.tokens, document.named_tasks
    named = [tokens[1]] + [tokens[-1]] * (tokens[0].text == "claim")
    for token in named:
        if token.text not in tasks:
            if document.hides_names or token.text in document.doubtful:
                return None
            there = what_there_is("task", tasks, wrong=token.text)
            return error_at(token, step.line, 28, f"`{token.text}` is no task: {there}")
    task = tasks[tokens[1].text]
    if tokens[0].text == "claim":
        return link_fault(step, task, document)
    kind = {"look": "read", "take": "read", "put": "out"}.get(tokens[0].text)
    names = task.declared(kind) if kind else {}
    if kind is None or tokens[2].text in names or tokens[2].text in document.doubtful:
        return None
    there = what_there_is(kind, names, task.name, tokens[2].text)
    return error_at(tokens[2], step.line, 28, f"`{tokens[2].text}` is no {kind} of `{task.name}`: {there}")


def link_fault(step, task, document):
    """Returns the message of a claim of no link, or nothing."""
    claims = claims_of(task)
    if canonical(step) in claims or step.tokens[-1].text in document.doubtful:
        return None
    there = f"its claims are {listed(claims, 'and')}" if claims else "it reads no task"
    text = f"no read of `{task.name}` has this task and this delay: {there}"
    first, last = step.tokens[2], step.tokens[-1]
    return error(step.line, first.column, 28, text, width=last.end - first.column)


def claims_of(task):
    """Returns the claims for the links into a task, in the order of its reads."""
    return list(dict.fromkeys(claim_text(task.name, read.delay, read.source.text) for read in task.lines("read")))


def claim_text(reader, delay, writer):
    """Returns a claim as the program prints it."""
    return f"claim {reader} {'pre ' if delay else ''}{f'{delay} ' if delay > 1 else ''}{writer}"


def canonical(step):
    """Returns a step as the program prints it: a delay of 1 without its number, numbers without zeros."""
    texts = [str(it.value) if it.kind is Kind.NUMBER else it.text for it in step.tokens]
    return " ".join(texts).replace(" pre 1 ", " pre ")
