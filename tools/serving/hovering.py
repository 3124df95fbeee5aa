"""What is said of a name, a word or a number that one points at."""

from checking.language import FORMS, STEP_FORMS, task_form
from checking.names import SAID
from checking.places import Section
from checking.tokens import Kind
from pictures.service import rank_order
from pictures.words import about_task
from responses.bounds import BEYOND, demands_of
from responses.numbers import decimal
from serving.lengths import time_text

TIMED = ("until", "every", "from", "deadline", "cost", "at")  # words before numbers of ticks
REFUSED = "The document is refused, so no more is known of it."


def about_place(version, facts, tick, number, column):
    """Returns the paragraphs about what stands at a column of a line, with its place; or nothing."""
    name = version.name_at(number, column)
    if name is not None:
        declared = version.names.declared(name)
        place = version.names.place_at(number, column)
        token = version.token_at(number, column)
        at = (place.column, len(name.text)) if place is not None else (token.column, token.width)
        return declared and (at, about_name(version, facts, tick, name, declared))
    token = version.token_at(number, column)
    if token is None:
        return about_cell(version, tick, number, column)
    found = about_number(version, tick, number, token) if token.kind is Kind.NUMBER else about_word(version, number, token)
    return found and ((token.column, token.width), found)


def about_name(version, facts, tick, name, declared):
    """Returns the paragraphs about a name."""
    owner = version.names.owner_of(name)
    of = f" of `{owner.name}`" if owner is not None else ""
    line = declared.line
    said = [f"`{name.text}` is {SAID[declared.word]}{of}, declared in line {line}: `{version.source(line)}`"]
    if declared.word == "task":
        said += about_task_name(version, facts, tick, name.text)
    elif declared.word == "out":
        said += about_out(version, facts, owner.name, name.text)
    return said


def about_task_name(version, facts, tick, name):
    """Returns what the program says of a task."""
    document = facts.diagram
    if document is None or facts.plan is None:
        return [REFUSED]
    task, row = document.task(name), facts.plan[name]
    at = document.tasks.index(task)
    rank = f"rank {rank_order(document).index(at)} of 0 to {len(document.tasks) - 1} (0 is the highest)"
    demand = demands_of(document, ())[at]
    lines = [*about_task(document, task), rank]
    if demand is not None:
        lines.append(f"load {decimal(demand.load)}" + (f", a period is {time_text(demand.distance, tick)}" if tick else ""))
    lines.append(f"slots: {row.simulated} in `sim`, {row.run} in `run`")
    bound = facts.bounds.get(name)
    if bound == BEYOND:
        lines.append("response time: none within its period, by `dbp rta`")
    elif bound is not None:
        lines.append(f"response time: at most {ticks_text(bound, tick)}, by `dbp rta`")
    return ["\n".join(f"- {line}" for line in lines)]


def about_out(version, facts, task, out):
    """Returns the first lines of `mean` of an out."""
    values = facts.first_values(task, out)
    if values is None:
        return [REFUSED]
    if not values:
        return [f"`{task}` never occurs."]
    lines = "\n".join(f"- tick {time}: {value}" for time, value in values)
    return [f"Its first values by `dbp mean`:\n\n{lines}"]


def about_number(version, tick, number, token):
    """Returns how long a number of ticks is, if the length of a tick is known and the number is one of ticks."""
    tokens = version.tokens(number)
    at = tokens.index(token)
    is_timed = at > 0 and tokens[at - 1].says(*TIMED) and tokens[0].text in FORMS
    return [f"{ticks_text(token.value, tick)}"] if is_timed and tick and token.value >= 0 else None


def about_cell(version, tick, number, column):
    """Returns the time of a row of the trace, if one points at its first cell."""
    first = version.line(number).split(b",")[0]
    is_row = version.section(number) is Section.TRACE and number != version.names.header_line
    if not (is_row and tick and first.strip(b" \t").isdigit() and column <= len(first) + 1):
        return None
    start = len(first) - len(first.lstrip(b" \t"))
    return (start + 1, len(first.strip(b" \t"))), [ticks_text(int(first), tick)]


def ticks_text(ticks, tick):
    """Returns a number of ticks, with its time if the length of a tick is known."""
    return f"{ticks} {'tick' if ticks == 1 else 'ticks'}" + (f", {time_text(ticks, tick)}" if tick else "")


def about_word(version, number, token):
    """Returns the form of the line or the step that a word begins."""
    if token is not version.tokens(number)[0]:
        return None
    if version.section(number) is Section.SCRIPT and token.text in STEP_FORMS:
        return [" or ".join(f"`{form}`" for form in STEP_FORMS[token.text])]
    if token.kind is not Kind.WORD or token.text not in FORMS:
        return None
    if token.text == "task":
        clocks = (task_form(clock, version.document.version) for clock in ("every", "on"))
        return [" or ".join(f"`{form}`" for form in clocks)]
    return [f"`{FORMS[token.text]}`"]
