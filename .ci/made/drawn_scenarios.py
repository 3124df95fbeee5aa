"""`need` of tasks of drawn documents: the text is that of a plain formula (bench/scenario_texts.py), and `sim` of it has
status 0. Copies with periods, conditions, shared events and long costs have the refusal that comes first, or such a text.

Each out has the same value in each instance, so the lines of `sim` follow from the times alone.
"""

import random
import re
import sys
from pathlib import Path

sys.path[:0] = [str(Path(__file__).resolve().parents[2] / it) for it in ("bench", "tools")]

from canonical import Every, read_document  # noqa: E402
from scenario_texts import document_of, drawn_document, scenario_of, with_the_most_slots  # noqa: E402

DOCUMENTS, CHANGED = 120, 240
OK, REFUSED = 0, 1
LATEST, LONG = 1_000_000_000, 40_000_000
NO_TASKS = ("w", "T0", "t", "t00", "_", "e0", "i", "y", "dbp", "every", "done", "x" * 24, "t0" + "_" * 22)


def lines_of(text):
    """Returns the lines of `sim` of a scenario: its outs are 1, and 2 if a task has another."""
    document, numbers, lines = read_document(text), {}, []
    for row in document.trace.rows:
        events = {name for name, cell in zip(document.trace.columns, row.cells) if cell == "1"}
        for task in document.tasks:
            if task.clock.event in events:
                numbers[task.name] = numbers.get(task.name, 0) + 1
                outs = [*range(1, len(task.outs) + 1)]
                lines.append(",".join(map(str, [row.time, task.name, numbers[task.name], *outs])))
    return "".join(f"{line}\n" for line in lines).encode()


def refusal_of(document):
    """Returns the refusal of a document of which no task has a scenario, or nothing."""
    for task in document.tasks:
        if isinstance(task.clock, Every) or task.when:
            return f"refused: 33 NotOnEvents {task.name}\n"
    events = [task.clock.event for task in document.tasks]
    for at, task in enumerate(document.tasks):
        if task.clock.event in events[:at]:
            return f"refused: 34 SharedEvent {task.name}\n"
    return None


def need(form, place):
    """Returns the exit status of `need`, and what it writes."""
    refusal = refusal_of(read_document(form.encode()))
    if refusal:
        return REFUSED, refusal.encode()
    text = scenario_of(form.encode(), place).text
    is_too_long = read_document(text.encode()).until > LATEST
    return (REFUSED, b"refused: 36 TooLong\n") if is_too_long else (OK, text.encode())


def changed(drawing, draw):
    """Returns the canonical text of a drawn document with other clocks, conditions and costs of some of its tasks."""
    first_and_last = ["on e0", f"on e{len(drawing.costs) - 1}"]
    lines, clocks = [], draw.choice((["every 7 from 2"], first_and_last, ["every 7 from 2", "on e0"], []))
    is_likely, has_conditions = draw.choice((2, 8)), drawing.lines[0] == "dbp 2" and draw.randrange(4) == 0
    for line in drawing.lines:
        is_task = line.startswith("task ")
        if is_task and clocks and draw.randrange(is_likely) == 0:
            line = re.sub(r"on e\d+", draw.choice(clocks), line)
        if is_task and not clocks:
            line = re.sub(r"cost \d+", f"cost {draw.randrange(LONG, LATEST + 1)}", line)
        if is_task and has_conditions and draw.randrange(is_likely) == 0:
            line = line.replace(" prio ", " when i prio ")
        lines.append(line)
    return document_of(lines)


def cases_of(name, text, form, places):
    """Yields the cases of some tasks of a document."""
    for place in sorted(places):
        status, wanted = need(form, place)
        yield f"need t{place} of {name}", ["need", f"t{place}"], text.encode(), status, wanted
        if status == OK:
            yield f"sim of that of t{place} of {name}", ["sim"], wanted, OK, lines_of(wanted)


def cases():
    for seed in range(DOCUMENTS):
        drawing, draw = drawn_document(f"scenario {seed}"), random.Random(f"place {seed}")
        text, form = drawing.text(), drawing.form()
        yield from cases_of(f"document {seed}", text, form, {drawing.writer, draw.randrange(len(drawing.costs))})
    for seed in range(CHANGED):
        drawing, draw = drawn_document(f"change {seed}"), random.Random(f"change {seed}")
        form = changed(drawing, draw)
        yield from cases_of(f"changed document {seed}", form, form, {drawing.writer})
    largest = with_the_most_slots()
    yield from cases_of("the document with the most slots", largest, largest, range(0, 16, 5))
    for name in NO_TASKS:
        yield f"need {name}, which isn't there", ["need", name], largest.encode(), REFUSED, b"refused: 35 NoTask\n"
