"""What is said of the tasks, the links and the scenarios of a document, as tables."""

from html import escape

from pictures.record import links_of
from pictures.service import rank_order
from pictures.words import about_clock
from reports.markup import code, table, tag
from reports.source import coloured_lines, source_html
from responses.bounds import BY_PROGRAM, BY_TOOL, demands_of
from responses.tables import NOTHING, cell_of

TASKS = ("task", "rank", "prio by links", "occurs", "cost", "deadline", "load", "processor", "slots (sim)", "slots (run)")
TIMES = ("task", "bound", "greatest seen", "at tick", "under bound", "limit", "slack", "instances", "preemptions",
         "ticks blocked")
LINKS = ("from", "to", "delay", "kind", "reads", "slots that it adds")


def cells(values):
    """Returns values as cells."""
    return [escape(cell_of(value, NOTHING)) for value in values]


def tasks_html(asked, name):
    """Returns the tables of the tasks and of their times, in the order of declaration, and the document by its links."""
    document, accepted = asked.diagram, asked.accepted
    ranks = {task: rank for rank, task in enumerate(rank_order(document))}
    places = range(len(document.tasks))
    rows = [cells(task_row(asked, at, ranks[at])) for at in places]
    made = table(TASKS, rows, "Tasks, in the order of declaration; rank 0 is the highest", id=name)
    made += tag("div", written_html("The document with priorities by its links", asked.ranked, f"{name}-ranked"))
    if accepted is None:
        return made
    times = [cells(times_row(document.tasks[at].name, accepted, at)) for at in places]
    return made + table(TIMES, times, "Response times, in ticks", id=f"{name}-times") + bounds_words(accepted.bounds)


def task_row(asked, at, rank):
    """Returns the values of a task's row."""
    document, accepted, priorities = asked.diagram, asked.accepted, asked.ranked.priorities
    task, demand = document.tasks[at], demands_of(document, ())[at]
    clock = about_clock(task) + (f" when {task.when}" if task.when else "")
    slots = (accepted.plan[at].simulated, accepted.plan[at].run) if accepted else (None, None)
    by_links = priorities[at] if priorities else None
    return (task.name, rank, by_links, clock, task.cost, task.deadline, demand.load if demand else None, task.cpu, *slots)


def times_row(task, accepted, at):
    """Returns the values of the row of a task's times: its bound, and what was seen in the simulation, if there is one."""
    bound = accepted.bounds.of_tasks[at]
    if accepted.simulation is None:
        return (task, bound, *[None] * (len(TIMES) - 2))
    seen = accepted.simulation.figures[at]
    under = bound - seen.greatest if isinstance(bound, int) and seen.greatest is not None else None
    found = (seen.greatest, seen.tick, under, seen.limit, seen.slack, seen.instances, seen.preemptions, seen.blocked)
    return (task, bound, *found)


def bounds_words(bounds):
    """Returns whose the bounds are, or why there are none."""
    if bounds.by == BY_PROGRAM:
        return tag("p", f"The bounds are those of {code(BY_PROGRAM)}: no instance takes longer, whatever the offsets are.")
    if bounds.by == BY_TOOL:
        return tag("p", f"The bounds are those of {BY_TOOL}, and not proved: for tasks that no other processor can block by "
                   "their own processor, for others by all tasks that are ranked above.")
    return tag("p", f"There are no bounds: {code(bounds.reason)}.")


def links_html(document, name):
    """Returns the table of the links, by their readers in the order of declaration."""
    ranks = {task: rank for rank, task in enumerate(rank_order(document))}
    links = [link for into in links_of(document) for link in into]
    if not links:
        return tag("p", "No task reads another one.")
    rows = [link_row(document, link, ranks) for link in links]
    return table(LINKS, rows, "Links; reads of one task over the same writer and delay share one", id=name)


def link_row(document, link, ranks):
    """Returns the cells of a link's row."""
    writer, reader = document.tasks[link.writer], document.tasks[link.reader]
    is_down = ranks[link.writer] < ranks[link.reader]
    kind = "to a lower rank" if is_down else "to a higher rank"
    own = [it for it in reader.reads if (it.writer, it.delay) == (writer.name, link.delay)]
    reads = ", ".join(f"{it.name} = {it.port} at {it.at}" for it in own)
    adds = "1" if is_down else "1 in a run"
    delay = f"pre {link.delay}" if link.delay else "none"
    return [escape(it) for it in (writer.name, reader.name, delay, kind, reads, adds)]


def scenarios_html(accepted, name):
    """Returns for each task the scenario that uses all of its slots at once, or why there is none."""
    parts = []
    for at, scenario in enumerate(accepted.scenarios):
        parts.append(tag("li", written_html(code(scenario.task), scenario, f"{name}-{at}")) + "\n")
    return tag("ul", *parts, id=name)


def written_html(title, written, name):
    """Returns a document that the program writes, to be opened, or why there is none."""
    if written.text is None:
        return f"{title}: none, since {code(written.reason)}"
    return tag("details", tag("summary", title), source_html(coloured_lines(written.text), name))
