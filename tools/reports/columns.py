"""What is said of a document as data for the page's script: numbers and texts in columns, with runs of like ones joined."""

from collections import defaultdict
from itertools import chain, groupby
from operator import attrgetter, sub

from pictures.record import StepKind, link_of, links_of
from pictures.service import is_late, rank_order, reads_by_tick
from pictures.slots import Use
from pictures.window import choose_window
from pictures.words import about_task
from waveforms.signals import task_signals

NEVER = -1  # in place of a time that isn't there


def runs(values):
    """Returns values, each with how often it comes in a row, as a text."""
    counted = ((value, sum(1 for _ in same)) for value, same in groupby(values))
    return " ".join(f"{value}*{count}" if count > 1 else f"{value}" for value, count in counted)


def column(numbers):
    """Returns numbers as the runs of their differences."""
    return runs(map(sub, numbers, chain((0,), numbers)))


def times(found):
    """Returns times, of which some may be missing, as a column."""
    return column([NEVER if time is None else time for time in found])


def courses_data(document, task, courses):
    """Returns the courses of a task's instances."""
    order = {read: place for place, (_, read) in enumerate(reads_by_tick(document.tasks[task]))}
    reads = [sorted((order[read], time) for time, read in course.reads) for course in courses]
    late = [int(course.end is not None and is_late(document, course.instance, course.end)) for course in courses]
    return {
        "release": column([course.instance.release for course in courses]),
        "begin": times([course.begin for course in courses]),
        "end": times([course.end for course in courses]),
        "due": times([course.due for course in courses]),
        "cut": times([course.cut for course in courses]),
        "late": runs(late),
        "spans": runs([len(course.spans) for course in courses]),
        "start": column([start for course in courses for start, _ in course.spans]),
        "stop": column([stop for course in courses for _, stop in course.spans]),
        "holds": runs([len(course.blocked) for course in courses]),
        "held": column([start for course in courses for start, _ in course.blocked]),
        "freed": column([stop for course in courses for _, stop in course.blocked]),
        "reads": runs([len(made) for made in reads]),
        "read": column([time for made in reads for _, time in made]),
    }


def stays_data(stays, until):
    """Returns the stays of a task's slots, by their use; the readers of claims are texts, as `control 2`."""
    found = {}
    for use in Use:
        own = [stay for stay in stays if stay.use is use]
        found[use.value] = {name: column([*map(attrgetter(name), own)]) for name in ("slot", "row", "start")}
        found[use.value]["stop"] = column([until if stay.stop is None else stay.stop for stay in own])
    claims = [stay for stay in stays if stay.use is Use.CLAIMED]
    readers = [stay.reader.split(" ") for stay in claims]
    found[Use.CLAIMED.value].update(
        reader=runs([name for name, _ in readers]),
        number=column([int(number) for _, number in readers]),
        ended=times([stay.ended for stay in claims]),
    )
    return found


def claimed_rows(steps):
    """Returns by link the row that each claim over it names."""
    found = defaultdict(list)
    for step in steps:
        if step.kind is StepKind.CLAIM:
            found[step.link].append(step.order.row)
    return found


def links_data(document, task, rows):
    """Returns the links into a task, with the row that each of its instances claims."""
    into = links_of(document)[task]
    return [{"writer": link.writer, "delay": link.delay, "rows": column(rows.get(link, ()))} for link in into]


def reads_data(document, task):
    """Returns the reads of a task in the order in which they are made, with the place of their link and of their out."""
    into, it = links_of(document)[task], document.tasks[task]
    found = []
    for _, place in reads_by_tick(it):
        read, link = it.reads[place], link_of(document, task, it.reads[place])
        outs = [out.name for out in document.tasks[link.writer].outs]
        found.append({"name": read.name, "link": into.index(link), "out": outs.index(read.port)})
    return found


def outs_data(task, values):
    """Returns the outs of a task: the name of each as a signal, its first value, and its values."""
    signals = task_signals(task)[1:]  # without the numbers of its instances
    cut = [line.split(",") for line in values]
    return [
        {"name": signal.full_name, "first": str(signal.first), "values": runs([outs[at] for outs in cut])}
        for at, signal in enumerate(signals)
    ]


def table_data(document, lines):
    """Returns for each task the ticks of its instances and its outs, from the lines of `dbp mean`."""
    found = {task.name: ([], []) for task in document.tasks}
    for line in lines:
        tick, task, _, outs = line.split(",", 3)
        found[task][0].append(int(tick))
        found[task][1].append(outs)
    tasks = zip(document.tasks, found.values())
    return [
        {"name": task.name, "about": about_task(document, task), "tick": column(ticks), "outs": outs_data(task, values)}
        for task, (ticks, values) in tasks
    ]


def simulation_data(simulation, tasks):
    """Adds what the simulation says to the data of each task."""
    document = simulation.simulated.document
    rows = claimed_rows(simulation.simulated.steps)
    courses = [[] for _ in document.tasks]
    for course in simulation.courses.values():
        courses[course.instance.task].append(course)
    last = last_tick(document.until, simulation)
    for at, found in enumerate(tasks):
        found["courses"] = courses_data(document, at, courses[at])
        found["stays"] = stays_data(simulation.stays[at], last + 1)
        found["links"] = links_data(document, at, rows)
        found["reads"] = reads_data(document, at)
        found["slots"] = simulation.simulated.slots[at]


def last_tick(until, simulation):
    """Returns the last tick that the page shows."""
    if simulation is None:
        return max(1, until)
    return max([1, until, *(course.last for course in simulation.courses.values())])


def data_of(accepted, document):
    """Returns the data of an accepted document."""
    tasks, simulation = table_data(document, accepted.lines), accepted.simulation
    last = last_tick(document.until, simulation)
    start, stop = 0, last
    overrun = None
    if simulation:
        simulation_data(simulation, tasks)
        window = choose_window([*simulation.courses.values()], simulation.simulated, None, None)
        start, stop = window.start, window.stop
        overrun = simulation.simulated.overrun
    return {
        "until": document.until,
        "last": last,
        "start": start,
        "length": max(1, stop - start),
        "instances": len(accepted.lines),
        "overrun": overrun and {"task": overrun.task, "number": overrun.number, "time": overrun.time},
        "order": sorted(rank_order(document), key=lambda at: document.tasks[at].cpu),
        "tasks": tasks,
    }
