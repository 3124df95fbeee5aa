"""Warnings of response times by the command `rta`, and of a simulation: the release that overruns, and the first instance
that ends after its deadline.

The program simulates a document, unless response times, or periods and costs alone, show that no release can come too early.
Where a task has another processor than 0, `cpus` simulates it.
"""

import re

from canonical import read_document
from checking.messages import Note, warning
from checking.occurrences import times_of_events
from checking.ranks import ranks_of
from ending import Status
from pictures.asking import cut_text
from pictures.record import Disagreement, must_record
from pictures.service import Command, serve
from policies import POLICIES
from responses.bounds import BEYOND, Demand, least_response, told_bounds
from responses.lateness import first_late, least_distance

NEVER = 10**20  # the period of a task that occurs once, or not at all
OVERRUN_LINE = re.compile(rb"overrun: (\w+) ([0-9]+) at ([0-9]+)\n")


def simulating(document):
    """Returns the command that serves each task on its own processor."""
    return Command.CPUS if any(task.head.number("cpu", 0) for task in document.tasks) else Command.SIM


def responses_by_program(run, text, document):
    """Returns the bound on the response times of each task by `dbp rta`; nothing if it has no answer, or if a task is on
    another processor than 0."""
    if simulating(document) is Command.CPUS:
        return None
    ran = run(["rta"], text)
    return told_bounds(document, ran.stdout) if ran.status == Status.DONE else None


def response_warnings(document, responses):
    """Yields a warning of each task that has no response time within its period, or one above its deadline."""
    for task, response in zip(document.tasks, responses):
        head, deadline = task.head, task.head.number("deadline")
        if response == BEYOND:
            text = f"the task `{task.name}` has no response time within its period: with some offsets a release meets an "
            text += "unfinished instance; `dbp sim` says whether with these"
            yield warning(head.line, head.name, "Beyond", text)
        elif deadline is not None and response > deadline:
            text = f"the response time of the task `{task.name}` is {response} by `dbp rta`, above its deadline {deadline}: "
            text += "with some offsets an instance may end too late"
            yield warning(head.line, head.numbers["deadline"], "ResponseAboveDeadline", text)


def is_surely_in_time(document, responses):
    """Whether each instance ends before the next one of its task and by its deadline, whatever the offsets are.

    A document for which that isn't so may be in time.
    """
    if responses is None:
        return is_in_time_by_sums(document)
    deadlines = [task.head.number("deadline") for task in document.tasks]
    pairs = zip(responses, deadlines)
    return all(response != BEYOND and (deadline is None or response <= deadline) for response, deadline in pairs)


def is_in_time_by_sums(document):
    """Whether that is so by periods, costs and deadlines alone, where the program has no response times.

    What is in time on one processor is so on several: of all that wait the first is served there, too.
    """
    tasks, events = ranks_of(document), times_of_events(document)
    demands = [Demand(task.head.number("cost"), least_period(task, events)) for task in tasks]
    lengths = [min(it.distance, task.head.number("deadline", it.distance)) for task, it in zip(tasks, demands)]
    if not POLICIES[document.policy].serves_by_deadline:
        cases = enumerate(zip(demands, lengths))
        return all(least_response(it.cost, demands[:at], length) is not None for at, (it, length) in cases)
    is_short = all(task.head.number("deadline") == length for task, length in zip(tasks, lengths))
    return is_short and sum(Demand(it.cost, length).load for it, length in zip(demands, lengths)) <= 1


def least_period(task, events):
    """Returns how far apart two releases of a task are at least."""
    if task.head.source is None:
        return task.head.number("every")
    return least_distance(events.get(task.head.source.text, ())) or NEVER


def overrun_warnings(document, ran):
    """Yields a warning of the overrun that a run of `dbp sim` or `dbp cpus` tells."""
    found = OVERRUN_LINE.fullmatch(ran.stdout) if ran.status == Status.OVERRUN else None
    if found:
        name, number, time = found[1].decode(), int(found[2]), int(found[3])
        head = document.named_tasks[name].head
        text = f"instance {number} of the task `{name}` is released at tick {time}, and instance {number - 1} isn't done: "
        text += f"`dbp {simulating(document).value}` ends there"
        yield warning(head.line, head.name, "Overrun", text)


def late_warnings(run, text, document, responses):
    """Yields a warning of the first instance that ends after its deadline, if the program's record agrees."""
    has_deadlines = any("deadline" in task.head.numbers for task in document.tasks)
    if not has_deadlines or is_surely_in_time(document, responses):
        return
    form = run(["form"], text)
    canonical = read_document(form.stdout)
    service = serve(canonical, simulating(document))
    late = first_late(canonical, service)
    if late and is_recorded(run, service.command, cut_text(form.stdout, canonical, late.end or service.overrun.time)):
        head = document.tasks[late.instance.task].head
        what = f"instance {late.instance.number} of the task `{head.name.text}`, released at tick {late.instance.release},"
        ends = f"ends at {late.end}, and its deadline is" if late.end else "isn't done at its deadline"
        note = Note(head.line, head.numbers["cost"].column, f"it is served for {head.number('cost')} ticks")
        yield warning(head.line, head.numbers["deadline"], "Late", f"{what} {ends} {late.deadline}", note)


def is_recorded(run, command, cut):
    """Whether the program's record of a text that is cut at an end is what the computed order gives."""
    document = read_document(cut)
    try:
        must_record(document, serve(document, command), run(command.record_words, cut).stdout.decode())
    except Disagreement:
        return False
    return True
