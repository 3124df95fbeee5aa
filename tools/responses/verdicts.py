"""Verdicts on time, each a line: an overrun, a missed deadline, a bound above a deadline, events that are too near."""

from responses.bounds import BEYOND, too_near
from responses.lateness import first_late


def verdicts_of(measured, bounds, assumed):
    """Yields the lines of the verdicts against a document."""
    document, service = measured.document, measured.service
    if service.overrun:
        yield service.overrun.line()
    late = first_late(document, service)
    if late:
        yield f"late: {document.tasks[late.instance.task].name} {late.instance.number} at {late.deadline}"
    for task, bound in zip(document.tasks, bounds.of_tasks):
        if task.deadline is not None and bound is not None and (bound == BEYOND or bound > task.deadline):
            yield f"bound: {task.name} {bound}, and its deadline is {task.deadline}"
    yield from (it.line() for it in too_near(document, assumed))
