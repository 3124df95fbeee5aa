"""Deadlines that are missed, and how long each task may take: for tools/response, and for the warning `Late` of tools/check.

The plain walk through the ticks in .ci/made/responses.py is what the figures are compared with; bench/response.py does so for
more documents.
"""

from typing import NamedTuple, Optional

from canonical import Every
from pictures.service import End, Instance, Release, rank_order


class Late(NamedTuple):
    """An instance that hasn't ended at its deadline, and its end; that is none if the overrun comes before it."""

    instance: Instance
    deadline: int
    end: Optional[int]


def least_distance(times):
    """Returns how far apart two times in a row are at least, or nothing if there are fewer than two."""
    return min((after - before for before, after in zip(times, times[1:])), default=None)


def limit_of(document, task):
    """Returns how long an instance may take: its deadline, or its period, or the least distance of its event."""
    if task.deadline is not None:
        return task.deadline
    if isinstance(task.clock, Every):
        return task.clock.period
    return least_distance(document.event_times(task.clock.event))


def seen_ends(service):
    """Returns the time of each end, by its instance, up to the overrun if there is one: what comes after it isn't known."""
    last = service.overrun.time if service.overrun else float("inf")
    return {event.instance: event.time for event in service.of(End) if event.time <= last}


def first_late(document, service):
    """Returns the first missed deadline, and at one time that of the highest rank; nothing if none is missed.

    Under `fp` too, a deadline counts. One after the overrun isn't judged.
    """
    lengths = [task.deadline for task in document.tasks]
    ends = seen_ends(service) if any(lengths) else {}
    last = service.overrun.time if service.overrun else float("inf")
    ranks = {task: rank for rank, task in enumerate(rank_order(document))}
    missed = []
    for it in (it for event in service.of(Release) for it in event.batch if lengths[it.task] is not None):
        deadline = it.release + lengths[it.task]
        if deadline <= last and ends.get(it, float("inf")) > deadline:
            missed.append(Late(it, deadline, ends.get(it)))
    return min(missed, key=lambda late: (late.deadline, ranks[late.instance.task]), default=None)
