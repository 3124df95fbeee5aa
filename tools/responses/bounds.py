"""Bounds on response times: the program's, and this tool's own for assumed distances of events.

tools/check reads the lines of `dbp rta` by this module too. With a program that has no such command both do without; their
trials try that.
"""

from fractions import Fraction
from itertools import accumulate, takewhile
from typing import NamedTuple, Optional, Tuple, Union

from canonical import Every
from ending import Status
from pictures.asking import Refused
from pictures.service import rank_order
from program import read_as_answer, run_program

BEYOND = "beyond"  # in place of a bound: none is within the distance of two releases
ONE_PROCESSOR = "`dbp rta` knows one processor"
BY_PROGRAM, BY_TOOL = "dbp rta", "tools/response"


class Demand(NamedTuple):
    """What a task may ask for: so many ticks of service, once within each so many ticks."""

    cost: int
    distance: int

    @property
    def load(self):
        """Returns the share of a processor."""
        return Fraction(self.cost, self.distance)


class Bounds(NamedTuple):
    """A bound for each task, a number or BEYOND or None; who says so, or why nobody does."""

    of_tasks: Tuple[Union[int, str, None], ...]
    by: Optional[str]
    reason: str


class Assumed(NamedTuple):
    """The distance that two occurrences of an event are assumed to have at least."""

    event: str
    distance: int


class TooNear(NamedTuple):
    """Two occurrences of an event that are nearer than is assumed."""

    event: str
    before: int
    time: int
    assumed: int

    def line(self):
        """Returns the verdict."""
        distance = self.time - self.before
        return f"distance: {self.event} at {self.time} is {distance} after {self.before}, and {self.assumed} is assumed"


def too_near(document, assumed):
    """Returns for each assumed distance the first two occurrences of the trace that are nearer."""
    found = []
    for it in assumed:
        times = document.event_times(it.event)
        pairs = ((before, time) for before, time in zip(times, times[1:]) if time - before < it.distance)
        found += [TooNear(it.event, *pair, it.distance) for pair in [next(pairs, None)] if pair]
    return found


def demands_of(document, assumed):
    """Returns the demand of each task: by its period, or by the distance of its event, if the trace keeps it.

    A task with a `when` counts as if it were always on. A task on another event has none.
    """
    broken = {it.event for it in too_near(document, assumed)}
    distances = {it.event: it.distance for it in assumed if it.event not in broken}
    return [demand_of(task, distances) for task in document.tasks]


def demand_of(task, distances):
    """Returns the demand of a task, or nothing."""
    is_periodic = isinstance(task.clock, Every)
    distance = task.clock.period if is_periodic else distances.get(task.clock.event)
    return None if distance is None else Demand(task.cost, distance)


def least_response(cost, higher, most):
    """Returns the least number that is the cost and what the higher tasks ask for within so many ticks; nothing if that
    is above `most`."""
    by_period = sorted(higher, key=lambda it: it.distance)
    shares = [*accumulate(it.load for it in by_period)]
    if shares and shares[-1] >= 1:
        return None
    response, before = cost, 0
    while before < response <= most:
        response, before = raised(response, cost, by_period, shares), response
    return response if response <= most else None


def raised(response, cost, by_period, shares):
    """Returns what the number is at least, if it is at least the response.

    For each part of the tasks: those of the longer periods ask for whole instances within the response, and the others for
    at least their share of the number itself. So few steps lead to it where adding what is asked for takes millions.
    """
    asked = [-(-response // it.distance) * it.cost for it in by_period]
    left = cost + sum(asked)
    found = [response, left]
    for own, share in zip(asked, shares):
        left -= own
        found.append(-(-left * share.denominator // (share.denominator - share.numerator)))
    return max(found)


def is_on_several(document):
    """Whether the tasks have more than one processor."""
    return len({task.cpu for task in document.tasks}) > 1


def may_wait(document, task):
    """Whether a task may be blocked by one of another processor: it reads that without `pre`."""
    return any(not read.delay and document.task(read.writer).cpu != task.cpu for read in task.reads)


def bounds_in(order, demands):
    """Returns the bounds of tasks by falling rank as if one processor had these alone, up to the first without a demand."""
    found, higher = {}, []
    for at in takewhile(lambda at: demands[at] is not None, order):
        response = least_response(demands[at].cost, higher, demands[at].distance)
        found[at] = BEYOND if response is None else response
        higher.append(demands[at])
    return found


def own_bounds(document, demands):
    """Returns this tool's bounds under fixed priorities: none of a task, if it or one above it has no demand.

    Of all that wait the first is never blocked. So while one of some rank waits, a processor serves one of this rank or above,
    and a bound for one processor holds on several. A task that no other processor can block, nor those above it on its own,
    is served as if its processor were alone.
    """
    tasks, order = document.tasks, rank_order(document)
    found = {at: bound for at, bound in bounds_in(order, demands).items() if bound != BEYOND}
    for cpu in {task.cpu for task in tasks}:
        own = (at for at in order if tasks[at].cpu == cpu)
        found.update(bounds_in(takewhile(lambda at: not may_wait(document, tasks[at]), own), demands))
    return tuple(found.get(at) for at in range(len(tasks)))


def told_bounds(document, stdout):
    """Returns the bounds that the lines of `dbp rta` tell, in the order of the tasks."""
    told = [line.split(",") for line in stdout.decode("ascii").splitlines()]
    if [name for name, _, _ in told] != [task.name for task in document.tasks]:
        raise ValueError(stdout)
    return tuple(BEYOND if bound == BEYOND else int(bound) for _, bound, _ in told)


def bounds_of(program, text, document, assumed):
    """Returns the bounds of the tasks: the program's if it answers `rta` and they have one processor, else this tool's if
    distances are assumed, or if they have several."""
    if is_on_several(document):
        return several_bounds(document, assumed)
    ran = run_program(program, ["rta"], text)
    if ran.status == Status.DONE:
        with read_as_answer(program):
            return Bounds(told_bounds(document, ran.stdout), BY_PROGRAM, "")
    if ran.status not in (Status.REFUSED, Status.WRONG_WORDS):
        raise Refused(ran)
    no_command = "the program has no command `rta`"
    reason = ran.stdout.decode(errors="replace").strip() if ran.status == Status.REFUSED else no_command
    none = (None,) * len(document.tasks)
    if not assumed or document.policy.serves_by_deadline:
        return Bounds(none, None, reason)
    return Bounds(own_bounds(document, demands_of(document, assumed)), BY_TOOL, reason)


def several_bounds(document, assumed):
    """Returns this tool's bounds of tasks on several processors, if it has one."""
    none = (None,) * len(document.tasks)
    found = none if document.policy.serves_by_deadline else own_bounds(document, demands_of(document, assumed))
    return Bounds(found, BY_TOOL if any(found) else None, ONE_PROCESSOR)
