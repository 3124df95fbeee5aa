"""The course of each instance of a simulation: when it was released, served, read, and ended."""

from dataclasses import dataclass, field
from typing import Dict, List, Optional, Tuple

from pictures.record import StepKind, link_of
from pictures.service import Begin, End, Instance, Reading, Release


@dataclass
class Course:
    """What happened to an instance. `due` is its deadline, or without one the next release of its task.

    `cut` is the time of the overrun, if that came before its end.
    """

    instance: Instance
    due: Optional[int] = None
    begin: Optional[int] = None
    end: Optional[int] = None
    cut: Optional[int] = None
    spans: List[Tuple[int, int]] = field(default_factory=list)
    reads: List[Tuple[int, int]] = field(default_factory=list)
    blocked: List[Tuple[int, int]] = field(default_factory=list)

    @property
    def last(self):
        """Returns the time until which it waits or is served."""
        return max(self.instance.release, self.end or 0, self.cut or 0)

    @property
    def last_mark(self):
        """Returns the last time at which something of it is drawn."""
        return max(self.last, self.due or 0)

    def waits(self):
        """Returns the times before it is first served, without those in which it is blocked."""
        return self.unblocked(self.instance.release, self.cut if self.begin is None else self.begin)

    def gaps(self):
        """Returns the times between its spans, and after the last one if it was cut, without those in which it is blocked:
        there it was preempted."""
        spans = self.spans if self.cut is None else [*self.spans, (self.cut, self.cut)]
        return [part for before, after in zip(spans, spans[1:]) for part in self.unblocked(before[1], after[0])]

    def unblocked(self, start, stop):
        """Returns the parts of a time in which it isn't blocked."""
        inside = [it for it in self.blocked if start <= it[0] < stop]
        starts, stops = [start, *(it[1] for it in inside)], [*(it[0] for it in inside), stop]
        return [it for it in zip(starts, stops) if it[0] < it[1]]


@dataclass(frozen=True)
class Claim:
    """A claim: the writer's row, 0 for its first values, and by their times the places of the reads made over it."""

    writer: int
    row: int
    delay: int
    reader: Course
    reads: Dict[int, Tuple[int, ...]]


def started_courses(releases, overrun, document):
    """Returns a course for each released instance, with when it is due."""
    courses = {}
    for release in releases:
        for it in release.batch:
            courses[it.task, it.number] = Course(it, it.deadline)
            before = courses.get((it.task, it.number - 1))
            if before and before.due is None:
                before.due = it.release
    if overrun:
        task = next(at for at, it in enumerate(document.tasks) if it.name == overrun.task)
        before = courses[task, overrun.number - 1]
        before.due = overrun.time if before.due is None else before.due
    return courses


def courses_of(simulated):
    """Returns the course of each instance by its task and its number, up to the overrun if there is one."""
    overrun, service = simulated.overrun, simulated.service
    limit = overrun.time if overrun else float("inf")
    courses = started_courses(service.of(Release), overrun, simulated.document)
    for event in service.events:
        if isinstance(event, Release) or event.time > limit:
            continue
        course = courses[event.instance.task, event.instance.number]
        if isinstance(event, End):
            course.end = event.time
        elif isinstance(event, Begin) and event.time < limit:
            course.begin = event.time
        elif isinstance(event, Reading) and event.time < limit:
            course.reads.append((event.time, event.read))
    for kind, spans in (("spans", service.spans), ("blocked", service.blocked)):
        for span in spans:
            if span.start < limit:
                course = courses[span.instance.task, span.instance.number]
                getattr(course, kind).append((span.start, min(span.stop, limit)))
    for course in courses.values():
        course.cut = limit if course.end is None else None
    return courses


def claims_of(simulated, courses):
    """Returns the claims of the record, each with the reads that were made over it."""
    document = simulated.document
    links = [[link_of(document, at, read) for read in task.reads] for at, task in enumerate(document.tasks)]
    found = []
    for step in simulated.steps:
        if step.kind is StepKind.CLAIM:
            reader = courses[step.task, step.instance]
            made = {}
            for time, read in reader.reads:
                if links[step.task][read] == step.link:
                    made[time] = (*made.get(time, ()), read)
            found.append(Claim(step.link.writer, step.order.row, step.link.delay, reader, made))
    return found
