"""What the simulation of a document says of each task, each on its own processor: response times, preemptions and jitter."""

from collections import Counter
from dataclasses import dataclass
from fractions import Fraction
from operator import attrgetter
from typing import NamedTuple, Optional, Tuple

from canonical import Document
from pictures.asking import agreed_service
from pictures.record import must_record
from pictures.service import Begin, Instance, Service
from responses.lateness import limit_of, seen_ends


class Course(NamedTuple):
    """The course of an instance that has ended: when it began and ended, how often it was preempted, and for how many ticks it
    was blocked."""

    instance: Instance
    begin: int
    end: int
    preemptions: int
    blocked: int

    @property
    def response(self):
        """Returns how long after its release it ended."""
        return self.end - self.instance.release


@dataclass(frozen=True)
class Measured:
    """A document with its service, which agrees with the program's record, and the courses of each task's instances."""

    document: Document
    service: Service
    courses: Tuple[Tuple[Course, ...], ...]

    def worst(self, task):
        """Returns the first instance of a task whose response time is the greatest, or nothing."""
        return max(self.courses[task], key=lambda course: course.response, default=None)


@dataclass(frozen=True)
class Figures:
    """The figures of a task; what no instance gives is None. `tick` is the release of the greatest response time."""

    task: str
    cpu: int
    instances: int
    least: Optional[int]
    mean: Optional[Fraction]
    greatest: Optional[int]
    tick: Optional[int]
    limit: Optional[int]
    slack: Optional[int]
    preemptions: Optional[int]
    blocked: Optional[int]
    start_jitter: Optional[int]
    end_jitter: Optional[int]


def courses_of(document, service):
    """Returns the course of each instance that has ended, by task: with an overrun of those that ended before it."""
    begins = {event.instance: event.time for event in service.of(Begin)}
    spans = Counter(map(attrgetter("instance"), service.spans))
    waits = only_blocked(service, begins)
    blocked = Counter()
    for span in service.blocked:
        blocked[span.instance] += span.stop - span.start
    found = [[] for _ in document.tasks]
    for it, end in seen_ends(service).items():
        found[it.task].append(Course(it, begins[it], end, spans[it] - 1 - waits[it], blocked[it]))
    return tuple(tuple(courses) for courses in found)


def only_blocked(service, begins):
    """Returns how often each instance went on as soon as it was no longer blocked, and so wasn't preempted meanwhile."""
    if not service.blocked:
        return Counter()
    starts = {(span.instance, span.start) for span in service.spans}
    later = (span for span in service.blocked if begins[span.instance] < span.stop)
    return Counter(span.instance for span in later if (span.instance, span.stop) in starts)


def measured(program, text):
    """Returns what the simulation of a document gives, if the program's record and the computed order agree."""
    document, _, service, record = agreed_service(program, text)
    must_record(document, service, record)
    return Measured(document, service, courses_of(document, service))


def spread(values):
    """Returns how far apart the least and the greatest value are, or nothing."""
    return max(values) - min(values) if values else None


def figures_of(measured, place):
    """Returns the figures of a task, by its place in the document."""
    task, courses = measured.document.tasks[place], measured.courses[place]
    responses = [course.response for course in courses]
    starts = [course.begin - course.instance.release for course in courses]
    worst, limit = measured.worst(place), limit_of(measured.document, task)
    return Figures(
        task=task.name,
        cpu=task.cpu,
        instances=len(courses),
        least=min(responses, default=None),
        mean=Fraction(sum(responses), len(responses)) if responses else None,
        greatest=worst.response if worst else None,
        tick=worst.instance.release if worst else None,
        limit=limit,
        slack=limit - worst.response if worst and limit is not None else None,
        preemptions=max((course.preemptions for course in courses), default=None),
        blocked=max((course.blocked for course in courses), default=None),
        start_jitter=spread(starts),
        end_jitter=spread(responses),
    )
