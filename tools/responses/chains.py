"""Times from end to end: how old data are at the end of a chain of links, and how long a change takes through it."""

from bisect import bisect_right
from typing import NamedTuple, Tuple

from ending import Ended, Status


class Port(NamedTuple):
    """An out of a task, as a word of a chain names it."""

    task: str
    out: str


class Span(NamedTuple):
    """A time from end to end, from a tick to another, with the instances that make it, as places of tasks and numbers."""

    start: int
    stop: int
    instances: Tuple[Tuple[int, int], ...]

    @property
    def length(self):
        """Returns how long it is."""
        return self.stop - self.start

    def named(self, document):
        """Returns the instances with the names of their tasks."""
        return [(document.tasks[task].name, number) for task, number in self.instances]

    def line(self, document):
        """Returns its length, its ticks and its instances."""
        names = ", ".join(f"{name} {number}" for name, number in self.named(document))
        return f"{self.length}, from {self.start} to {self.stop}: {names}"

    def as_json(self, document):
        """Returns it as JSON has it."""
        instances = [{"task": name, "instance": number} for name, number in self.named(document)]
        return {"length": self.length, "from": self.start, "to": self.stop, "instances": instances}


class Chain(NamedTuple):
    """The places of a chain's tasks, and the least and the greatest delay of the reads between each two of them."""

    tasks: Tuple[int, ...]
    delays: Tuple[Tuple[int, int], ...]


def ports_of(word):
    """Returns the outs that the word of a chain names, as in a.y,b.z."""
    found = [Port(*part.split(".")) for part in word.split(",") if part.count(".") == 1]
    if len(found) < 2 or len(found) != word.count(",") + 1:
        raise ValueError(word)
    return tuple(found)


def chain_of(document, ports):
    """Returns the chain of these outs; if one isn't there, or isn't read by the next task, the tool ends."""
    names = [task.name for task in document.tasks]
    for port in ports:
        if port.task not in names or port.out not in {out.name for out in document.task(port.task).outs}:
            raise Ended(Status.WRONG_WORDS, f"the document has no out {port.task}.{port.out}")
    delays = [delays_between(document, *pair) for pair in zip(ports, ports[1:])]
    return Chain(tuple(names.index(port.task) for port in ports), tuple(delays))


def delays_between(document, port, reader):
    """Returns the least and the greatest delay with which a task reads an out."""
    reads = [it for it in document.task(reader.task).reads if (it.writer, it.port) == (port.task, port.out)]
    if not reads:
        raise Ended(Status.WRONG_WORDS, f"the task {reader.task} doesn't read {port.task}.{port.out}")
    delays = [it.delay for it in reads]
    return min(delays), max(delays)


class Rows:
    """Which instances the data of an instance come from, along a chain.

    A read gets the outs of the last instance released at or before its own instance's release, or of as many before that
    one as its delay says.
    """

    def __init__(self, chain, releases):
        self.chain = chain
        self.releases = [releases[task] for task in chain.tasks]

    def sources(self, number, which):
        """Returns the numbers along the chain that end with an instance of its last task: by the least delays (0) or the
        greatest (1). A number of 0 or less has first values."""
        numbers = [number]
        for place in range(len(self.chain.delays) - 1, -1, -1):
            if numbers[0] < 1:
                return [0] * (place + 1) + numbers
            time = self.releases[place + 1][numbers[0] - 1]
            numbers.insert(0, bisect_right(self.releases[place], time) - self.chain.delays[place][which])
        return numbers

    def span(self, first, end, numbers):
        """Returns the time from the release of an instance of the first task to an end, with the instances of the chain; the
        first one too, if the chain begins with a later one."""
        before = [(self.chain.tasks[0], first)] if first != numbers[0] else []
        return Span(self.releases[0][first - 1], end, (*before, *zip(self.chain.tasks, numbers)))


def greatest_age(rows, ends):
    """Returns the greatest time from the release of an instance of the first task to the end of one of the last task whose
    data come from it; the first such time, or nothing."""
    spans = []
    for number, end in ends:
        numbers = rows.sources(number, 1)
        if numbers[0] >= 1:
            spans.append(rows.span(numbers[0], end, numbers))
    return max(spans, key=lambda it: it.length, default=None)


def greatest_reaction(rows, ends):
    """Returns the greatest time that a change takes: it comes just after an instance of the first task was released, so the
    next one is the first that can tell it, until the first end of an instance of the last task that may show it."""
    spans, known = [], 1
    for number, end in ends:
        numbers = rows.sources(number, 0)
        if numbers[0] > known:
            spans.append(rows.span(known, end, numbers))
        known = max(known, numbers[0])
    return max(spans, key=lambda it: it.length, default=None)


def chain_spans(measured, ports):
    """Returns the greatest age and the greatest reaction time of a chain, each with its name."""
    document, chain = measured.document, chain_of(measured.document, ports)
    rows = Rows(chain, [document.times(task) for task in document.tasks])
    ends = [(course.instance.number, course.end) for course in measured.courses[chain.tasks[-1]]]
    return (("age", greatest_age(rows, ends)), ("reaction", greatest_reaction(rows, ends)))
