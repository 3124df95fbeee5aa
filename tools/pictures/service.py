"""The order of service: which instance is served in which ticks, by the policy of a document, on one processor or on several.

The rules are those of "The order of service" in docs/PROTOCOL.md, taken from one event to the next.
"""

import heapq
from dataclasses import dataclass
from enum import Enum
from typing import NamedTuple, Optional, Tuple


class Command(Enum):
    """The commands that simulate a document: with one processor for all tasks, or with their own ones."""

    SIM = "sim"
    CPUS = "cpus"

    @property
    def record_words(self):
        """Returns the words that print the record of the simulation."""
        return [self.value, "--record"]

    def processor_of(self, task):
        """Returns the processor that serves a task."""
        return task.cpu if self is Command.CPUS else 0


def command_of(document):
    """Returns the command that serves each task on its own processor: `sim`, if that is 0 for all."""
    return Command.CPUS if any(task.cpu for task in document.tasks) else Command.SIM


class Instance(NamedTuple):
    """An instance of a task, by the task's place in the document; its deadline is a time, under `edf` alone."""

    task: int
    number: int
    release: int
    deadline: Optional[int]


class Release(NamedTuple):
    """The release of a batch."""

    time: int
    batch: Tuple[Instance, ...]


class Begin(NamedTuple):
    """An instance is served for the first time."""

    time: int
    instance: Instance


class Reading(NamedTuple):
    """A read of an instance is made, by the read's place among those of its task."""

    time: int
    instance: Instance
    read: int


class End(NamedTuple):
    """An instance ends."""

    time: int
    instance: Instance


def is_late(document, instance, end):
    """Whether an end is after the deadline of its instance; under `fp` too, if its task has a number for it."""
    length = document.tasks[instance.task].deadline
    return length is not None and end > instance.release + length


class Span(NamedTuple):
    """Ticks in a row in which one instance is served, or is blocked, the last one not among them."""

    instance: Instance
    start: int
    stop: int


@dataclass(frozen=True)
class Overrun:
    """The first release of an instance while something is left of the one before it."""

    task: str
    number: int
    time: int

    def line(self):
        """Returns the line that the program prints for it."""
        return f"overrun: {self.task} {self.number} at {self.time}"


@dataclass(frozen=True)
class Service:
    """What happens, in order, who is served when and who is blocked when, in the simulation by a command: all of it, or what
    the releases before the overrun give."""

    command: Command
    events: Tuple[object, ...]
    spans: Tuple[Span, ...]
    blocked: Tuple[Span, ...]
    overrun: Optional[Overrun]

    def of(self, kind):
        """Returns the events of one kind."""
        return [event for event in self.events if type(event) is kind]


def rank_order(document):
    """Returns the places of the tasks in the order of their ranks, the highest first."""
    urgencies = [document.policy.urgency(document.ranking_number(task)) for task in document.tasks]
    return sorted(range(len(urgencies)), key=urgencies.__getitem__)


def batches(document):
    """Returns the time and the instances of each batch, in the order of time and of declaration."""
    found = {}
    for at, task in enumerate(document.tasks):
        for number, time in enumerate(document.times(task), 1):
            deadline = time + task.deadline if document.policy.serves_by_deadline else None
            found.setdefault(time, []).append(Instance(at, number, time, deadline))
    return sorted(found.items())


def reads_by_tick(task):
    """Returns the reads of a task in the order in which they are made: each one's tick, and its place."""
    return sorted((read.at, place) for place, read in enumerate(task.reads))


def direct_writers(document):
    """Returns for each task the places of its undelayed reads, each with the task that it reads."""
    places = {task.name: at for at, task in enumerate(document.tasks)}
    return [
        {number: places[read.writer] for number, read in enumerate(task.reads) if not read.delay}
        for task in document.tasks
    ]


class Job:
    """An instance that was released, until it has ended; `made` counts its reads that are made.

    `awaited` has for its undelayed reads the jobs whose outs they take, `blockers` those that it waits for since the time
    `blocked`, and `blocks` the jobs that wait for it.
    """

    __slots__ = ("instance", "cost", "reads", "served", "made", "awaited", "blockers", "blocked", "blocks")

    def __init__(self, instance, cost, reads):
        self.instance = instance
        self.cost = cost
        self.reads = reads
        self.served = 0
        self.made = 0
        self.awaited = {}
        self.blockers = []
        self.blocked = 0
        self.blocks = []

    @property
    def is_left(self):
        """Whether something is left of it."""
        return self.served < self.cost

    def next_stop(self):
        """Returns how many ticks it is served until its next read or its end."""
        return (self.cost if self.made == len(self.reads) else self.reads[self.made][0]) - self.served

    def due_reads(self):
        """Returns the places of the reads that it has come to."""
        return [place for at, place in self.reads[self.made :] if at == self.served]


class Processor:
    """A processor: the instances that wait for it, and whom it has served."""

    def __init__(self):
        self.waiting = []
        self.spans = []

    def first(self):
        """Returns the first of those that wait and aren't blocked, or nothing."""
        if not self.waiting:
            return None
        job = self.waiting[0][1]
        return job if not job.blockers else min((it for it in self.waiting if not it[1].blockers), default=(None, None))[1]

    def serve(self, job, start, stop):
        """Serves an instance from a time to another."""
        job.served += stop - start
        if self.spans and self.spans[-1].instance is job.instance and self.spans[-1].stop == start:
            start = self.spans.pop().start
        self.spans.append(Span(job.instance, start, stop))

    def drop(self, job):
        """Drops an instance that has ended."""
        if self.waiting[0][1] is job:
            heapq.heappop(self.waiting)
        else:
            self.waiting = [it for it in self.waiting if it[1] is not job]
            heapq.heapify(self.waiting)


class Simulation:
    """A simulation by a command: its time, its processors, each task's last instance, and what has happened."""

    def __init__(self, document, command):
        self.document = document
        self.command = command
        self.ranks = {task: rank for rank, task in enumerate(rank_order(document))}
        self.reads = [reads_by_tick(task) for task in document.tasks]
        # on one processor the first that waits is never blocked
        self.writers = direct_writers(document) if command is Command.CPUS else [{}] * len(document.tasks)
        numbers = [command.processor_of(task) for task in document.tasks]
        self.processors = {number: Processor() for number in sorted({*numbers})}
        self.processor_of = [self.processors[number] for number in numbers]
        self.last = [None] * len(numbers)
        self.now = 0
        self.events = []
        self.blocked = []

    def release(self, time, batch):
        """Releases a batch, of whose tasks no instance waits."""
        self.events.append(Release(time, tuple(batch)))
        for it in batch:
            key = (it.deadline or 0, self.ranks[it.task])
            self.last[it.task] = Job(it, self.document.tasks[it.task].cost, self.reads[it.task])
            heapq.heappush(self.processor_of[it.task].waiting, (key, self.last[it.task]))
        for it in batch:
            job, writers = self.last[it.task], self.writers[it.task]
            if writers:
                job.awaited = {place: self.last[writer] for place, writer in writers.items() if self.last[writer]}
                self.come(job)

    def come(self, job):
        """Blocks an instance that has come to a read whose row isn't there yet."""
        found = [job.awaited[place] for place in job.due_reads() if place in job.awaited]
        job.blockers = [it for it in dict.fromkeys(found) if it.is_left]
        job.blocked = self.now
        for it in job.blockers:
            it.blocks.append(job)

    def serve_until(self, limit):
        """Serves those that wait up to a time, or all to their ends if there is none."""
        while limit is None or self.now < limit:
            served, ticks = [], []
            for processor in self.processors.values():
                job = processor.first()
                if job:
                    self.work(job)
                    served.append((processor, job))
                    ticks.append(job.next_stop())
            if not served:
                break
            stop = self.now + min(ticks)
            stop = stop if limit is None or stop < limit else limit
            for processor, job in served:
                processor.serve(job, self.now, stop)
            self.now = stop
            self.end(served)
        self.now = self.now if limit is None else limit

    def work(self, job):
        """Lets a served instance begin, if it hasn't, and make the reads that are due."""
        if job.served == 0:
            self.events.append(Begin(self.now, job.instance))
        while job.made < len(job.reads) and job.reads[job.made][0] == job.served:
            self.events.append(Reading(self.now, job.instance, job.reads[job.made][1]))
            job.made += 1

    def end(self, served):
        """Ends the served instances of which nothing is left, by processor; others may have come to a read."""
        for processor, job in served:
            if job.served < job.cost:
                if job.awaited:
                    self.come(job)
            else:
                processor.drop(job)
                self.events.append(End(self.now, job.instance))
                job.awaited = {}
                for it in job.blocks:
                    self.unblock(it, job)

    def unblock(self, job, ended):
        """Lets an instance wait for an ended one no longer."""
        job.blockers.remove(ended)
        if not job.blockers and job.blocked < self.now:
            self.blocked.append(Span(job.instance, job.blocked, self.now))

    def late_of(self, batch):
        """Returns the highest-ranked instance of a batch that is late, or nothing."""
        late = [it for it in batch if self.last[it.task] and self.last[it.task].is_left]
        return min(late, key=lambda it: self.ranks[it.task], default=None)

    def service(self, overrun):
        """Returns what has happened."""
        spans = tuple(span for it in self.processors.values() for span in it.spans)
        return Service(self.command, tuple(self.events), spans, tuple(self.blocked), overrun)


def serve(document, command=Command.SIM):
    """Returns the service of a document by a command."""
    simulation = Simulation(document, command)
    overrun = None
    for time, batch in batches(document):
        simulation.serve_until(time)
        late = simulation.late_of(batch)
        if late:
            overrun = Overrun(document.tasks[late.task].name, late.number, time)
            break
        simulation.release(time, batch)
    simulation.serve_until(None)
    return simulation.service(overrun)
