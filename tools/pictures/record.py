"""The record of a simulation, made from the order of service and compared with the one that the program prints.

The steps and their order are those of "The record of a simulation" in docs/PROTOCOL.md.
"""

from enum import Enum
from typing import NamedTuple, Optional

from pictures.service import Begin, Command, End, Reading, Release, rank_order


class StepKind(Enum):
    """The steps of a record, by the first word of their lines."""

    SEEN = "seen"
    AIM = "aim"
    CLAIM = "claim"
    OPEN = "open"
    START = "start"
    HEAR = "hear"
    LOOK = "look"
    TAKE = "take"
    SHUT = "shut"
    PUT = "put"
    DONE = "done"
    END = "end"

    def __init__(self, word):
        self.word = word  # read for each step: quicker than `value`


class Link(NamedTuple):
    """A link, by the places of its tasks; its delay is 0 without `pre`."""

    writer: int
    reader: int
    delay: int


class Order(NamedTuple):
    """What an aim or a claim names: a slot, and the number of the row that it is to hold."""

    slot: int
    row: int


class Step(NamedTuple):
    """A step: its number in the record, its tick, the task that it is of, that task's instance, and its line.

    An aim, a claim and a hear have their order, a claim its link too.
    """

    number: int
    time: int
    kind: StepKind
    task: int
    instance: int
    line: str
    order: Optional[Order] = None
    link: Optional[Link] = None


DRAWN = (StepKind.AIM, StepKind.DONE, StepKind.END, StepKind.SEEN, StepKind.CLAIM)  # the steps that pictures show


class Disagreement(Exception):
    """The program's simulation isn't the one that was computed here; `tick` is where the two first differ."""

    def __init__(self, tick, text):
        super().__init__(f"tick {tick}: {text}")
        self.tick = tick


def link_of(document, reader, read):
    """Returns the link of a read of a task."""
    names = [task.name for task in document.tasks]
    return Link(names.index(read.writer), reader, read.delay)


def links_of(document):
    """Returns for each task the links into it, in their order."""
    return [
        list(dict.fromkeys(link_of(document, at, read) for read in task.reads))
        for at, task in enumerate(document.tasks)
    ]


def counted_links(document, command):
    """Returns the links that are counted for slots: those to a lower rank; on several processors all of them."""
    ranks = {task: rank for rank, task in enumerate(rank_order(document))}
    links = [link for into in links_of(document) for link in into]
    return [it for it in links if command is Command.CPUS or ranks[it.reader] > ranks[it.writer]]


class Releaser:
    """The releaser's part in a simulation: per task the current and the kept slots, per link its claim."""

    def __init__(self, document, command):
        links = [link for into in links_of(document) for link in into]
        counted = counted_links(document, command)
        tasks = range(len(document.tasks))
        delays = [max((link.delay for link in links if link.writer == at), default=0) for at in tasks]
        self.into = links_of(document)
        self.counted = [[it for it in counted if it.writer == at] for at in tasks]
        self.known = [0 for _ in tasks]
        self.aimed = [0 for _ in tasks]
        self.current = [0 for _ in tasks]
        self.kept = [[0] * delay for delay in delays]
        self.claims = {}

    def aim(self, task):
        """Aims a task at the least slot that is allowed, and returns the order."""
        kept, slot = self.kept[task], 0
        taken = {self.current[task], *kept[:-1]} if kept else set()
        for link in self.counted[task]:
            order, instance = self.claims.get(link, (None, 0))
            if instance > self.known[link.reader]:
                taken.add(order.slot)
        while slot in taken:
            slot += 1
        return self.aim_at(task, slot)

    def aim_at(self, task, slot):
        """Aims a task at a slot, and returns the order."""
        kept = self.kept[task]
        if kept:
            kept.insert(0, self.current[task])
            kept.pop()
        self.current[task] = slot
        self.aimed[task] += 1
        return Order(slot, self.aimed[task])

    def claim(self, link):
        """Claims a link for the reader's last aimed instance, and returns the order."""
        writer, delay = link.writer, link.delay
        slot = self.kept[writer][delay - 1] if delay else self.current[writer]
        order = Order(slot, max(0, self.aimed[writer] - delay))
        self.claims[link] = (order, self.aimed[link.reader])
        return order

    def release(self, batch):
        """Releases a batch: returns the order of each aim, and then, by instance, those of the claims into it."""
        aims = []
        for it in batch:
            self.known[it.task] = it.number - 1
            aims.append(self.aim(it.task))
        return aims, [[self.claim(link) for link in self.into[it.task]] for it in batch]


class Recorder:
    """Makes the steps of a record, one event after another."""

    def __init__(self, document, command):
        self.document = document
        self.names = [task.name for task in document.tasks]
        self.releaser = Releaser(document, command)
        self.into = self.releaser.into
        self.count = 0

    def step(self, time, kind, instance, *operands, order=None, link=None):
        """Returns the next step."""
        self.count += 1
        line = f"{kind.word} {self.names[instance.task]}"
        if operands:
            line = " ".join([line, *operands])
        return Step(self.count, time, kind, instance.task, instance.number, line, order, link)

    def steps(self, events):
        """Yields the steps of all events."""
        makers = {Release: self.released, Begin: self.begun, Reading: self.made, End: self.ended}
        for event in events:
            yield from makers[type(event)](event)

    def released(self, event):
        """Yields the steps of the release of a batch."""
        yield from self.release_steps(event, *self.releaser.release(event.batch))

    def release_steps(self, event, aims, claims):
        """Yields the steps of the release of a batch, with the orders that the releaser has made."""
        for it, order in zip(event.batch, aims):
            if it.number > 1:
                yield self.step(event.time, StepKind.SEEN, it)
            yield self.step(event.time, StepKind.AIM, it, str(order.slot), order=order)
        for it, orders in zip(event.batch, claims):
            for link, order in zip(self.into[it.task], orders):
                delay = ["pre"] * (link.delay > 0) + [str(link.delay)] * (link.delay > 1)
                operands = [*delay, self.names[link.writer]]
                yield self.step(event.time, StepKind.CLAIM, it, *operands, order=order, link=link)
        for it in event.batch:
            yield self.step(event.time, StepKind.OPEN, it)

    def begun(self, event):
        """Yields the steps by which an instance begins."""
        it = event.instance
        claims = [self.releaser.claims[link][0] for link in self.into[it.task]]
        yield self.step(event.time, StepKind.START, it)
        for order in (Order(self.releaser.current[it.task], it.number), *claims):
            yield self.step(event.time, StepKind.HEAR, it, order=order)

    def made(self, event):
        """Yields the steps of a read."""
        name = self.document.tasks[event.instance.task].reads[event.read].name
        yield self.step(event.time, StepKind.LOOK, event.instance, name)
        yield self.step(event.time, StepKind.TAKE, event.instance, name)

    def ended(self, event):
        """Yields the steps by which an instance ends."""
        it = event.instance
        yield self.step(event.time, StepKind.SHUT, it)
        for out in self.document.tasks[it.task].outs:
            yield self.step(event.time, StepKind.PUT, it, out.name)
        yield self.step(event.time, StepKind.DONE, it)
        yield self.step(event.time, StepKind.END, it)


def steps_of(document, service):
    """Yields the steps of the record of a document whose service is computed."""
    return Recorder(document, service.command).steps(service.events)


class DrawnRecorder(Recorder):
    """Makes the steps that pictures show alone, without their numbers and lines: sooner, where there are millions."""

    def step(self, time, kind, instance, *operands, order=None, link=None):
        """Returns a step."""
        return Step(0, time, kind, instance.task, instance.number, "", order, link)

    def begun(self, event):
        """Yields nothing."""
        return ()

    def made(self, event):
        """Yields nothing."""
        return ()


def drawn_steps(document, service):
    """Yields the steps that pictures show of a record that is known to agree, without their numbers and lines."""
    return (step for step in DrawnRecorder(document, service.command).steps(service.events) if step.kind in DRAWN)


class Texts:
    """The text of a record, event by event. The texts of like events are alike, and are made once."""

    def __init__(self, document, command):
        self.recorder = Recorder(document, command)
        self.made = {}

    def of_all(self, events):
        """Returns the text of all events."""
        made, found = self.made, []
        for event in events:
            if type(event) is Release:
                found.append(self.of_release(event))
            else:
                key = (type(event), event[1][0], *event[2:])  # the task, and the place of a read
                text = made.get(key)
                found.append(text or self.kept(key, self.recorder.steps([event])))
        return "".join(found)

    def of_release(self, event):
        """Returns the text of the release of a batch."""
        aims, claims = self.recorder.releaser.release(event.batch)
        key = tuple([(it.task, it.number > 1, order.slot) for it, order in zip(event.batch, aims)])
        return self.made.get(key) or self.kept(key, self.recorder.release_steps(event, aims, claims))

    def kept(self, key, steps):
        """Keeps the lines of steps for the events that are alike, and returns them."""
        self.made[key] = "".join(f"{step.line}\n" for step in steps)
        return self.made[key]


def must_record(document, service, record):
    """Refuses a service whose record isn't the text that the program printed; the tick is named where the two differ."""
    if Texts(document, service.command).of_all(service.events) != record:
        agreed_steps(document, service, record.splitlines())


def agreed_steps(document, service, lines):
    """Returns the steps that pictures show, if the program's lines are those of the computed record.

    A tick is named where the two differ.
    """
    found, count, tick = [], 0, 0
    for step in steps_of(document, service):
        if count == len(lines):
            raise Disagreement(step.time, f"step {step.number} is `{step.line}`, and the record has ended")
        if lines[count] != step.line:
            raise Disagreement(step.time, f"step {step.number} is `{step.line}`, and the record has `{lines[count]}`")
        if step.kind in DRAWN:
            found.append(step)
        count, tick = step.number, step.time
    if len(lines) > count:
        raise Disagreement(tick, f"the last step is {count}, and the record goes on with `{lines[count]}`")
    return found
