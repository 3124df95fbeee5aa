"""The slots of a task over the time of a simulation: which row each is to hold, holds, and for whom it stays."""

from dataclasses import dataclass
from enum import Enum
from typing import Optional

from pictures.record import StepKind, counted_links, links_of


class Use(Enum):
    """What is said of a slot for some time, in the order of the lanes in which it is drawn."""

    AIMED = "aimed"
    HELD = "held"
    KEPT = "kept"
    CLAIMED = "claimed"


@dataclass
class Stay:
    """A use of a slot for a row: from a step on, or from the start, until another step, if there is one.

    A claim names its reader's instance, and `ended` is the time at which that ends. Over a counted link the claim
    stands until the releaser sees so.
    """

    use: Use
    slot: int
    row: int
    start: int
    step: Optional[int] = None
    stop: Optional[int] = None
    reader: Optional[str] = None
    ended: Optional[int] = None


class SlotBook:
    """Writes down the stays of one task's slots, from the steps of a record."""

    def __init__(self, document, task, command):
        links = [link for into in links_of(document) for link in into if link.writer == task]
        self.names = [it.name for it in document.tasks]
        self.task = task
        self.counted = {*counted_links(document, command)}
        self.most_kept = max((link.delay for link in links), default=0)
        first = Stay(Use.HELD, 0, 0, 0)
        self.stays = [first]
        self.held = {0: first}
        self.aimed = None
        self.current = (0, 0)
        self.kept = []
        self.standing = {}

    def add(self, stay):
        """Adds a stay, and returns it."""
        self.stays.append(stay)
        return stay

    def take(self, step):
        """Takes the next step of the record."""
        if step.task == self.task and step.kind is StepKind.AIM:
            self.take_aim(step)
        elif step.task == self.task and step.kind is StepKind.DONE:
            self.take_done(step)
        if step.kind is StepKind.CLAIM and step.link.writer == self.task:
            self.take_claim(step)
        elif step.kind in (StepKind.END, StepKind.SEEN):
            self.take_end(step)

    def take_aim(self, step):
        """The current slot becomes a kept one, if any are kept, and another slot is current."""
        if self.most_kept:
            slot, row = self.current
            self.kept.insert(0, self.add(Stay(Use.KEPT, slot, row, step.time, step.number)))
            for dropped in self.kept[self.most_kept :]:
                dropped.stop = step.time
            del self.kept[self.most_kept :]
        self.current = (step.order.slot, step.order.row)
        self.aimed = self.add(Stay(Use.AIMED, *self.current, step.time, step.number))

    def take_done(self, step):
        """The current slot holds its row, and no longer the one before."""
        slot, row = self.current
        self.aimed.stop = step.time
        if slot in self.held:
            self.held[slot].stop = step.time
        self.held[slot] = self.add(Stay(Use.HELD, slot, row, step.time, step.number))

    def take_claim(self, step):
        """A slot is claimed for an instance of a reader."""
        reader = f"{self.names[step.task]} {step.instance}"
        order = step.order
        stay = self.add(Stay(Use.CLAIMED, order.slot, order.row, step.time, step.number, reader=reader))
        self.standing[step.link] = stay

    def take_end(self, step):
        """Claims no longer stand if their reader has ended, over a counted link if the releaser sees that."""
        for link, stay in list(self.standing.items()):
            if link.reader != step.task:
                continue
            if step.kind is StepKind.END:
                stay.ended = step.time
            if step.kind is StepKind.SEEN or link not in self.counted:
                stay.stop = step.time
                del self.standing[link]


def stays_of(simulated, task):
    """Returns the stays of the slots of a task, in the order of their steps."""
    return stays_of_all(simulated, [task])[0]


def stays_of_all(simulated, tasks):
    """Returns the stays of the slots of each of these tasks, in the order of their steps."""
    books = {task: SlotBook(simulated.document, task, simulated.command) for task in tasks}
    written = [{link.writer for link in into} for into in links_of(simulated.document)]
    limit = simulated.overrun.time if simulated.overrun else float("inf")
    for step in simulated.steps:
        is_before = step.time < limit or (step.time == limit and step.kind in (StepKind.DONE, StepKind.END))
        for task in writers_of(step, written) if is_before else ():
            if task in books:
                books[task].take(step)
    return [book.stays for book in books.values()]


def writers_of(step, written):
    """Returns the tasks whose slots a step is about; `written` has for each task those that it reads."""
    if step.kind in (StepKind.AIM, StepKind.DONE):
        return (step.task,)
    return (step.link.writer,) if step.kind is StepKind.CLAIM else written[step.task]
