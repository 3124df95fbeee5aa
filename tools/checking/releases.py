"""Which step comes next for the releaser and for each task, after the steps that the program has taken."""

from dataclasses import dataclass

from checking.occurrences import Times
from checking.steps import claims_of

WAITING = ("closed", "notyet")


@dataclass(frozen=True)
class Taken:
    """A step that the program has taken: its line, its text, and what it heard."""

    line: int
    text: str
    heard: str

    @property
    def words(self):
        """The words of the step."""
        return self.text.split()

    @property
    def is_waiting(self):
        """Whether it left its party where it was."""
        return self.heard in WAITING or self.words[0] == "seen"


def taken_steps(document, stdout):
    """Returns the steps that `dbp replay` printed, with their lines."""
    printed = [line.partition(" -> ") for line in stdout.decode("ascii", "replace").splitlines()]
    return [Taken(step.line, text, heard) for step, (text, _, heard) in zip(document.steps, printed)]


def is_of_releaser(word):
    """Whether a step that begins with a word is one of the releaser."""
    return word in ("seen", "aim", "claim", "open")


def party_of(words):
    """Returns whose step it is: a task's name, or nothing for the releaser."""
    return None if is_of_releaser(words[0]) else words[1]


def batches(document):
    """Yields the tasks that occur at each time, in the order of the times."""
    times, by_time = Times(document), {}
    for task in document.tasks:
        for time in times.of(task):
            by_time.setdefault(time, []).append(task)
    yield from (by_time[time] for time in sorted(by_time))


def actions(document):
    """Yields the releaser's actions: aims without a slot, claims and opens."""
    for batch in batches(document):
        yield from (f"aim {task.name}" for task in batch)
        for task in batch:
            yield from claims_of_links(document, task)
        yield from (f"open {task.name}" for task in batch)


def claims_of_links(document, task):
    """Returns the claims into a task, by the numbers of the links: a link has that of its first `read` line."""
    order = [claim for reader, claim in all_claims(document) if reader is task]
    return list(dict.fromkeys(order))


def all_claims(document):
    """Yields each task with each claim into it."""
    for task in document.tasks:
        for claim in claims_of(task):
            yield task, claim


def instance_steps(task):
    """Returns the steps of an instance of a task, in their order."""
    name = task.name
    reads = sorted(task.lines("read"), key=lambda it: it.number("at", 0))
    looks = [f"{word} {name} {read.name.text}" for read in reads for word in ("look", "take")]
    puts = [f"put {name} {out.name.text}" for out in task.lines("out")]
    hears = [f"hear {name}"] * (1 + len(claims_of(task)))
    return [f"start {name}", *hears, *looks, f"shut {name}", *puts, f"done {name}", f"end {name}"]


def next_of_task(task, taken):
    """Returns the next step of a task."""
    steps = instance_steps(task)
    made = sum(party_of(it.words) == task.name and not it.is_waiting for it in taken)
    return steps[made % len(steps)]


def next_of_releaser(document, taken):
    """Returns the next action of the releaser, an aim without its slot, or nothing after the last one."""
    made = sum(is_of_releaser(it.words[0]) and not it.is_waiting for it in taken)
    for place, action in enumerate(actions(document)):
        if place == made:
            return action
    return None


@dataclass(frozen=True)
class Claim:
    """The last claim of a link: its step, the reader, the reader's instance, and the slot that it names."""

    step: Taken
    reader: str
    instance: int
    slot: int


def standing_claims(taken, writer):
    """Returns the last claim of each link from a task whose reader isn't known to have ended."""
    aims, known, last = {}, {}, {}
    for step in taken:
        word, task, *rest = step.words
        if word == "aim":
            aims.setdefault(task, []).append(int(rest[0]))
        elif word == "seen":
            known[task] = int(step.heard)
        elif word == "claim" and rest[-1] == writer:
            delay = int(rest[1]) if len(rest) == 3 else len(rest) - 1
            slots = [0] * (delay + 1) + aims.get(writer, [])
            last[step.text] = Claim(step, task, len(aims.get(task, [])), slots[-1 - delay])
    return [it for it in last.values() if it.instance > known.get(it.reader, 0)]
