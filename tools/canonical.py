"""The canonical text of a document, as `dbp form` writes it, read into records.

Only text that the program wrote is read here, so a text that isn't canonical has no refusal of its own.
"""

from bisect import bisect_left
from dataclasses import dataclass
from functools import cached_property
from itertools import chain
from typing import Optional, Tuple, Union

from policies import POLICIES, Policy


@dataclass(frozen=True)
class Input:
    """An input, with its value before the first sample."""

    name: str
    first: int


@dataclass(frozen=True)
class Every:
    """A clock with a period, from an offset on."""

    period: int
    offset: int


@dataclass(frozen=True)
class On:
    """The clock of a task that occurs at the times of an event."""

    event: str


@dataclass(frozen=True)
class State:
    """A state, with its value before the first instance."""

    name: str
    first: int


@dataclass(frozen=True)
class Sense:
    """A name for an input's value."""

    name: str
    input: str


@dataclass(frozen=True)
class Read:
    """A name for an out of a task: its delay is the K of `pre K`, 0 without `pre`; `at` is in ticks of service."""

    name: str
    writer: str
    port: str
    delay: int
    at: int


@dataclass(frozen=True)
class Let:
    """A name for the value of an expression, which is kept as its text."""

    name: str
    expression: str


@dataclass(frozen=True)
class Next:
    """The value that a state takes at the end of an instance."""

    state: str
    expression: str


@dataclass(frozen=True)
class Out:
    """An out, with its value before the first instance."""

    name: str
    first: int
    expression: str


@dataclass(frozen=True)
class Task:
    """A task with its body; the lines of one kind stand in order of declaration.

    `when` is the input that must not be 0 when it occurs, `cpu` its processor.
    """

    name: str
    clock: Union[Every, On]
    when: Optional[str]
    prio: Optional[int]
    deadline: Optional[int]
    cost: int
    cpu: int
    states: Tuple[State, ...]
    senses: Tuple[Sense, ...]
    reads: Tuple[Read, ...]
    lets: Tuple[Let, ...]
    nexts: Tuple[Next, ...]
    outs: Tuple[Out, ...]


@dataclass(frozen=True)
class TraceRow:
    """A row of a trace: its time, and the cells after it in the order of the columns, without blanks around them."""

    time: int
    cells: Tuple[str, ...]


@dataclass(frozen=True)
class Trace:
    """The kept lines of a trace section. `form` checks none of them: columns and rows are there if `mean` accepts."""

    lines: Tuple[str, ...]

    @cached_property
    def columns(self):
        """Returns the names of inputs and events in the header, after `time`."""
        return cells_of(self.lines[0])[1:]

    @cached_property
    def rows(self):
        """Returns the rows after the header."""
        cut = [cells_of(line) for line in self.lines[1:]]
        return tuple(TraceRow(int(cells[0]), cells[1:]) for cells in cut)

    @cached_property
    def filled_cells(self):
        """Returns, by input and event, the time and the cell of each row in which something stands under it."""
        found = {name: [] for name in self.columns}
        for row in self.rows:
            for name, cell in zip(self.columns, row.cells):
                if cell:
                    found[name].append((row.time, cell))
        return found


@dataclass(frozen=True)
class Document:
    """A document. Its trace is None without such a section, and so are the lines of its script."""

    version: int
    policy: Policy
    until: int
    inputs: Tuple[Input, ...]
    events: Tuple[str, ...]
    tasks: Tuple[Task, ...]
    trace: Optional[Trace]
    script: Optional[Tuple[str, ...]]

    def task(self, name):
        """Returns the task of this name."""
        return next(task for task in self.tasks if task.name == name)

    def ranking_number(self, task):
        """Returns the number by which the policy ranks a task."""
        return getattr(task, self.policy.number)

    def cells_under(self, name):
        """Returns the time and the cell of each row in which something stands under an input or an event."""
        return self.trace.filled_cells.get(name, []) if self.trace else []

    def event_times(self, event):
        """Returns the times at which an event occurs."""
        return [time for time, cell in self.cells_under(event) if cell == "1"]

    def samples(self, name):
        """Returns the time and the value of each sample of an input."""
        return [(time, int(cell)) for time, cell in self.cells_under(name)]

    def times(self, task):
        """Returns the times at which a task occurs, in their order."""
        clock = task.clock
        is_periodic = isinstance(clock, Every)
        base = range(clock.offset, self.until, clock.period) if is_periodic else self.event_times(clock.event)
        if task.when is None:
            return base
        first = next(it.first for it in self.inputs if it.name == task.when)
        return list(chain.from_iterable(times_in(base, spans_on(first, self.samples(task.when), self.until))))


def spans_on(first, samples, until):
    """Yields the spans of ticks in which an input isn't 0: each one's first tick, and the one after its last.

    The input has its first value until the first sample; a sample is a time and a value, and the times rise.
    """
    start, value = 0, first
    for time, following in [*samples, (until, 0)]:
        if value and start < time:
            yield start, time
        start, value = time, following


def times_in(base, spans):
    """Yields, for each span, the base times in it. Base times are a range or a list, and rise."""
    for start, stop in spans:
        yield base[count_below(base, start) : count_below(base, stop)]


def count_below(base, tick):
    """Returns how many base times are below a tick, without going through them."""
    if isinstance(base, range):
        return len(range(base.start, min(tick, base.stop), base.step))
    return bisect_left(base, tick)


def cells_of(line):
    """Returns the cells of a line of a trace."""
    return tuple(cell.strip(" \t") for cell in line.split(","))


def read_read(words):
    """Returns the read of the words of its line after `read`, as in x = pre 2 a.y at 0."""
    name, _, *source, _, at = words
    writer, port = source[-1].split(".")
    delay = 0 if len(source) == 1 else int(source[1]) if len(source) == 3 else 1
    return Read(name, writer, port, delay, int(at))


def read_out(text):
    """Returns the out of its line after `out`, as in y = 0 then n + 1."""
    head, _, expression = text.partition(" then ")
    name, _, first = head.split()
    return Out(name, int(first), expression)


def read_part(line):
    """Returns the part that a line of a task's body has."""
    kind, _, text = line.strip().partition(" ")
    name, _, value = text.partition(" = ")
    if kind == "read":
        return read_read(text.split())
    if kind == "out":
        return read_out(text)
    if kind == "state":
        return State(name, int(value))
    return {"sense": Sense, "let": Let, "next": Next}[kind](name, value)


def read_task(head, body):
    """Returns the task of its first line and the lines of its body."""
    words = head.split()
    given = dict(zip(words[2::2], words[3::2]))
    clock = On(given["on"]) if "on" in given else Every(int(given["every"]), int(given["from"]))
    prio, deadline = (int(given[word]) if word in given else None for word in ("prio", "deadline"))
    cost, cpu = int(given["cost"]), int(given.get("cpu", 0))
    parts = [read_part(line) for line in body]
    kinds = (State, Sense, Read, Let, Next, Out)
    lists = (tuple(part for part in parts if isinstance(part, kind)) for kind in kinds)
    return Task(words[1], clock, given.get("when"), prio, deadline, cost, cpu, *lists)


def tasks_of(lines):
    """Returns the tasks of the lines from the first `task` line on."""
    heads = [number for number, line in enumerate(lines) if not line.startswith("  ")]
    ends = [*heads[1:], len(lines)]
    return tuple(read_task(lines[head], lines[head + 1 : end]) for head, end in zip(heads, ends))


def split_sections(lines):
    """Returns the lines of the diagram, of the trace and of the script; None for a section that isn't there."""
    diagram, trace, script = [], None, None
    section = diagram
    for line in lines[:-1]:
        word = line.strip(" \t")
        if word == "trace" and section is diagram:
            section = trace = []
        elif word == "script" and script is None:
            section = script = []
        else:
            section.append(line)
    return diagram, trace, script


def read_document(text):
    """Returns the document of a canonical text, given as bytes or as str."""
    lines = (text.decode("ascii") if isinstance(text, bytes) else text).split("\n")[:-1]
    diagram, trace, script = split_sections(lines)
    first_task = next((at for at, line in enumerate(diagram) if line.startswith("task ")), len(diagram))
    declared = [line.split() for line in diagram[3:first_task]]
    return Document(
        version=int(diagram[0].split()[1]),
        policy=POLICIES[diagram[1].split()[1]],
        until=int(diagram[2].split()[1]),
        inputs=tuple(Input(words[1], int(words[3])) for words in declared if words[0] == "input"),
        events=tuple(words[1] for words in declared if words[0] == "event"),
        tasks=tasks_of(diagram[first_task:]),
        trace=None if trace is None else Trace(tuple(trace)),
        script=None if script is None else tuple(script),
    )
