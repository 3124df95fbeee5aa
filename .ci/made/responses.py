"""Drawn documents of tasks with costs and deadlines, each with drawn offsets; who is served is walked through here tick by
tick. `sim` prints the overrun that the walk finds, or the lines of all instances. `rta` prints the bounds of a plain formula.

Drawn diagrams of several rates have bounds, and some of them none for some tasks. If each task of such a diagram has one,
`sim` has status 0 with whatever offsets; else it has 3 with all offsets 0.

The trial of tools/response compares its figures with those of the walk, and its bounds with the plain formula.
"""

import random
from dataclasses import dataclass, field

DOCUMENTS, OFFSETS = 30, 3
DIAGRAMS, OFFSETS_OF_DIAGRAMS = 120, 4
OK, REFUSED, OVERRUN = 0, 1, 3
UNTIL = 60
EVENTS = ("e", "f")


@dataclass
class Task:
    """A task: its period or the event that it is on, its offset, and its other numbers; a read is a writer, a delay and a
    tick of service."""

    name: str
    clock: object
    offset: int
    condition: bool
    prio: int
    deadline: object
    cost: int
    reads: list = field(default_factory=list)

    def line(self):
        clock = f"on {self.clock}" if self.clock in EVENTS else f"every {self.clock} from {self.offset}"
        condition = " when x" if self.condition else ""
        deadline = "" if self.deadline is None else f" deadline {self.deadline}"
        return f"task {self.name} {clock}{condition} prio {self.prio}{deadline} cost {self.cost}"


@dataclass
class Instance:
    """An instance of a task, by its place: its number, its release, and the ticks in which it was served."""

    task: int
    number: int
    release: int
    served: list = field(default_factory=list)


@dataclass
class Drawn:
    """A drawn document: its policy, its tasks, and the rows of its trace: the value of the input x, and the events."""

    policy: str
    tasks: list
    rows: dict

    def rank(self, place):
        """Returns what a task is ranked by: of two tasks the one with the lesser is above."""
        task = self.tasks[place]
        return (-task.prio if self.policy == "fp" else task.deadline), place

    def text(self):
        """Returns the document."""
        lines = ["dbp 2", f"policy {self.policy}", f"until {UNTIL}", "input x = 1", *(f"event {it}" for it in EVENTS)]
        for task in self.tasks:
            lines.append(task.line())
            for number, (writer, delay, at) in enumerate(task.reads):
                lines.append(f"  read r{number} = {f'pre {delay} ' if delay else ''}t{writer}.y at {at}")
            lines.append("  out y = 0 then 1")
        lines += ["trace", "time,x,e,f"]
        for time, (value, events) in self.rows.items():
            lines.append(",".join([str(time), value, *("1" if it in events else "" for it in EVENTS)]))
        return "\n".join([*lines, "done", ""]).encode()

    def bounds(self):
        """Returns the bound of each task by the plain formula, if all are periodic: nothing where there is none."""
        tasks = [(task.clock, task.cost, self.rank(place)) for place, task in enumerate(self.tasks)]
        return [response_bound(tasks, place) for place in range(len(tasks))]

    def rta(self):
        """Returns the exit status and the lines of `rta`."""
        if self.policy == "edf":
            return REFUSED, b"refused: 31 NotFixed\n"
        for task in self.tasks:
            if task.condition or task.clock in EVENTS:
                return REFUSED, f"refused: 32 NotPeriodic {task.name}\n".encode()
        told = zip(self.tasks, self.bounds())
        return OK, "".join(f"{it.name},{bound or 'beyond'},{it.clock}\n" for it, bound in told).encode()

    def occurs(self, task, time, value):
        """Whether a task occurs at a time at which the input x has a value."""
        if task.condition and value == 0:
            return False
        if task.clock in EVENTS:
            return task.clock in self.rows.get(time, ("", ()))[1]
        return time >= task.offset and (time - task.offset) % task.clock == 0


def drawn_tasks(draw):
    """Returns a policy and tasks that are drawn, without their offsets."""
    policy, tasks = draw.choice(["fp", "fp", "edf"]), []
    is_plain = draw.randrange(2)
    for place in range(draw.randrange(1, 6)):
        period, cost = draw.randrange(5, 25), draw.randrange(1, 4)
        clock = period if is_plain else draw.choice([period, period, *EVENTS])
        deadline = draw.randrange(2, 21) if policy == "edf" or draw.randrange(2) else None
        tasks.append(Task(f"t{place}", clock, 0, not is_plain and draw.randrange(3) == 0, draw.randrange(6), deadline, cost))
    found = Drawn(policy, tasks, {})
    for place, task in enumerate(tasks):
        for writer in draw.sample(range(len(tasks)), draw.randrange(len(tasks))):
            for _ in range(draw.randrange(1, 3) if writer != place else 0):
                least = int(found.rank(writer) > found.rank(place))
                task.reads.append((writer, draw.randrange(least, 3), draw.randrange(task.cost)))
    return found


def drawn_document(seed, offsets):
    """Returns a document by the numbers that its tasks, and its offsets with its trace, are drawn from."""
    found, draw = drawn_tasks(random.Random(seed)), random.Random(f"{seed} {offsets}")
    for task in found.tasks:
        if task.clock not in EVENTS:
            task.offset = draw.randrange(task.clock) if offsets else 0
    for time in sorted(draw.sample(range(UNTIL), draw.randrange(12))):
        value = draw.choice(["", "0", "1"])
        found.rows[time] = value, [name for name in EVENTS if draw.randrange(2)]
    return found


class Walk:
    """The walk through the ticks of a document: its instances in the order of releases, and the overrun if there is one."""

    def __init__(self, drawn):
        self.drawn = drawn
        self.instances = []
        self.overrun = None
        self.end = 0
        value, time = 1, 0
        while self.overrun is None and (time < UNTIL or any(map(self.is_waiting, self.instances))):
            text = drawn.rows.get(time, ("", ()))[0]
            value = int(text) if text else value
            self.release(time, value)
            self.end = time
            if self.overrun is None:
                self.serve(time)
            time += 1

    def is_waiting(self, instance):
        """Whether something of an instance is left."""
        return len(instance.served) < self.drawn.tasks[instance.task].cost

    def of(self, place):
        """Returns the instances of a task."""
        return [it for it in self.instances if it.task == place]

    def release(self, time, value):
        """Releases the tasks that occur at a time, unless one of them is late."""
        tasks = self.drawn.tasks
        now = [at for at, task in enumerate(tasks) if time < UNTIL and self.drawn.occurs(task, time, value)]
        late = [at for at in now if any(map(self.is_waiting, self.of(at)))]
        if late:
            first = min(late, key=self.drawn.rank)
            self.overrun = (first, len(self.of(first)) + 1, time)
        else:
            self.instances += [Instance(at, len(self.of(at)) + 1, time) for at in now]

    def serve(self, time):
        """Serves the instance whose turn it is for a tick."""
        waiting = [it for it in self.instances if self.is_waiting(it)]
        if waiting:
            min(waiting, key=self.turn).served.append(time)

    def turn(self, instance):
        """Returns what decides who is served: the deadline under `edf`, then the rank."""
        deadline = instance.release + self.drawn.tasks[instance.task].deadline if self.drawn.policy == "edf" else 0
        return deadline, self.drawn.rank(instance.task)

    def ended(self, place):
        """Returns the instances of a task that have ended."""
        return [it for it in self.of(place) if not self.is_waiting(it)]

    def missed(self):
        """Returns the first missed deadline: its tick, the rank of its task, and the instance; nothing if none is missed."""
        found = []
        for it in self.instances:
            length = self.drawn.tasks[it.task].deadline
            if length is not None and (self.overrun is None or it.release + length <= self.overrun[2]):
                due = it.release + length
                in_time = [tick for tick in it.served if tick < due]
                if len(in_time) < self.drawn.tasks[it.task].cost:
                    found.append((due, self.drawn.rank(it.task), it))
        return min(found, key=lambda it: it[:2], default=None)

    def answer(self):
        """Returns the exit status and the lines of `sim`."""
        if self.overrun:
            place, number, time = self.overrun
            return OVERRUN, f"overrun: t{place} {number} at {time}\n".encode()
        return OK, "".join(f"{it.release},t{it.task},{it.number},1\n" for it in self.instances).encode()


def response_bound(tasks, at):
    """Returns the bound of a task by the response-time equation, walked up from its cost, or nothing above its period.

    A task is a period, a cost and a rank, where the lesser rank is above.
    """
    period, cost, rank = tasks[at]
    response = cost
    while response <= period:
        asked = cost + sum((response + other - 1) // other * own for other, own, above in tasks if above < rank)
        if asked == response:
            return response
        response = asked
    return None


def drawn_diagram(seed):
    """Returns a diagram of several rates under fixed priorities, some of them equal, without links and offsets."""
    draw = random.Random(f"rates {seed}")
    tasks = []
    for place in range(draw.randrange(2, 8)):
        period = draw.choice([draw.randrange(2, 12), draw.randrange(10, 41)])
        cost = max(1, period // draw.randrange(4, 20))
        tasks.append(Task(f"t{place}", period, 0, False, draw.randrange(5), None, cost))
    return Drawn("fp", tasks, {})


def cases_of_diagrams():
    """Yields the cases of the drawn diagrams: `rta`, and `sim` with all offsets 0 and with drawn ones."""
    for seed in range(DIAGRAMS):
        drawn, draw = drawn_diagram(seed), random.Random(f"offsets {seed}")
        yield f"rta of diagram {seed}", ["rta"], drawn.text(), *drawn.rta()
        is_bounded = None not in drawn.bounds()
        for offsets in range(OFFSETS_OF_DIAGRAMS):
            for task in drawn.tasks if offsets else ():
                task.offset = draw.randrange(task.clock)
            status, lines = Walk(drawn).answer()
            wanted = OK if is_bounded else status if offsets else OVERRUN
            yield f"sim of diagram {seed} with offsets {offsets}", ["sim"], drawn.text(), wanted, lines


def cases():
    for seed in range(DOCUMENTS):
        for offsets in range(OFFSETS):
            drawn = drawn_document(seed, offsets)
            status, lines = Walk(drawn).answer()
            yield f"sim of document {seed} with offsets {offsets}", ["sim"], drawn.text(), status, lines
            yield f"rta of document {seed} with offsets {offsets}", ["rta"], drawn.text(), *drawn.rta()
    yield from cases_of_diagrams()
