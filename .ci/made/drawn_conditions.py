"""Drawn documents of tasks with conditions; the lines of their meaning are made here a second time, tick by tick."""

import random

DOCUMENTS = 80
UNTIL = 60
INPUTS = ("x", "z")
EVENTS = ("e", "f")


class Task:
    """A task: its clock, its condition or nothing, its reads as writers and delays, and the values of its instances.

    Of two tasks the one declared earlier is ranked above, so only reads of a later task need a delay.
    """

    def __init__(self, draw, place, count):
        self.name = f"t{place}"
        self.clock = draw.choice([(draw.randrange(1, 9), draw.randrange(6)), *EVENTS])
        self.condition = draw.choice([*INPUTS, *INPUTS, None])
        others = [other for other in range(count) if other != place]
        self.reads = [(other, draw.randrange(3) or int(other > place)) for other in others if draw.randrange(2)]
        self.values = [-place]

    def lines(self):
        clock = f"on {self.clock}" if self.clock in EVENTS else "every %d from %d" % self.clock
        condition = f" when {self.condition}" if self.condition else ""
        yield f"task {self.name} {clock}{condition} prio {99 - int(self.name[1:])} cost 1 cpu {len(self.reads)}"
        yield from ("state n = 0", "next n = n + 1")
        for writer, delay in self.reads:
            yield f"read r{writer} = " + (f"pre {delay} " if delay else "") + f"t{writer}.y"
        terms = "".join(f" + r{writer}" for writer, _ in self.reads)
        yield f"out y = {self.values[0]} then (n * 7{terms}) % 1000"

    def occurs(self, time, inputs, events):
        if self.clock in EVENTS:
            ticks = self.clock in events
        else:
            period, offset = self.clock
            ticks = time >= offset and (time - offset) % period == 0
        return ticks and (self.condition is None or inputs[self.condition] != 0)

    def add_instance(self, tasks, now):
        """Adds the value of an instance; `now` has the tasks that occur at this time, in the order of their ranks."""
        total = 7 * (len(self.values) - 1)
        for writer, delay in self.reads:
            values = tasks[writer].values
            comes = tasks[writer] in now and tasks.index(self) < writer
            total += values[max(0, len(values) - 1 - delay + comes)]
        self.values.append(total % 1000 if total >= 0 else -(-total % 1000))


def drawn_rows(draw):
    """Returns some times, each with the new values of inputs and the events that occur."""
    rows = {}
    for time in sorted(draw.sample(range(UNTIL), draw.randrange(30))):
        values = {name: draw.choice([0, 0, 1, -1, 7]) for name in INPUTS if draw.randrange(2)}
        rows[time] = values, [name for name in EVENTS if draw.randrange(2)]
    return rows


def document(tasks, firsts, rows):
    lines = ["dbp 2", "policy fp", f"until {UNTIL}", *(f"input {name} = {first}" for name, first in firsts.items())]
    lines += [*(f"event {name}" for name in EVENTS), *(line for task in tasks for line in task.lines())]
    lines += ["trace", ",".join(["time", *INPUTS, *EVENTS])]
    for time, (values, events) in rows.items():
        cells = [*(values.get(name, "") for name in INPUTS), *(int(name in events) for name in EVENTS)]
        lines.append(",".join(map(str, [time, *cells])))
    return "\n".join([*lines, "done", ""]).encode()


def meaning(tasks, firsts, rows):
    """Returns the lines of all instances, tick by tick."""
    inputs, lines = dict(firsts), []
    for time in range(UNTIL):
        values, events = rows.get(time, ({}, []))
        inputs.update(values)
        now = [task for task in tasks if task.occurs(time, inputs, events)]
        for task in now:
            task.add_instance(tasks, now)
            lines.append(f"{time},{task.name},{len(task.values) - 1},{task.values[-1]}\n")
    return "".join(lines).encode()


def cases():
    for seed in range(DOCUMENTS):
        draw = random.Random(seed)
        count = draw.randrange(1, 6)
        tasks = [Task(draw, place, count) for place in range(count)]
        firsts, rows = {name: draw.choice([0, 3]) for name in INPUTS}, drawn_rows(draw)
        text, lines = document(tasks, firsts, rows), meaning(tasks, firsts, rows)
        for words in (["mean"], ["run", "--turns", str(seed)]):
            yield f"{' '.join(words)} of document {seed}", words, text, 0, lines
