"""Documents of both versions that are drawn from a number, for bench/against_peer.py.

A text is one of the examples and cases, or comes from a drawer: those of .ci, that of scenarios, and the one below, which
draws every line of the language. Then it may get version 2, other blanks, comments and numbers with zeros, a script made of
steps that a program took, other names and numbers, or the changes of bench/mutants.py.
"""

import importlib.util
import random
import re
import sys
from functools import lru_cache
from pathlib import Path

TOP = Path(__file__).resolve().parent.parent
sys.path.insert(0, str(TOP / ".ci"))

from documents import filled  # noqa: E402
from drawn_documents import NUMBERS, Draw  # noqa: E402
from mutants import mutant_of  # noqa: E402
from scenario_texts import drawn_document as drawn_scenario  # noqa: E402

NAMES = ("a", "B", "_", "x9", "time", "T", "t", "a_name_of_24_characters_", "dbp_", "on_", "e1", "level")
LIMITS = tuple(b"%d" % it for it in (0, 1, 2, 7, 8, 9, 32, 99_999, 100_001, 10**6, 10**6 + 1, 10**9, 10**9 + 1, 2**63 - 1, 2**63))
BLANKS = (" ", " ", " ", "  ", "\t", " \t ")
MOST_STEPS = 400


@lru_cache(maxsize=None)
def made(name):
    """Returns a module of .ci/made."""
    spec = importlib.util.spec_from_file_location(name, TOP / ".ci" / "made" / f"{name}.py")
    module = importlib.util.module_from_spec(spec)
    spec.loader.exec_module(module)
    return module


@lru_cache(maxsize=None)
def kept_documents():
    """Returns the texts of the examples and cases."""
    return [it.read_bytes() for folder in ("examples", "cases") for it in sorted((TOP / folder).rglob("*.dbp"))]


class Drawing:
    """A document of any lines. It is accepted for the most part: names, ranks and times fit, but for a few by chance."""

    def __init__(self, number):
        self.expressions = Draw(number)
        self.draw = draw = self.expressions.random
        self.version, self.policy = draw.choice((1, 2, 2)), draw.choice(("fp", "fp", "edf"))
        self.scale = draw.choice((1, 1, 1, 1, 1, 10_000_000))
        self.until = draw.choice((0, 1, 2, 7, 20, 60, 90, 100))
        names = draw.sample(NAMES, len(NAMES))
        count = draw.choice((1, 1, 2, 2, 3, 4))
        self.inputs, self.events = names[: draw.randrange(count + 1)], names[4 : 4 + draw.randrange(count + 1)]
        self.tasks = [f"t{place}" for place in range(draw.choice((0, 1, 2, 3, 4, 5, 6, 9, 32)))]
        if self.tasks and draw.randrange(3) == 0:
            self.tasks[draw.randrange(len(self.tasks))] = names[8]
        self.costs = [draw.choice((1, 1, 1, 2, 3, 7)) for _ in self.tasks]
        self.ranks = [draw.randrange(1, draw.choice((2, 5, 40))) for _ in self.tasks]
        self.outs = [draw.randrange(1, 9 if draw.randrange(8) == 0 else 4) for _ in self.tasks]

    def lines(self):
        """Returns the lines of the document."""
        draw = self.draw
        declared = [f"input {it} = {draw.choice(NUMBERS)}" for it in self.inputs] + [f"event {it}" for it in self.events]
        draw.shuffle(declared)
        lines = [f"dbp {self.version}", f"policy {self.policy}", f"until {self.until * self.scale}", *declared]
        for place in range(len(self.tasks)):
            lines += [self.head(place), *self.body(place)]
        return [*lines, *self.trace(), "done"]

    def head(self, place):
        """Returns the line of a task."""
        draw, period = self.draw, self.draw.choice((1, 2, 3, 4, 5, 8, 12, 30))
        start = draw.choice(("", "", f" from {draw.randrange(12) * self.scale}"))
        clock = f"every {period * self.scale}{start}"
        if self.events and draw.randrange(3) == 0:
            clock = f"on {draw.choice(self.events)}"
        is_fixed, has_both, other = self.policy == "fp", draw.randrange(3) == 0, draw.randrange(1, 9)
        prio = f" prio {self.ranks[place] if is_fixed else other}" if is_fixed or has_both else ""
        deadline = f" deadline {(other if is_fixed else self.ranks[place]) * self.scale}" if has_both or not is_fixed else ""
        when, cpu = "", ""
        if self.version == 2:
            when = f" when {draw.choice(self.inputs)}" if self.inputs and draw.randrange(4) == 0 else ""
            cpu = f" cpu {draw.randrange(8)}" if draw.randrange(3) else ""
        return f"task {self.tasks[place]} {clock}{when}{prio}{deadline} cost {self.costs[place] * self.scale}{cpu}"

    def is_above(self, place, other):
        """Whether a task is ranked above another one."""
        sign = -1 if self.policy == "fp" else 1
        return (sign * self.ranks[place], place) < (sign * self.ranks[other], other)

    def read(self, place, number):
        """Returns a read of another task."""
        draw = self.draw
        writer = draw.choice([it for it in range(len(self.tasks)) if it != place])
        delay = draw.choice((0, 0, 0, 1, 1, 2, 8))
        if self.is_above(place, writer) and draw.randrange(60):
            delay = max(1, delay)
        spelled = "" if delay == 0 else draw.choice(("pre ", "pre 1 ")) if delay == 1 else f"pre {delay} "
        late = draw.choice(("", f" at {draw.randrange(self.costs[place]) * self.scale}"))
        return f"read r{number} = {spelled}{self.tasks[writer]}.o{draw.randrange(self.outs[writer])}{late}"

    def body(self, place):
        """Returns the lines of a task's body in any order."""
        draw = self.draw
        states = [f"s{number}" for number in range(draw.randrange(4))]
        senses = [f"i{number}" for number in range(draw.randrange(3) if self.inputs else 0)]
        reads = [f"r{number}" for number in range(draw.choice((0, 1, 1, 2, 3)) if len(self.tasks) > 1 else 0)]
        lines = [f"state {it} = {draw.choice(NUMBERS)}" for it in states]
        lines += [f"sense {it} = {draw.choice(self.inputs)}" for it in senses]
        lines += [self.read(place, number) for number in range(len(reads))]
        lets, known = self.expressions.lets([*states, *senses, *reads] or ["7"])
        lines += [it.strip() for it in lets] + [f"next {it} = {self.value(known)}" for it in states if draw.randrange(5)]
        lines += [f"out o{port} = {draw.choice(NUMBERS)} then {self.value(known)}" for port in range(self.outs[place])]
        draw.shuffle(lines)
        return lines

    def value(self, names):
        """Returns an expression of few nodes or of many."""
        return self.expressions.expression(names, self.draw.choice((1, 5, 12, 40, 60)))

    def trace(self):
        """Returns the lines of a trace, or none."""
        draw = self.draw
        if draw.randrange(5) == 0 and not self.events:
            return []
        columns = [*self.inputs, *self.events]
        columns = draw.sample(columns, len(columns) - (draw.randrange(4) == 0 and len(columns) > 0))
        times = sorted(draw.sample(range(self.until), draw.randrange(min(self.until, 40) + 1)))
        rows = [[str(time * self.scale), *(self.cell(it in self.events) for it in columns)] for time in times]
        return ["trace", ",".join(["time", *columns]), *map(",".join, rows)]

    def cell(self, is_event):
        """Returns a cell of an event or an input."""
        values = ("", "", "0", "1", "1") if is_event else ("", "", "0", "0", "1", "-1", "007", str(self.draw.choice(NUMBERS)))
        return self.draw.choice(values)


def spelled_otherwise(draw, text):
    """Returns a text that says the same with other blanks, ends of lines and zeros, comments and blank lines."""
    found, is_diagram = [], True
    for line in text.split(b"\n")[:-1]:
        words = line.decode("latin-1")
        is_diagram = is_diagram and words.strip() != "trace"
        if is_diagram and draw.randrange(2):
            words = "".join(draw.choice(BLANKS) if it == " " else it for it in words)
            words = re.sub(r"\b[0-9]+\b", lambda it: "00" + it[0] if draw.randrange(8) == 0 else it[0], words)
            words += draw.choice(("", "", "  # a comment, 5x ((", "#"))
            found += draw.choice(([], [], [], [b""], [b" \t # alone"]))
        found.append(words.encode("latin-1") + draw.choice((b"", b"", b"\r")))
    return b"\n".join([*found, *draw.choice(([], [b""], [b"", b"# after", b""]))])


def in_version_2(draw, text):
    """Returns a text in version 2 with conditions and processors at some of its task lines."""
    inputs = re.findall(rb"(?m)^[ \t]*input[ \t]+(\w+)", text)
    found = []
    for line in re.sub(rb"\bdbp[ \t]+0*1\b", b"dbp 2", text, count=1).split(b"\n"):
        is_task = re.match(rb"[ \t]*task[ \t]", line) and b"#" not in line
        if is_task and b" cpu " not in line and draw.randrange(2):
            line = line.rstrip() + b" cpu %d" % draw.randrange(8)
        if is_task and inputs and b" when " not in line and draw.randrange(3) == 0:
            line = re.sub(rb"[ \t](prio|deadline|cost)[ \t]", rb" when %s\g<0>" % draw.choice(inputs), line, count=1)
        found.append(line)
    return b"\n".join(found)


def with_other_tokens(draw, text):
    """Returns a text in which some names are others of its names, and some numbers others or at the limits."""
    for _ in range(draw.randint(1, 3)):
        kind = draw.choice((rb"[A-Za-z_]\w*", rb"[0-9]+"))
        found = [*re.finditer(rb"(?<!\w)%s(?!\w)" % kind, text)]
        if found:
            place, other = draw.choice(found), draw.choice(found)[0]
            if place[0].isdigit() and draw.randrange(2):
                other = draw.choice(LIMITS)
            text = text[: place.start()] + other + text[place.end() :]
    return text


def padded(draw, text):
    """Returns a text with so many comments before it that it is about as long as a document may be."""
    return draw.choice((b"", b" ", b"#\n", b"\n"))[: draw.randrange(3)] + filled(text, b"#" * 99)


def changed_steps(draw, record):
    """Returns the first steps of a record, some of them in another order, doubled, left out, or with another number."""
    steps = record.split(b"\n")[:-1]
    steps = steps[: draw.randrange(min(len(steps), MOST_STEPS) + 1)]
    for _ in range(draw.choice((0, 0, 1, 2, 9))):
        at = draw.randrange(len(steps) + 1)
        if at == len(steps):
            continue
        if draw.randrange(3):
            steps.insert(max(0, at + draw.randrange(-4, 5)), steps.pop(at))
        elif draw.randrange(2):
            steps[at : at + 1] = [steps[at]] * draw.choice((0, 2))
        else:
            steps[at] = re.sub(rb"\b[0-9]+\b", b"%d" % draw.randrange(5), steps[at])
    return steps


def with_changed_steps(draw, form, record):
    """Returns a canonical text with steps of a record as its script."""
    diagram = form[: -len(b"done\n")].partition(b"\nscript\n")[0].rstrip(b"\n")
    return b"\n".join([diagram, b"script", *changed_steps(draw, record), b"done", b""])


def diagram_of_rates(draw):
    """Returns a diagram of several rates with drawn offsets."""
    drawn = made("responses").drawn_diagram(draw.random())
    for task in drawn.tasks:
        task.offset = draw.randrange(task.clock)
    return drawn.text()


def conditions(draw):
    """Returns a document of tasks with conditions."""
    model, count = made("drawn_conditions"), draw.randrange(1, 6)
    tasks = [model.Task(draw, place, count) for place in range(count)]
    return model.document(tasks, {it: draw.choice([0, 3]) for it in model.INPUTS}, model.drawn_rows(draw))


SOURCES = (
    *3 * (lambda draw: "\n".join([*Drawing(draw.random()).lines(), ""]).encode(),),
    lambda draw: made("drawn_processors").drawn_document(draw.random(), draw.randrange(1, 9)).text(),
    lambda draw: made("drawn_ranks").Drawing(draw).text().encode(),
    lambda draw: drawn_scenario(draw.random()).text().encode(),
    lambda draw: draw.choice(kept_documents()),
    diagram_of_rates,
    conditions,
)


def drawn_text(seed, number):
    """Returns the document of a number; half of them are changed, and most of those have a fault."""
    draw = random.Random(f"{seed} {number}")
    text = draw.choice(SOURCES)(draw)
    if draw.randrange(8) == 0:
        text = in_version_2(draw, text)
    if draw.randrange(4) == 0:
        text = spelled_otherwise(draw, text)
    change = draw.choice((None, None, None, mutant_of, with_other_tokens, with_other_tokens))
    text = change(draw, text) if change else text
    return padded(draw, text) if draw.randrange(500) == 0 else text
