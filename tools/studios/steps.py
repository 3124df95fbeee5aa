"""The shared words, and what the releaser knows, after each step of a script: as docs/PROTOCOL.md says of each step.

The program takes the steps; what each hears by its own account is compared with the words that are computed here.
"""

from functools import partial

from canonical import read_document
from checking.illegal import Replaying, illegal_of
from checking.language import MOST_BYTES
from checking.releases import taken_steps
from checking.verdicts import Command, Judged
from ending import Ended, Status
from pictures.asking import canonical_text, cut_text, record_text, table_of
from pictures.record import Link, Order, Releaser, link_of
from pictures.service import Command as Simulation
from program import read_as_answer, run_program

MOST_STEPS = 50_000
NOTHING = "-"


class Cells:
    """The cells of tables: their texts at first, and those that a step changes."""

    def __init__(self):
        self.places = {}
        self.texts = []
        self.changes = {}

    def new(self, *key, text=NOTHING):
        """Makes a cell, and returns its number."""
        self.places[key] = len(self.texts)
        self.texts.append(str(text))
        return self.places[key]

    def put(self, *key, text):
        """Changes the text of a cell."""
        place = self.places[key]
        if self.texts[place] != str(text):
            self.texts[place] = self.changes[place] = str(text)

    def taken(self):
        """Returns what was changed since this was asked last."""
        found, self.changes = [*self.changes.items()], {}
        return found


class Replay:
    """The shared words of a document while a script is replayed."""

    def __init__(self, document, slots, table):
        self.document = document
        self.table = table
        self.slots = slots
        self.names = [task.name for task in document.tasks]
        self.outs = [[out.name for out in task.outs] for task in document.tasks]
        self.releaser = Releaser(document, Simulation.SIM)  # whose aims are those of the steps
        tasks = range(len(slots))
        self.gate, self.ended = [0 for _ in tasks], [0 for _ in tasks]
        self.aims = [Order(0, 0) for _ in tasks]
        self.heard = [[] for _ in tasks]
        self.stamps = [[1] + [0] * (count - 1) for count in slots]
        self.words = [[[out.first for out in task.outs]] + [[NOTHING] * len(task.outs) for _ in range(slots[at] - 1)]
                      for at, task in enumerate(document.tasks)]
        self.cells = Cells()
        self.tables = [self.task_table(), self.claim_table(), *(self.slot_table(task) for task in tasks)]
        for task in tasks:
            self.show_uses(task)
        self.cells.taken()

    # What is shown.

    def task_table(self):
        """Returns the table of the tasks."""
        header = ["task", "gate", "ended", "aim", "last step", "known to have ended", "aimed", "current slot", "kept slots"]
        firsts = {"gate": 0, "ended": 0, "aim": NOTHING, "last": NOTHING, "known": 0, "aimed": 0, "current": 0, "kept": ""}
        rows = []
        for task, name in enumerate(self.names):
            firsts["kept"] = " ".join(map(str, self.releaser.kept[task])) or NOTHING
            rows.append([name, *(self.cells.new(what, task, text=text) for what, text in firsts.items())])
        return {"caption": "Tasks: their shared words, and what the releaser knows", "header": header, "rows": rows}

    def claim_table(self):
        """Returns the table of the claims."""
        links = [link for into in self.releaser.into for link in into]
        rows = [[self.names[it.reader], self.names[it.writer], str(it.delay or NOTHING), self.cells.new("claim", it)]
                for it in links]
        return {"caption": "Claims", "header": ["reader", "writer", "pre", "claim"], "rows": rows}

    def slot_table(self, task):
        """Returns the table of a task's slots."""
        rows = []
        for slot, words in enumerate(self.words[task]):
            cells = [self.cells.new("word", task, slot, out, text=word) for out, word in enumerate(words)]
            stamp = self.cells.new("stamp", task, slot, text=self.stamps[task][slot])
            rows.append([str(slot), stamp, *cells, self.cells.new("use", task, slot, text="")])
        header = ["slot", "stamp", *self.outs[task], "use"]
        return {"caption": f"Slots of {self.names[task]}", "header": header, "rows": rows}

    def show_uses(self, task):
        """Shows what each slot of a task is used for: it is current, kept, or claimed by an instance."""
        uses = [[] for _ in self.words[task]]
        uses[self.releaser.current[task]].append("current")
        for delay, slot in enumerate(self.releaser.kept[task], 1):
            uses[slot].append(f"kept for pre {delay}")
        for link, (order, instance) in self.releaser.claims.items():
            if link.writer == task and instance > self.releaser.known[link.reader]:
                uses[order.slot].append(f"claimed by {self.names[link.reader]} {instance} for row {order.row}")
        for slot, use in enumerate(uses):
            self.cells.put("use", task, slot, text="; ".join(use))

    # The steps.

    def take(self, text):
        """Takes a step, and returns what it hears."""
        word, name, *operands = text.split()
        task = self.names.index(name)
        self.cells.put("last", task, text=text)
        return getattr(self, f"take_{word}")(task, operands) or ""

    def take_seen(self, task, _):
        """The releaser loads how many instances of a task have ended."""
        self.releaser.known[task] = self.ended[task]
        self.cells.put("known", task, text=self.ended[task])
        for link in self.releaser.into[task]:
            self.show_uses(link.writer)
        return str(self.ended[task])

    def take_aim(self, task, operands):
        """The releaser orders which slot the next instance of a task is to fill."""
        order = self.aims[task] = self.releaser.aim_at(task, int(operands[0]))
        self.cells.put("aim", task, text=order_words(order))
        self.cells.put("aimed", task, text=order.row)
        self.cells.put("current", task, text=order.slot)
        self.cells.put("kept", task, text=" ".join(map(str, self.releaser.kept[task])) or NOTHING)
        self.show_uses(task)

    def take_claim(self, task, operands):
        """The releaser orders which slot of another task the next instance of a task is to read."""
        delay = int(operands[1]) if len(operands) == 3 else len(operands) - 1
        link = Link(self.names.index(operands[-1]), task, delay)
        self.cells.put("claim", link, text=order_words(self.releaser.claim(link)))
        self.show_uses(link.writer)

    def take_open(self, task, _):
        """The releaser opens the gate of a task."""
        self.gate[task] = self.releaser.aimed[task]
        self.cells.put("gate", task, text=self.gate[task])

    def take_start(self, task, _):
        """A task loads its gate."""
        if self.gate[task] != self.ended[task] + 1:
            return "closed"
        self.heard[task] = []
        return "started"

    def take_hear(self, task, _):
        """A task loads its next order: its aim, then the claim of each link into it."""
        made, heard = len(self.heard[task]), self.heard[task]
        heard.append(self.releaser.claims[self.releaser.into[task][made - 1]][0] if made else self.aims[task])
        return f"slot {heard[-1].slot} number {heard[-1].row}"

    def source(self, task, name):
        """Returns the writer of a read, the order that was heard for it, and the place of its out."""
        place = next(at for at, read in enumerate(self.document.tasks[task].reads) if read.name == name)
        read = self.document.tasks[task].reads[place]
        link = link_of(self.document, task, read)
        order = self.heard[task][1 + self.releaser.into[task].index(link)]
        return link.writer, order, self.outs[link.writer].index(read.port)

    def take_look(self, task, operands):
        """A task loads the stamp of the slot that it heard for a read."""
        writer, order, _ = self.source(task, operands[0])
        return "ready" if self.stamps[writer][order.slot] == order.row + 1 else "notyet"

    def take_take(self, task, operands):
        """A task loads the value of a read."""
        writer, order, out = self.source(task, operands[0])
        return str(self.words[writer][order.slot][out])

    def take_shut(self, task, _):
        """A task marks its own slot as empty."""
        self.stamp(task, 0)

    def take_put(self, task, operands):
        """A task stores an out: its value is that of the instance in the table of the meaning."""
        slot, out = self.heard[task][0].slot, self.outs[task].index(operands[0])
        value = self.table[self.names[task], str(self.ended[task] + 1)].split(",")[out]
        self.words[task][slot][out] = value
        self.cells.put("word", task, slot, out, text=value)

    def take_done(self, task, _):
        """A task marks its slot with its instance."""
        self.stamp(task, self.ended[task] + 2)

    def take_end(self, task, _):
        """A task publishes that its instance has ended."""
        self.ended[task] += 1
        self.cells.put("ended", task, text=self.ended[task])

    def stamp(self, task, stamp):
        """Stores the stamp of the slot that a task fills."""
        slot = self.heard[task][0].slot
        self.stamps[task][slot] = stamp
        self.cells.put("stamp", task, slot, text=stamp)


def order_words(order):
    """Returns an order in words."""
    return f"slot {order.slot}, row {order.row}"


def replayed(program, text, tell):
    """Returns the words at first and after each step of a document's script, or of the record of its simulation."""
    tell("replay")
    judged = Judged(partial(run_program, program), text)
    if judged.document.script_at is None:
        text, whole = with_record(program, text)
        judged = Judged(partial(run_program, program), text)
        command, origin = Command.RANKED, "the record of the simulation" + ("" if whole else ", its first steps")
        ran = run_program(program, command.words, text)
    else:
        command, ran = judged.judged_by(None)
        origin = "the script"
    taken, illegal = taken_of(program, command, judged.document, ran)
    form, plan = canonical_text(program, text)
    with read_as_answer(program):
        document = read_document(form)
        slots = [int(line.split(",")[4 if command is Command.RANKED else 5]) for line in plan]
    tell("words")
    found = told(Replay(document, slots, table_of(program, text)), taken[:MOST_STEPS])
    has_lines = origin == "the script"
    return {**found, "illegal": illegal, "origin": f"{origin}, by dbp {' '.join(command.words)}", "has_lines": has_lines,
            "more": max(0, len(taken) - MOST_STEPS)}


def taken_of(program, command, document, ran):
    """Returns the steps that the program takes, and the one that isn't allowed, if there is one."""
    if ran.status == Status.DONE:
        return taken_steps(document, ran.stdout), None
    stopped = illegal_of(ran.stdout)
    if stopped is None:
        raise Ended(ran.status, (ran.stdout or ran.stderr).decode(errors="replace").strip())
    step = document.steps[stopped.number - 1]
    before = Replaying(partial(run_program, program), command.words, document, stopped.number).taken()
    return before, {"text": step.text, "why": stopped.why, "line": step.line}


def with_record(program, text):
    """Returns a document with the record of its simulation as its script, as much as fits, and whether that is all of it."""
    form, _ = canonical_text(program, text)
    record, overrun = record_text(program, text)
    if overrun:
        with read_as_answer(program):
            form = cut_text(form, read_document(form), overrun.time)
        record, _ = record_text(program, form)
    lines = record.splitlines(True)
    start = form[: -len(b"done\n")] + b"script\n"
    kept, size = [], len(start) + len(b"done\n")
    for line in lines[:MOST_STEPS]:
        size += len(line)
        if size > MOST_BYTES:
            break
        kept.append(line)
    return start + "".join(kept).encode() + b"done\n", len(kept) == len(lines)


def told(replay, taken):
    """Returns the tables, their texts at first, and each step with what it hears, its line, and the cells that it changes."""
    tables, start, steps = replay.tables, [*replay.cells.texts], []
    for number, step in enumerate(taken, 1):
        heard = replay.take(step.text)
        if heard != step.heard:
            said = f"step {number}, `{step.text}`, hears `{step.heard}` by the program, and `{heard}` is computed here"
            raise Ended(Status.REFUSED, said)
        steps.append([step.text, heard, step.line, replay.cells.taken()])
    return {"tables": tables, "start": start, "steps": steps}
