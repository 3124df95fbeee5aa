"""What the program says of a version of a document, asked when it is first needed.

A program that takes too long is ended: then nothing is said. A document that it refuses has no facts.
"""

import subprocess
from functools import cached_property

from canonical import read_document
from checking.illegal import illegal_of
from checking.releases import taken_steps
from ending import Ended, Status
from pictures.asking import cut_text
from program import read_as_answer, run_program
from reports.asked import plan_row
from responses.bounds import told_bounds

SECONDS = 1.0  # that one call may take
SHOWN = 5  # instances


class Facts:
    """What the program says of a text."""

    def __init__(self, program, text, document):
        self.program = program
        self.text = text
        self.document = document

    def asked(self, words, text=None):
        """Returns what the program prints, or nothing if it refuses, or takes too long."""
        try:
            ran = run_program(self.program, words, self.text if text is None else text, SECONDS)
        except (Ended, subprocess.TimeoutExpired):
            return None
        return ran.stdout if ran.status == Status.DONE else None

    @cached_property
    def plan(self):
        """What `dbp plan` says of each task, by its name, or nothing."""
        stdout = self.asked(["plan"])
        if stdout is None:
            return None
        with read_as_answer(self.program):
            return {row.task: row for row in map(plan_row, stdout.decode("ascii").splitlines())}

    @cached_property
    def form(self):
        """The canonical text, or nothing."""
        return self.asked(["form"])

    @cached_property
    def diagram(self):
        """The document of the canonical text, if the program accepts all before the script, or nothing."""
        if self.plan is None or self.form is None:
            return None
        with read_as_answer(self.program):
            return read_document(self.form)

    @cached_property
    def bounds(self):
        """The bound of `dbp rta` on the response time of each task by its name, or nothing."""
        stdout = self.asked(["rta"]) if self.diagram is not None else None
        if stdout is None:
            return {}
        with read_as_answer(self.program):
            return dict(zip((it.name for it in self.diagram.tasks), told_bounds(self.diagram, stdout)))

    def first_values(self, task, out):
        """Returns the ticks and values of the first instances of a task, of one of its outs; nothing if they aren't known."""
        if self.diagram is None:
            return None
        times = self.diagram.times(self.diagram.task(task))[:SHOWN]
        cut = cut_text(self.form, self.diagram, times[-1] + 1) if times else self.text
        stdout = self.asked(["mean"], cut)
        if stdout is None:
            return None
        at = [it.name for it in self.diagram.task(task).outs].index(out)
        rows = [line.split(",") for line in stdout.decode("ascii").splitlines()]
        return [(int(row[0]), int(row[3 + at])) for row in rows if row[1] == task]

    @cached_property
    def steps(self):
        """The steps of the script that the program takes, with what they heard: those before the first that isn't allowed.

        The script is judged under one of the two counts, by which it comes further.
        """
        found = self.taken(["replay"])
        is_whole = len(found) == len(self.document.steps)
        return found if is_whole else max(found, self.taken(["replay", "--ranked"]), key=len)

    def taken(self, words):
        """Returns the steps that a command takes."""
        try:
            ran = run_program(self.program, words, self.text, SECONDS)
        except (Ended, subprocess.TimeoutExpired):
            return []
        stopped = illegal_of(ran.stdout)
        if stopped is None:
            return taken_steps(self.document, ran.stdout) if ran.status == Status.DONE else []
        lines = [line.text for line in self.document.lines[: self.document.script_at]]
        steps = [step.text.encode() for step in self.document.steps[: stopped.number - 1]]
        stdout = self.asked(words, b"\n".join([*lines, *steps, b"done\n"]))
        return [] if stdout is None else taken_steps(self.document, stdout)
