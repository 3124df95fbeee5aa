"""What the pictures ask the program for: a checked document, and the record of its simulation."""

from dataclasses import dataclass
from typing import Dict, List, Optional, Tuple

from canonical import Document, read_document
from ending import Status
from pictures.record import Disagreement, Step, agreed_steps
from pictures.service import Command, Overrun, Service, command_of, serve
from program import read_as_answer, run_program, table_lines


SLOTS = {Command.SIM: 4, Command.CPUS: 5}  # the column of `dbp plan` with the slots of a simulation, from 0


class Refused(Exception):
    """The program gave no text for a document: its line, and its exit status."""

    def __init__(self, ran):
        said = (ran.stdout or ran.stderr).decode(errors="replace").strip()
        super().__init__(said or f"the program ended with status {ran.status}")
        self.status = ran.status


@dataclass(frozen=True)
class Simulated:
    """A document with its simulation by a command: the service, the steps to be drawn, and the overrun if there is one.

    If it overruns, service and steps are those of the releases before the overrun. `slots` has how many each task has,
    `table` the outs of each instance, by its task and its number as `dbp mean` prints them.
    """

    document: Document
    slots: Tuple[int, ...]
    service: Service
    steps: List[Step]
    overrun: Optional[Overrun]
    table: Dict[Tuple[str, str], str]

    @property
    def command(self):
        """Returns the command that simulated it."""
        return self.service.command

    def value(self, task, number, port):
        """Returns the value of an out of a task's instance; of number 0 it is the first value."""
        outs = self.document.tasks[task].outs
        at = next(at for at, out in enumerate(outs) if out.name == port)
        if number == 0:
            return outs[at].first
        return int(self.table[self.document.tasks[task].name, str(number)].split(",")[at])


def answer(program, words, text):
    """Returns what the program prints for a document, if its status is 0."""
    ran = run_program(program, words, text)
    if ran.status != 0:
        raise Refused(ran)
    return ran.stdout


def canonical_text(program, text):
    """Returns the canonical text of a document that the program accepts as a whole, and the lines of its plan."""
    plan = answer(program, ["plan"], text).decode(errors="replace").splitlines()
    return answer(program, ["form"], text), plan


def checked_document(program, text):
    """Returns a document that the program accepts as a whole."""
    form, _ = canonical_text(program, text)
    with read_as_answer(program):
        return read_document(form)


def table_of(program, text):
    """Returns the outs of each instance by its task and its number, as texts."""
    cut = (line.split(",", 3) for line in table_lines(run_program(program, ["mean"], text)))
    with read_as_answer(program):
        return {(task, number): outs for _, task, number, outs in cut}


def overrun_of(line):
    """Returns the overrun that a line of `dbp sim` or `dbp cpus` tells."""
    _, task, number, _, time = line.split()
    return Overrun(task, int(number), int(time))


def record_text(program, text, command=Command.SIM):
    """Returns the text of the record, or the overrun that the program prints instead."""
    ran = run_program(program, command.record_words, text)
    if ran.status == Status.OVERRUN:
        with read_as_answer(program):
            return "", overrun_of(ran.stdout.decode())
    if ran.status != Status.DONE:
        raise Refused(ran)
    return ran.stdout.decode(errors="replace"), None


def cut_text(form, document, tick):
    """Returns the canonical text of a document without the releases from a tick on."""
    lines = form.decode().split("\n")
    lines[2] = f"until {tick}"
    if document.trace:
        first = len(lines) - 2 - len(document.trace.lines)
        if document.script is not None:
            first -= 1 + len(document.script)
        late = {at for at, row in enumerate(document.trace.rows, first + 1) if row.time >= tick}
        lines = [line for at, line in enumerate(lines) if at not in late]
    return "\n".join(lines).encode()


def must_agree(computed, told):
    """Compares the overrun that was computed with the one that the program tells; both may be none."""
    if computed != told:
        tick = min(it.time for it in (computed, told) if it)
        lines = [it.line() if it else "no overrun" for it in (computed, told)]
        raise Disagreement(tick, f"computed is `{lines[0]}`, and the program says `{lines[1]}`")


def agreed_service(program, text, command=None):
    """Returns a document, how many slots each task has, its service, and the text of the record that must be its own. Unless
    a command is given, each task is served on its own processor.

    The program tells the same overrun; then the record is that of the releases before it.
    """
    form, plan = canonical_text(program, text)
    with read_as_answer(program):
        document = read_document(form)
        command = command or command_of(document)
        slots = tuple(int(line.split(",")[SLOTS[command]]) for line in plan)
    record, overrun = record_text(program, text, command)
    service = serve(document, command)
    must_agree(service.overrun, overrun)
    if overrun:
        record, _ = record_text(program, cut_text(form, document, overrun.time), command)
    return document, slots, service, record


def simulated(program, text, command=Command.SIM):
    """Returns the simulation of a document by a command, in which the program's record and the computed order agree; without
    one each task is served on its own processor."""
    document, slots, service, record = agreed_service(program, text, command)
    steps = agreed_steps(document, service, record.splitlines())
    return Simulated(document, slots, service, steps, service.overrun, table_of(program, text))
