"""What the program and the other tools say of a document, as far as it can be said."""

from dataclasses import dataclass
from functools import partial
from typing import Dict, List, NamedTuple, Optional, Tuple

from canonical import Document, read_document
from checking.document import Document as Places
from checking.messages import Severity
from checking.verdicts import Judged, Verdict
from ending import Ended, Status
from pictures.asking import Refused, Simulated, agreed_service, answer, table_of
from pictures.courses import Course, courses_of
from pictures.record import Disagreement, drawn_steps, must_record
from pictures.slots import Stay, stays_of_all
from program import read_as_answer, run_program
from responses import measure
from responses.bounds import BEYOND, Bounds, bounds_of
from responses.verdicts import verdicts_of

# Refusals of documents whose names, numbers and ranks are without fault, so that the diagram can be drawn.
DIAGRAM_IS_WHOLE = (18, 20, 21, 22, 23, 24, 25, 26)


class PlanRow(NamedTuple):
    """What a line of `dbp plan` says of a task: its links, their longest delay, and its slots."""

    task: str
    lower: int
    higher: int
    delayed: int
    simulated: int
    run: int


class Scenario(NamedTuple):
    """What `dbp need` gives for a task: a document, or the line that says why there is none."""

    task: str
    text: Optional[bytes]
    reason: str


class Ranked(NamedTuple):
    """What `dbp rank` gives: by place the priority of each task, and the document; or the line that says why there is none."""

    priorities: Tuple[int, ...]
    text: Optional[bytes]
    reason: str


@dataclass(frozen=True)
class Simulation:
    """The simulation of a document, each task on its own processor: the courses of its instances, the stays of each task's
    slots, each task's figures."""

    simulated: Simulated
    courses: Dict[Tuple[int, int], Course]
    stays: List[List[Stay]]
    figures: Tuple[measure.Figures, ...]
    verdicts: Tuple[str, ...]


@dataclass(frozen=True)
class Accepted:
    """What is said of an accepted document: its plan, its bounds, its scenarios, the outs of each instance by `dbp mean`,
    and its simulation; or why that isn't there."""

    plan: Tuple[PlanRow, ...]
    bounds: Bounds
    scenarios: Tuple[Scenario, ...]
    table: Dict[Tuple[str, str], str]
    lines: Tuple[str, ...]
    simulation: Optional[Simulation]
    difference: str


@dataclass(frozen=True)
class Asked:
    """What is said of a document: the verdict and the messages of tools/check, its sections, its diagram and its priorities
    by links if that has no fault, and the rest if it is accepted."""

    name: str
    text: bytes
    verdict: Verdict
    sections: Places
    diagram: Optional[Document]
    ranked: Optional[Ranked]
    accepted: Optional[Accepted]

    @property
    def errors(self):
        """Returns the messages that are errors."""
        return [it for it in self.verdict.messages if it.severity is Severity.ERROR]

    @property
    def findings(self):
        """Returns the lines of the verdicts on time, and of a record that differs."""
        if self.accepted is None:
            return []
        simulation = self.accepted.simulation
        found = simulation.verdicts if simulation else [self.accepted.difference]
        return [*found, *beyond_lines(self.diagram, self.accepted.bounds)]

    @property
    def status(self):
        """Returns the exit status that the document gives."""
        return self.verdict.status or (Status.REFUSED if self.errors or self.findings else Status.DONE)


def beyond_lines(document, bounds):
    """Yields a line for each task without a bound within its period; tools/response has those of tasks with a deadline."""
    for task, bound in zip(document.tasks, bounds.of_tasks):
        if bound == BEYOND and task.deadline is None:
            yield f"bound: {task.name} {bound}, and its period is {task.clock.period}"


def plan_row(line):
    """Returns what a line of `dbp plan` says."""
    task, *numbers = line.split(",")
    return PlanRow(task, *map(int, numbers))


def form_of(program, text):
    """Returns the document of the canonical text."""
    form = answer(program, ["form"], text)
    with read_as_answer(program):
        return read_document(form)


def scenario_of(program, text, task):
    """Returns the scenario of a task."""
    ran = run_program(program, ["need", task], text)
    if ran.status == Status.DONE:
        return Scenario(task, ran.stdout, "")
    if ran.status == Status.WRONG_WORDS:
        return Scenario(task, None, "the program has no command `need`")
    if ran.status != Status.REFUSED:
        raise Refused(ran)
    return Scenario(task, None, ran.stdout.decode(errors="replace").strip())


def ranked_of(program, text):
    """Returns the priorities of a document's tasks by its links."""
    ran = run_program(program, ["rank"], text)
    if ran.status == Status.DONE:
        with read_as_answer(program):
            return Ranked(tuple(task.prio for task in read_document(ran.stdout).tasks), ran.stdout, "")
    if ran.status != Status.REFUSED:
        raise Refused(ran)
    return Ranked((), None, ran.stdout.decode(errors="replace").strip())


def simulation_of(program, text, table, bounds):
    """Returns the simulation of a document, in which the program's record and the computed order agree."""
    document, slots, service, record = agreed_service(program, text)
    must_record(document, service, record)
    steps = [*drawn_steps(document, service)]
    simulated = Simulated(document, slots, service, steps, service.overrun, table)
    tasks = range(len(document.tasks))
    measured = measure.Measured(document, service, measure.courses_of(document, service))
    figures = tuple(measure.figures_of(measured, task) for task in tasks)
    verdicts = tuple(verdicts_of(measured, bounds, ()))
    return Simulation(simulated, courses_of(simulated), stays_of_all(simulated, tasks), figures, verdicts)


def accepted_of(program, text, document, plan, tell):
    """Returns what is said of a document that the program accepts."""
    tell("mean")
    ran = run_program(program, ["mean"], text)
    table = table_of(program, text)
    tell("rta and need", len(ran.stdout))
    bounds = bounds_of(program, text, document, ())
    scenarios = tuple(scenario_of(program, text, task.name) for task in document.tasks)
    tell("simulation and record")
    try:
        simulation, difference = simulation_of(program, text, table, bounds), ""
    except Disagreement as differing:
        simulation, difference = None, f"the record and the computed order differ at {differing}"
    lines = tuple(ran.stdout.decode("ascii").splitlines())
    return Accepted(plan, bounds, scenarios, table, lines, simulation, difference)


def is_diagram_whole(verdict):
    """Whether the first error leaves the diagram without fault."""
    return any(it.code in DIAGRAM_IS_WHOLE for it in verdict.messages[:1])


def asked(program, name, text, tell, hear=lambda _: None):
    """Returns what is said of a document; `tell` is called with what is done next, `hear` with the verdict before the rest."""
    tell("check")
    judged = Judged(partial(run_program, program), text)
    verdict = judged.verdict()
    hear(verdict)
    plan = run_program(program, ["plan"], text)
    diagram = ranked = accepted = None
    if plan.status == Status.DONE:
        diagram = form_of(program, text)
        with read_as_answer(program):
            rows = tuple(map(plan_row, plan.stdout.decode("ascii").splitlines()))
        accepted = accepted_of(program, text, diagram, rows, tell)
    elif is_diagram_whole(verdict):
        diagram = form_of(program, text)
    if diagram is not None:
        ranked = ranked_of(program, text)
    return Asked(name, text, verdict, judged.document, diagram, ranked, accepted)


def asked_of_file(program, name, text, tell, hear=lambda _: None):
    """Returns what is said of a document; what ends the tool says which one it is."""
    try:
        return asked(program, name, text, tell, hear)
    except Refused as refused:
        raise Ended(refused.status, f"{name}: {refused}") from refused
