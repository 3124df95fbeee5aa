"""What is written of a diagram: its tables, the names that C has for its own, and the lines that they come from."""

from dataclasses import dataclass
from typing import Dict, Optional, Tuple

from canonical import Document, Every, On
from emitting import operations
from emitting.lines import comments_of, diagram_lines
from emitting.names import Names, escaped
from emitting.wiring import Wiring, wiring_of

# The files of a diagram, NAME.h, NAME.c and NAME_trace.c, name nothing that doesn't begin with NAME_. For its tasks they
# have NAME_TASK, NAME_TASK_step, NAME_TASK_row and NAME_set_TASK, for its events NAME_on_EVENT and NAME_raise_EVENT, for its inputs
# NAME_input_INPUT. This is what they name besides.
OWN = (
    "H begin tasks_at release begin_release release_step see_unended sampled diagram words links tasks entries claims inputs "
    "releaser parts system batches occurred trace trace_inputs trace_tasks run stop overrun write_log posix posix_H "
    "posix_tasks posix_on_events posix_raised posix_names posix_inputs posix_events posix_head posix_rest"
).split()
VALUE_BITS = 64
TASK_FORMS = (
    "{} {}_step {}_row set_{} {}_first {}_links {}_leaving {}_reads {}_senses {}_states {}_sensed {}_taken {}_heard "
    "{}_outs {}_compute {}_rows {}_read_names {}_out_names task_{}"
).split()


@dataclass(frozen=True)
class Plan:
    """A diagram that is written: `title` is what its comments call the document.

    Tasks, events and inputs have the names of the document with what C needs besides; `inputs` has only those that a task
    senses or occurs by. A block with more operators than `most_calls` is a table. `lines` is the canonical text without its
    trace and script.
    """

    name: str
    title: str
    document: Document
    wiring: Wiring
    comments: Dict[Tuple[Optional[str], str, str], str]
    tasks: Tuple[str, ...]
    events: Dict[str, str]
    inputs: Dict[str, str]
    most_calls: int
    word_bits: int
    lines: Tuple[str, ...]

    def of(self, rest):
        """Returns the name of C that the diagram has for something of its own."""
        return f"{self.name}_{rest}"

    def numbered_inputs(self):
        """Returns the numbers of the inputs that are written, by their names in the document."""
        return {name: number for number, name in enumerate(self.inputs)}

    def users_of(self, name):
        """Returns the set of the tasks that sense an input or occur by it."""
        document = self.document
        return set_of(at for at, task in enumerate(document.tasks) if uses(task, name))

    def tasks_on(self, event):
        """Returns the set of the tasks that occur at the times of an event."""
        return set_of(at for at, task in enumerate(self.document.tasks) if task.clock == On(event))


def uses(task, name):
    """Whether a task senses an input or occurs by it."""
    return task.when == name or any(sense.input == name for sense in task.senses)


def set_of(numbers):
    """Returns a set of tasks as a number, with a bit for each."""
    return sum(1 << number for number in numbers)


def set_text(number):
    """Returns a set of tasks as C."""
    return f"UINT32_C(0x{number:x})"


def is_periodic(task):
    """Whether a task has a period, and is on no event."""
    return isinstance(task.clock, Every)


def plan_of(name, title, source, form, document, slots, most_calls, word_bits):
    """Returns what is written of a document: its bytes, its canonical text, how many slots each task has, of more than how
    many operators a block is a table, and how many bits a shared word has."""
    names = Names((*OWN, *operations.OWN))
    tasks = tuple(names.give(task.name, TASK_FORMS) for task in document.tasks)
    events = {event: names.give(event, ("on_{}", "raise_{}")) for event in document.events}
    used = [it.name for it in document.inputs if any(uses(task, it.name) for task in document.tasks)]
    inputs = {name: names.give(name, ("input_{}", "samples_{}")) for name in used}
    wiring = wiring_of(document, slots, VALUE_BITS // word_bits)
    lines, comments = tuple(diagram_lines(form)), comments_of(source, form)
    return Plan(name, title, document, wiring, comments, tasks, events, inputs, most_calls, word_bits, lines)


def local_names(plan, task, names=None):
    """Returns the names that C has for the states, senses, reads and lets of a task; `names` has others of its function."""
    names = names or Names()
    parts = (*task.states, *task.senses, *task.reads, *task.lets)
    return {part.name: names.give(escaped(part.name, f"{plan.name}_")) for part in parts}


def row_names(plan, task):
    """Returns the names that C has for the outs of a task."""
    names = Names(("instance", "outs"))
    return [names.give(escaped(out.name, f"{plan.name}_")) for out in task.outs]
