"""The names of a document: what declares each, and where it stands.

Inputs, events and tasks share the space of the document, what a task declares has one of its own. A line with a fault has
no names here.
"""

from functools import cached_property
from typing import NamedTuple

from checking.document import Step
from checking.names import DECLARING
from checking.steps import form_fault
from checking.tokens import Kind
from checking.trace import row_of

OUTER = 0  # in place of the line of a task, for names of the document


class Name(NamedTuple):
    """A name in the space of the task whose first line is `owner`, or in that of the document."""

    owner: int
    text: str


class Place(NamedTuple):
    """Where a name stands, and whether the line declares it."""

    line: int
    column: int
    name: Name
    is_declared: bool = False


class Names:
    """The names of a document as it is read."""

    def __init__(self, document):
        self.document = document
        self.tasks = document.named_tasks
        self.steps = {}

    @cached_property
    def by_line(self):
        """The statement or the step of each line that has one, with its task."""
        found = {it.line: (None, it) for it in self.document.declarations}
        for task in self.document.tasks:
            found[task.head.line] = (task, task.head)
            found.update((it.line, (task, it)) for it in task.body)
        found.update((it.line, (None, it)) for it in self.document.steps)
        return found

    @cached_property
    def outer(self):
        """The lines that declare the names of the document, by name."""
        heads = {name: task.head for name, task in self.tasks.items()}
        return {**heads, **self.document.declared("input", "event")}

    @cached_property
    def inner(self):
        """The lines that declare the names of each task, by the line of its head and by name."""
        return {task.head.line: task.declared(*DECLARING) for task in self.document.tasks}

    def declared(self, name):
        """Returns the line that declares a name, or nothing."""
        return (self.outer if name.owner == OUTER else self.inner.get(name.owner, {})).get(name.text)

    def owner_of(self, name):
        """Returns the task in whose space a name is, or nothing."""
        return next((it for it in self.document.tasks if it.head.line == name.owner), None)

    def of_task(self, token):
        """Returns the space of the task that a token names; one that isn't there has none."""
        task = self.tasks.get(token.text)
        return -1 if task is None else task.head.line

    def places_in(self, number):
        """Yields the places of names in a line."""
        if number == self.header_line:
            yield from self.header
        task, it = self.by_line.get(number, (None, None))
        if it is not None:
            yield from self.in_step(it) if isinstance(it, Step) else self.in_statement(task, it)

    @cached_property
    def header_line(self):
        """The line of the trace's header, or nothing."""
        return self.document.rows[0].number if self.document.rows else None

    @cached_property
    def header(self):
        """The places of the names in the trace's header."""
        if not self.document.rows or self.document.is_header_bad:
            return []
        cells = row_of(self.document.rows[0]).cells[1:]
        return [Place(self.header_line, it.column, Name(OUTER, it.text)) for it in cells if it.text]

    def in_statement(self, task, it):
        """Yields the places of names in a line of the diagram."""
        own = OUTER if task is None or it.word == "task" else task.head.line

        def place(token, owner, is_declared=False):
            return Place(it.line, token.column, Name(owner, token.text), is_declared)

        if it.name is not None:
            yield place(it.name, own, it.word != "next")
        if it.source is not None:
            yield place(it.source, OUTER)
        if it.port is not None:
            yield place(it.port, self.of_task(it.source))
        if it.condition is not None:
            yield place(it.condition, OUTER)
        for token in it.names:
            yield place(token, own)

    def in_step(self, step):
        """Yields the places of names in a step, if it has the form of one."""
        return (Place(step.line, column, name) for column, name in self.named_in(step))

    def named_in(self, step):
        """Returns the columns and names of a step; those of lines that are alike are found once."""
        key = id(step.tokens)  # alike lines have the same tokens, which the document keeps
        if key not in self.steps:
            self.steps[key] = () if form_fault(step) is not None else self.names_of_step(step.tokens)
        return self.steps[key]

    def names_of_step(self, tokens):
        """Returns the columns and names of a step that has the form of one."""
        named = tokens[1 :: len(tokens) - 2] if tokens[0].text == "claim" else tokens[1:2]
        found = [(it.column, Name(OUTER, it.text)) for it in named]
        if tokens[0].text in ("look", "take", "put"):
            found.append((tokens[2].column, Name(self.of_task(tokens[1]), tokens[2].text)))
        return found

    def places_of(self, name):
        """Returns the places of a name, in the order of lines and columns."""
        statements = ((task, it) for task, it in self.by_line.values() if not isinstance(it, Step))
        found = [*self.header, *(place for task, it in statements for place in self.in_statement(task, it))]
        found = [it for it in found if it.name == name]
        for step in self.document.steps:
            found += [Place(step.line, column, it) for column, it in self.named_in(step) if it == name]
        return sorted(found)

    @cached_property
    def faulty_in_steps(self):
        """The texts of the tokens in steps without a form."""
        alike = {id(it.tokens): it for it in self.document.steps}
        return {token.text for it in alike.values() if form_fault(it) is not None for token in it.tokens}

    def place_at(self, number, column):
        """Returns the place of the name that stands at a column of a line, or that ends there, or nothing."""
        found = [it for it in self.places_in(number) if it.column <= column <= it.column + len(it.name.text)]
        return found[-1] if found else None

    def task_at(self, number):
        """Returns the task in whose lines a line is, or nothing."""
        document = self.document
        ends = [it for it in (document.trace_at, document.script_at, document.done_at) if it is not None]
        if any(it <= number for it in ends):
            return None
        return next((it for it in reversed(document.tasks) if it.head.line <= number), None)

    def meant_by(self, token, number):
        """Returns the name that a token of a line with a fault may be: of its task, else of the document; or nothing."""
        if token is None or token.kind is not Kind.NAME:
            return None
        task = self.task_at(number)
        names = [Name(task.head.line, token.text)] if task is not None else []
        return next((it for it in (*names, Name(OUTER, token.text)) if self.declared(it) is not None), None)
