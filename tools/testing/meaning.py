"""What a document means, computed here by docs/LANGUAGE.md: each instance, what it reads, and its outs.

The program's table decides: a tool compares it with what is computed here, and uses that only if both are the same.
"""

from typing import Callable, Dict, NamedTuple, Tuple

from canonical import Task
from checking.tokens import Kind
from checking.trees import tree_of
from pictures.service import rank_order
from testing.evaluation import evaluator, unseen


class Instance(NamedTuple):
    """An instance of a task: its values of senses and reads, for each read the number of the instance that it reads (0
    for first values), and its outs."""

    tick: int
    task: str
    number: int
    senses: Tuple[int, ...]
    reads: Tuple[int, ...]
    writers: Tuple[int, ...]
    outs: Tuple[int, ...]

    @property
    def line(self):
        """The line of the instance, as `dbp mean` prints it."""
        return ",".join(map(str, (self.tick, self.task, self.number, *self.outs)))


class Body(NamedTuple):
    """A task with the calls that evaluate its lets, in an order in which they can be, its nexts and its outs."""

    task: Task
    lets: Tuple[Tuple[str, Callable], ...]
    nexts: Tuple[Tuple[str, Callable], ...]
    outs: Tuple[Callable, ...]


def statements_of(places):
    """Returns the lines of a document that have an expression, by the task, the word and the name."""
    return {(task.name, it.word, it.name.text): it for task in places.tasks for it in task.lines("let", "next", "out")}


def let_order(task, trees):
    """Returns the lets of a task so that each comes after those that it names."""
    names, ordered = {it.name for it in task.lets}, []
    left = [it.name for it in reversed(task.lets)]
    while left:
        name = left[-1]
        needed = [it.head.text for it in trees[name].all() if it.head.kind is Kind.NAME]
        missing = [it for it in needed if it in names and it not in ordered]
        if missing:
            left += missing
        else:
            left.pop()
            if name not in ordered:
                ordered.append(name)
    return ordered


def uncounted(_):
    """Returns for each line of a document that nothing of it is counted."""
    return unseen


class Meaning:
    """The expressions of a document, read as places, ready to be evaluated with any trace. `document` has its records.

    `counting` gives for each line the call that gives for each of its choices the call that takes what it came to.
    """

    def __init__(self, places, document, counting=uncounted):
        self.document, self.counting = document, counting
        self.statements = statements_of(places)
        self.bodies = [self.body_of(task) for task in document.tasks]
        self.order = rank_order(document)

    def body_of(self, task):
        """Returns a task with the calls that evaluate its expressions."""
        lets = {it.name: tree_of(self.statements[task.name, "let", it.name]) for it in task.lets}
        return Body(
            task,
            tuple((name, self.call_of(task, "let", name)) for name in let_order(task, lets)),
            tuple((it.state, self.call_of(task, "next", it.state)) for it in task.nexts),
            tuple(self.call_of(task, "out", it.name) for it in task.outs),
        )

    def call_of(self, task, word, name):
        """Returns the call that evaluates the expression of a line."""
        statement = self.statements[task.name, word, name]
        return evaluator(tree_of(statement), self.counting(statement))

    def instances(self, document):
        """Returns the instances of the document, whose trace may be another, by time and then in order of declaration."""
        return Evaluation(self, document).instances()


class Evaluation:
    """One evaluation of a document: by task its instances so far, and how many there are with those of the time at hand."""

    def __init__(self, meaning, document):
        self.bodies, self.order, self.document = meaning.bodies, meaning.order, document
        self.past: Dict[str, list] = {task.name: [] for task in document.tasks}
        self.counts = {task.name: 0 for task in document.tasks}
        self.states = [{it.name: it.first for it in task.states} for task in document.tasks]
        self.inputs = {it.name: it.first for it in document.inputs}
        self.firsts = {(task.name, it.name): it.first for task in document.tasks for it in task.outs}
        self.places = {(task.name, it.name): at for task in document.tasks for at, it in enumerate(task.outs)}

    def instances(self):
        """Evaluates all instances, and returns them."""
        times = places_by_time(self.document)
        samples = samples_by_time(self.document)
        found, taken = [], 0
        for time in sorted(times):
            while taken < len(samples) and samples[taken][0] <= time:
                self.inputs[samples[taken][1]] = samples[taken][2]
                taken += 1
            found += self.at_time(time, times[time])
        return found

    def at_time(self, time, places):
        """Evaluates the instances of one time, each after those that it reads without a delay."""
        for place in places:
            self.counts[self.bodies[place].task.name] += 1
        made = {place: self.instance(time, place) for place in self.order if place in places}
        return [made[place] for place in places]

    def instance(self, time, place):
        """Evaluates the next instance of a task."""
        body, states = self.bodies[place], self.states[place]
        task = body.task
        senses = tuple([self.inputs[it.input] for it in task.senses])
        writers = tuple([max(0, self.counts[it.writer] - it.delay) for it in task.reads])
        reads = tuple([self.value_of(it, row) for it, row in zip(task.reads, writers)])
        values = dict(states)
        values.update(zip((it.name for it in task.senses), senses))
        values.update(zip((it.name for it in task.reads), reads))
        for name, evaluate in body.lets:
            values[name] = evaluate(values)
        outs = tuple([evaluate(values) for evaluate in body.outs])
        states.update([(name, evaluate(values)) for name, evaluate in body.nexts])
        past = self.past[task.name]
        past.append(Instance(time, task.name, len(past) + 1, senses, reads, writers, outs))
        return past[-1]

    def value_of(self, read, row):
        """Returns the value of an out of an instance, by its number; of 0 it is the first value."""
        key = read.writer, read.port
        return self.past[read.writer][row - 1].outs[self.places[key]] if row else self.firsts[key]


def places_by_time(document):
    """Returns the places of the tasks that occur at each time, in order of declaration."""
    found = {}
    for place, task in enumerate(document.tasks):
        for time in document.times(task):
            found.setdefault(time, []).append(place)
    return found


def samples_by_time(document):
    """Returns the samples of all inputs by their times: the time, the input and the value of each."""
    return sorted((time, it.name, value) for it in document.inputs for time, value in document.samples(it.name))
