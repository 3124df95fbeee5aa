"""Warnings of what the program accepts and hardly anybody means."""

from fractions import Fraction
from itertools import accumulate

from checking.formulas import formula_warnings
from checking.messages import Note, Severity, warning, warning_over
from checking.ranks import key_of
from checking.tabled import table_warnings
from checking.timing import late_warnings, response_warnings, responses_by_program, simulating
from checking.trace import row_of
from pictures.service import Command
from policies import POLICIES
from program import read_as_answer
from responses.numbers import decimal

VALUES = ("state", "sense", "read", "let")


def warnings_of(run, text, document):
    """Returns the warnings of a document whose diagram and trace the program accepts."""
    with read_as_answer("the program"):
        responses = responses_by_program(run, text, document)
        found = [it for warned_of in OF_DOCUMENT for it in warned_of(document)]
        found += sum_warnings(document) if responses is None else response_warnings(document, responses)
        found += formula_warnings(run, document)
        found += table_warnings(run, text, document, responses)
        return [*found, *late_warnings(run, text, document, responses)]


def trace_after_script(document):
    """Yields a warning of a `trace` that belongs to the script."""
    for step in document.steps:
        if step.is_trace:
            text = "this line and those after it belong to the script: the document has no trace, so each input keeps "
            text += "its first value and no event occurs; `trace` stands before `script`"
            yield warning(step.line, step.tokens[0], "TraceAfterScript", text)
            return


def unused(document):
    """Yields a warning of each name that has no effect on any out."""
    used = used_inputs(document)
    on = {task.head.source.text for task in document.tasks if task.head.source is not None}
    for name, declaration in document.declared("input").items():
        if name not in used:
            also = " and no `when`" if document.version > 1 else ""
            yield of_name(declaration, "UnusedInput", f"no `sense`{also} names the input `{name}`")
    for name, declaration in document.declared("event").items():
        if name not in on:
            yield of_name(declaration, "UnusedEvent", f"no task is on the event `{name}`")
    for task in document.tasks:
        needed = needed_names(task)
        for name, statement in task.declared(*VALUES).items():
            if name not in needed:
                kind = statement.word
                text = f"no out of the task `{task.name}` depends on the {kind} `{name}`"
                yield of_name(statement, f"Unused{kind.capitalize()}", text)


def used_inputs(document):
    """Returns the names of the inputs that a task senses, or that its `when` names."""
    conditions = {task.head.condition.text for task in document.tasks if task.head.condition is not None}
    return conditions | {sense.source.text for task in document.tasks for sense in task.lines("sense")}


def kept_inputs(document):
    """Yields a warning of each input that a task uses and no column of the trace gives values."""
    if any(step.is_trace for step in document.steps):
        return
    columns = [cell.text for cell in row_of(document.rows[0]).cells] if document.rows else []
    used = used_inputs(document)
    for name, declaration in document.declared("input").items():
        if name in used and name not in columns[1:]:
            why = "the document has no trace" if document.trace_at is None else "the trace has no such column"
            text = f"the input `{name}` is always {declaration.value.value}: {why}"
            yield of_name(declaration, "KeptInput", text)


def delayed_downward(document):
    """Yields a note of each read with `pre` that would be allowed without, and is the only one of its out in its task."""
    tasks = document.named_tasks
    for task, read in document.reads:
        writer = tasks[read.source.text]
        others = [it for it in task.lines("read") if same_out(it, read)]
        if read.is_delayed and len(others) == 1 and key_of(document, writer) < key_of(document, task):
            out = f"{read.source.text}.{read.port.text}"
            before = "the occurrence before" if read.delay == 1 else f"{read.delay} occurrences before"
            text = f"`{task.name}` is ranked below `{writer.name}`, so it may read `{out}` without `pre`, which is its value "
            text += f"of this time; `pre` reads that of {before}"
            pre = [token for token in read.tokens if token.says("pre")]
            yield warning_over(read.line, pre, "DelayedDownward", text, severity=Severity.NOTE)


def same_out(read, other):
    """Whether two reads are of the same out."""
    return (read.source.text, read.port.text) == (other.source.text, other.port.text)


def of_name(statement, name, text):
    """Makes a warning at the name that a line declares."""
    return warning(statement.line, statement.name, name, text)


def needed_names(task):
    """Returns the names of a task on which its outs depend, through lets and next states."""
    users = {name: [let] for name, let in task.declared("let").items()}
    for following in task.lines("next"):
        users.setdefault(following.name.text, []).append(following)
    left = [token.text for out in task.lines("out") for token in out.names]
    needed = set()
    while left:
        name = left.pop()
        if name not in needed:
            needed.add(name)
            left += [token.text for statement in users.get(name, ()) for token in statement.names]
    return needed


def equal_ranks(document):
    """Yields a warning of each task that only the order of declaration ranks below another."""
    word = POLICIES[document.policy].number
    first = {}
    for task in document.tasks:
        number = task.head.number(word)
        other = first.setdefault(number, task)
        if other is not task:
            text = f"the tasks `{other.name}` and `{task.name}` have the same `{word} {number}`: `{other.name}` is "
            text += "ranked above, since it is declared earlier"
            note = Note(other.head.line, other.head.numbers[word].column, f"the `{word}` of `{other.name}`")
            yield warning(task.head.line, task.head.numbers[word], "EqualRanks", text, note)


def sum_warnings(document):
    """Returns the warnings of tasks that can't be in time, where the program has no response times."""
    return [*long_costs(document), *load(document)]


def long_costs(document):
    """Yields a warning of each cost that is above its task's period or deadline.

    A task with a `when` may be in time though its cost is above its period: it needn't occur a period later.
    """
    for task in document.tasks:
        cost = task.head.number("cost")
        for word, name, what in (("every", "CostAbovePeriod", "period"), ("deadline", "CostAboveDeadline", "deadline")):
            length = task.head.number(word)
            may_fit = word == "every" and task.head.condition is not None
            if length is not None and cost > length and not may_fit:
                text = f"the cost {cost} of the task `{task.name}` is above its {what} {length}: it can't be in time"
                note = Note(task.head.line, task.head.numbers[word].column, f"the {what}")
                yield warning(task.head.line, task.head.numbers["cost"], name, text, note)


def load(document):
    """Yields a warning of each task with which the load of the tasks with a period goes above 1, processor by processor.

    Tasks with a `when` aren't counted: they may be on in turn, or seldom.
    """
    periodic = [task for task in document.tasks if task.head.source is None and task.head.condition is None]
    processors = sorted({task.head.number("cpu", 0) for task in periodic})
    are_some = any(task.head.condition is not None for task in document.tasks)
    which = "a period and no `when`" if are_some else "a period"
    for cpu in processors:
        place = f" on processor {cpu}" if simulating(document) is Command.CPUS else ""
        yield from overload([task for task in periodic if task.head.number("cpu", 0) == cpu], f"{which}{place}")


def overload(periodic, which):
    """Yields the warning of the tasks of one processor, if there is one."""
    shares = [Fraction(task.head.number("cost"), task.head.number("every")) for task in periodic]
    above = [task for task, total in zip(periodic, accumulate(shares)) if total > 1]
    if above:
        parts = ", ".join(f"{task.name} {share}" for task, share in zip(periodic, shares))
        text = f"the load of the tasks with {which} is {decimal(sum(shares))}, and one processor has 1: {parts}"
        yield warning(above[0].head.line, above[0].head.name, "Overload", text)


OF_DOCUMENT = (trace_after_script, unused, kept_inputs, delayed_downward, equal_ranks)
