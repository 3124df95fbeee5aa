"""Warnings from the program's table of values: tasks that never occur, and values that stop at the ends of 64 bits.

States and lets stand in no table. So the table is that of a copy in which the greatest and the least of them are outs;
if one of these is an end, further copies tell which state or let it is.
"""

from checking.bounds import bounded_names
from checking.copies import Column, columns_of_copy, copy_of
from checking.language import GREATEST_VALUE, LEAST_VALUE
from checking.messages import warning
from checking.occurrences import Times, count_of_occurrences
from checking.timing import is_surely_in_time, overrun_warnings, simulating
from checking.tokens import Kind
from checking.trees import expression_of, tree_of
from ending import Status
from program import table_lines

ENDS = {str(LEAST_VALUE): LEAST_VALUE, str(GREATEST_VALUE): GREATEST_VALUE}
START_OF_ENDS = str(GREATEST_VALUE)[:-1]
ARITHMETIC = ("+", "-", "*", "/")
MOST_ASKED = 40_000  # tokens of all expressions
QUICK = 4000  # tokens
MOST_COPIES = 4
MOST_NAMES = 32  # an expression with 64 nodes has this many names, and a `min` or `max` between each two


def table_warnings(run, text, document, responses):
    """Yields the warnings of a document's table, and of its simulation, which gives the same table or an overrun."""
    asked = asked_columns(document)
    columns, left = columns_of_copy(document, asked, keeps_all=True)
    copy = copy_of(document, columns)
    command = ["mean"] if is_surely_in_time(document, responses) else [simulating(document).value]
    table = run(command, copy)
    if table.status not in (Status.DONE, Status.OVERRUN):  # the copy may be too large
        columns, left = columns_of_copy(document, [], keeps_all=True)
        copy, table = text, run(command, text)
    if table.status == Status.OVERRUN:
        yield from overrun_warnings(document, table)
        table = run(["mean"], copy)
    if table.status == Status.DONE:
        lines = table_lines(table)
        yield from never_occurs(document, lines)
        found = first_ends(columns, lines)
        yield from ends_of_outs(found)
        found.update(ends_in_copies(run, document, left))
        yield from ends_of_names(run, document, found)


def asked_columns(document):
    """Returns the columns that are asked for beside the outs; none of a very large document, whose copies take long.

    Bounds are searched if that is quicker than what the program takes for more columns.
    """
    size = sum(len(it.tokens) for task in document.tasks for it in task.lines("let", "next", "out"))
    if size > MOST_ASKED:
        return []
    is_quick = size <= max(QUICK, count_of_occurrences(document) // 5)
    bounded = bounded_names(document) if is_quick else ()
    return [column for task in document.tasks for column in joined_columns(task, bounded)]


def joined_columns(task, bounded):
    """Yields columns that have an end if a state or a let of a task has one: the greatest and the least of them."""
    names = [it for it in may_stop(task) if (task.name, it.name.text) not in bounded]
    for first in range(0, len(names), MOST_NAMES):
        part = tuple(names[first : first + MOST_NAMES])
        for word in ("max", "min") if len(part) > 1 else ("",):
            yield Column(task.name, part, joined(word, [it.name.text for it in part]))


def joined(word, names):
    """Returns the `min` or `max` of names; one name is itself."""
    made = names[0]
    for name in names[1:]:
        made = f"{word}({made}, {name})"
    return made


def may_stop(task):
    """Returns the lets of a task, and its states, that arithmetic may give an end which their first value isn't."""
    following = {it.name.text: it for it in task.lines("next")}
    found = []
    for name, statement in task.declared("state", "let").items():
        is_given = statement.word == "state" and statement.value.value in (LEAST_VALUE, GREATEST_VALUE)
        computed = following.get(name) if statement.word == "state" else statement
        if computed and not is_given and any(token.says(*ARITHMETIC) for token in expression_of(computed)):
            found.append(statement)
    return found


def first_ends(columns, lines):
    """Returns the first tick and value of each column that has the least or the greatest value of 64 bits in a table."""
    found = {}
    for line in lines:
        if START_OF_ENDS in line:
            time, name, _, *values = line.split(",")
            for column, value in zip(columns[name], values):
                if value in ENDS:
                    found.setdefault(column, (int(time), ENDS[value]))
    return found


def ends_in_copies(run, document, asked):
    """Returns the first ends of columns, from as many copies as they need, or from a few if they need many."""
    found = {}
    for _ in range(MOST_COPIES):
        columns, left = columns_of_copy(document, asked, keeps_all=False)
        if len(left) == len(asked):
            break
        found.update(first_ends(columns, table_lines(run(["mean"], copy_of(document, columns)))))
        asked = left
    return found


def ends_of_outs(found):
    """Yields a warning of each out of the document that has an end."""
    for column, (time, value) in found.items():
        if column.expression is None:
            yield end_warning(column.task, column.statements[0], time, value)


def ends_of_names(run, document, found):
    """Yields a warning of each state and let that arithmetic gives an end."""
    joins = [it for it in found if it.expression is not None]
    alone = {(it.task, own.name.text): own for it in joins for own in it.statements}
    asked = [Column(task, (own,), name) for (task, name), own in alone.items()]
    for column, (time, value) in ends_in_copies(run, document, asked).items():
        if stops_at(document.named_tasks[column.task], column.statements[0], value):
            yield end_warning(column.task, column.statements[0], time, value)


def stops_at(task, statement, value):
    """Whether a state or a let has an end by arithmetic, and not since it is written so."""
    if statement.word == "state":
        statement = next(it for it in task.lines("next") if it.name.text == statement.name.text)
    results = list(tree_of(statement).results())
    is_written = any(it.head.kind is Kind.NUMBER and it.head.value == value for it in results)
    return not is_written and any(it.parts and it.head.says(*ARITHMETIC) for it in results)


def end_warning(task, statement, time, value):
    """Makes the warning of a value that is an end."""
    what = f"the {statement.word} `{statement.name.text}` of `{task}` is {value} at tick {time}"
    return warning(statement.line, statement.name, "EndOfValues", f"{what}: results stop at the ends of 64 bits")


def never_occurs(document, lines):
    """Yields a warning of each task of which the program's table has no line."""
    missing = {task.name for task in document.tasks}
    for line in lines:
        missing.discard(line.split(",", 2)[1])
        if not missing:
            return
    times = Times(document)
    for task in document.tasks:
        if task.name in missing:
            text = f"the task `{task.name}` never occurs: {why_never(document, task, times)}"
            yield warning(task.head.line, task.head.name, "NeverOccurs", text)


def why_never(document, task, times):
    """Returns why a task never occurs."""
    source, condition = task.head.source, task.head.condition
    if condition is not None and times.base(task):
        return f"the input `{condition.text}` of its `when` is 0 at each time of its clock"
    if source is None:
        return f"its first time, {task.head.number('from', 0)}, isn't below `until {times.end}`"
    if source.text in times.events:
        return f"no row of the trace has `1` in the column `{source.text}`"
    if document.trace_at is None:
        return f"without a trace its event `{source.text}` never occurs"
    return f"the trace has no column `{source.text}`"
