"""Faults of names, line by line: declared twice, not there, a task's own out, and reads past the cost."""

from checking.foreign import COMMENT, WORDS, begins_comment, hyphenated, in_lower_case
from checking.language import RESERVED
from checking.messages import Note, error_at
from checking.nearest import nearest
from checking.text import what_there_is

VALUES = ("state", "sense", "read", "let")
DECLARING = (*VALUES, "out")
SAID = {
    "input": "an input",
    "event": "an event",
    "task": "a task",
    "state": "a state",
    "sense": "a sense",
    "read": "a read",
    "let": "a let",
    "out": "an out",
}
MOST_SEARCHES = 100  # how many wrong names of a document are compared with those that are declared


class NameFaults:
    """The faults of a document's names."""

    def __init__(self, document):
        self.document = document
        self.inputs = document.declared("input")
        self.events = document.declared("event")
        self.tasks = document.named_tasks
        self.told = set()
        self.searches = 0

    def all(self):
        """Returns the messages of all lines with a fault, in the order of the lines."""
        outer, found = {}, []
        for statement in self.document.declarations:
            found += duplicate(outer, statement)
        for task in self.document.tasks:
            repeated = duplicate(outer, task.head) if task.head.name else []
            found += repeated or (self.of_head(task.head) if task.is_whole else [])
            found += self.of_body(task)
        return sorted(found, key=lambda it: it.line)

    def of_body(self, task):
        """Yields the messages of each line of a task's body, all of the kind that the program tries first."""
        inner, nexts = {}, {}
        for statement in task.body:
            earlier = nexts if statement.word == "next" else inner
            yield from (
                duplicate(earlier, statement, task)
                or self.unknown(task, statement)
                or self_link(task, statement)
                or past_cost(task, statement)
            )

    def of_head(self, head):
        """Returns the messages of the names in a task's first line: `on` of no event, `when` of no input."""
        events = self.unknown_outer(head, head.source, "event", self.events)
        return [*events, *self.unknown_outer(head, head.condition, "input", self.inputs)]

    def unknown_outer(self, statement, token, kind, names):
        """Returns the message of a name, if a line has it, that is no event or no input of the document."""
        if token is None or token.text in names or self.is_silent(kind, token, self.document):
            return []
        return [self.not_there(statement, token, kind, names)]

    def unknown(self, task, statement):
        """Returns the messages of the names of a line that aren't there."""
        if statement.word == "sense":
            return self.unknown_outer(statement, statement.source, "input", self.inputs)
        if statement.word == "read":
            return self.unknown_link(statement)
        return [*self.unknown_state(task, statement), *self.unknown_values(task, statement)]

    def unknown_state(self, task, statement):
        """Returns the message of a `next` of what is no state of its task."""
        states = task.declared("state")
        if statement.word != "next" or statement.name.text in states or self.is_silent("state", statement.name, task):
            return []
        self.note_told("value", statement.name, task)
        return [self.not_there(statement, statement.name, "state", states, task)]

    def unknown_link(self, statement):
        """Returns the message of a read of no task, or of no out of that task."""
        source, port = statement.source, statement.port
        writer = self.tasks.get(source.text)
        if writer is None:
            is_silent = self.is_silent("task", source, self.document)
            return [] if is_silent else [self.not_there(statement, source, "task", self.tasks)]
        outs = writer.declared("out")
        if port.text in outs or self.is_silent("out", port, writer):
            return []
        there = what_there_is("out", outs, source.text, self.searched(port))
        text = f"the task `{source.text}` has no out `{port.text}`: {there}{self.about_port(writer, port.text)}"
        return [error_at(port, statement.line, 11, text, note_of(writer.head))]

    def about_port(self, writer, name):
        """Returns more about what is no out of a task: a name of the task's own, or an out of other tasks."""
        inner = writer.declared(*VALUES).get(name)
        if inner is not None:
            return f"; `{name}` is {SAID[inner.word]} of it, which only its own lines can name"
        others = [task.name for task in self.tasks.values() if name in task.declared("out")]
        return f"; `{others[0]}` has an out `{name}`" if others else ""

    def unknown_values(self, task, statement):
        """Yields the messages of the names in an expression that have no value there."""
        values = task.declared(*VALUES)
        end = 0  # of the last name with hyphens
        for token in statement.names:
            if token.column >= end and token.text not in values and not self.is_silent("value", token, task):
                whole = joined_name(values, statement, token)
                end = token.column + len(whole or "")
                yield self.no_value(task, statement, token, values, whole)

    def no_value(self, task, statement, token, values, whole):
        """Returns the message of a name that has no value in its task, or of a whole one with hyphens."""
        found = task.declared("out").get(token.text) or self.outer(token)
        if found is not None:
            return error_at(token, statement.line, 11, about_found(task, token, found), note_of(found))
        why = f"did you mean `{whole.replace('-', '_')}`? `{whole}` is a difference" if whole else None
        why = why or self.about_state(task, token) or WORDS.get(token.text.lower()) or in_lower_case(token, RESERVED)
        why = why or self.about_others(task, values, token)
        why = why or what_there_is("name", values, task.name, self.searched(token))
        comment = f"; {COMMENT}" if begins_comment(statement.tokens) else ""
        text = f"`{token.text}` is no state, sense, read or let of `{task.name}`: {why}{comment}"
        return error_at(token, statement.line, 11, text)

    def about_state(self, task, token):
        """Returns what is missing if a name has a `next` in its task and no `state`, or nothing."""
        lines = [it.line for it in task.lines("next") if it.name.text == token.text]
        self.note_told("state", token, task)
        return f"line {lines[0]} has its `next`, and no line `state {token.text} = V` declares it" if lines else None

    def about_others(self, task, names, token):
        """Returns what is declared outside of a task under a wrong name, or under the nearest one, or nothing."""
        wrong = self.searched(token)
        if wrong is None or nearest(wrong, names):
            return None
        others = self.outside_of(task)
        meant = nearest(wrong, others)
        if meant is None:
            return None
        statement, owner = others[meant]
        what = f"`{meant}` is {said_of(statement, owner)}"
        asked = what if meant == wrong else f"did you mean `{meant}`? {what}"
        return f"{asked}: {how_named(statement, owner)}"

    def outside_of(self, task):
        """Returns what other tasks and the document declare, by name: its line, and the name of the task if it has one."""
        found = {name: (it, None) for name, it in self.inputs.items()}
        for other in self.tasks.values():
            outs = other.declared("out") if other is not task else {}
            found = {**{name: (it, other.name) for name, it in outs.items()}, **found}
        heads = {name: (it.head, None) for name, it in self.tasks.items()}
        return {**heads, **{name: (it, None) for name, it in self.events.items()}, **found}

    def searched(self, token):
        """Returns a wrong name, to be compared with others, or nothing if many were compared."""
        self.searches += 1
        return token.text if self.searches <= MOST_SEARCHES else None

    def not_there(self, statement, token, kind, names, task=None):
        """Returns the message of a name that isn't one of its kind, in the document or in a task."""
        owner = task.name if task else None
        found = (task.declared(*DECLARING).get(token.text) if task else None) or self.outer(token)
        no_kind = f"no {kind} of `{owner}`" if task else f"no {kind}"
        what = f"{SAID[found.word]}, and {no_kind}" if found else no_kind
        text = f"`{token.text}` is {what}: {what_there_is(kind, names, owner, self.searched(token))}"
        if kind == "state" and not found and "did you mean" not in text:
            text += f"; a line `state {token.text} = V` declares it, with its value before the first instance"
        return error_at(token, statement.line, 11, text, *([note_of(found)] if found else []))

    def outer(self, token):
        """Returns the line that declares a name as an input, an event or a task, or nothing."""
        task = self.tasks.get(token.text)
        return self.inputs.get(token.text) or self.events.get(token.text) or (task.head if task else None)

    def is_silent(self, kind, token, owner):
        """Whether nothing is told of a wrong name: a line with a fault may declare it, or an earlier line has it too."""
        is_told = (id(owner), kind, token.text) in self.told
        self.note_told(kind, token, owner)
        return is_told or owner.hides_names or token.text in self.document.doubtful

    def note_told(self, kind, token, owner):
        """Keeps that a message tells of a name that a task or the document doesn't have."""
        self.told.add((id(owner), kind, token.text))


def about_found(task, token, found):
    """Returns what is wrong with a name in an expression that is declared as something else."""
    name = token.text
    if found.word == "out":
        return f"`{name}` is an out of `{task.name}`, which its own expressions can't name: name a `let` instead"
    without = ", which has no value" if found.word == "event" else ""
    return f"`{name}` is {SAID[found.word]}{without}: {how_named(found, None)}"


def said_of(statement, owner):
    """Returns what a line declares: an input, an event, a task, or an out of a task."""
    return f"an out of `{owner}`" if owner else SAID[statement.word]


def how_named(statement, owner):
    """Returns how a task gets what is declared outside of it."""
    name = statement.name.text
    return {
        "input": f"a line `sense NAME = {name}` gives its value to the task",
        "task": f"a line `read NAME = {name}.OUT` gives an out of it to the task",
        "out": f"a line `read NAME = {owner}.{name}` gives it to the task",
        "event": f"a task `on {name}` occurs with it",
    }[statement.word]


def joined_name(values, statement, token):
    """Returns the name with hyphens that begins at a token, if it has a value with `_` in their place, or nothing."""
    whole = hyphenated(statement.tokens, statement.tokens.index(token))
    return whole if whole and whole.replace("-", "_") in values else None


def note_of(statement):
    """Returns a note at the place where a name is declared."""
    name = statement.name
    return Note(statement.line, name.column, f"`{name.text}` is declared here as {SAID[statement.word]}")


def duplicate(earlier, statement, task=None):
    """Returns the message of a name that an earlier line declares; keeps the name."""
    name = statement.name.text
    first = earlier.setdefault(name, statement)
    if first is statement:
        return []
    note = Note(first.line, first.name.column, "the first line is here")
    where = f" in the task `{task.name}`" if task else ""
    if statement.word == "next":
        text = f"a second `next` of `{name}`{where}: the first stands in line {first.line}"
    else:
        of_both = f"as {SAID[statement.word]}: line {first.line} declares it as {SAID[first.word]}"
        text = f"`{name}` is declared a second time{where}, {of_both}"
    return [error_at(statement.name, statement.line, 10, text, note)]


def self_link(task, statement):
    """Returns the message of a read of the task's own out."""
    if statement.word != "read" or statement.source.text != task.name:
        return []
    text = f"the task `{task.name}` reads its own out; a state keeps a value from instance to instance"
    return [error_at(statement.source, statement.line, 12, text)]


def past_cost(task, statement):
    """Returns the message of a read that is made after its task has ended."""
    at, cost = statement.number("at", 0), task.head.number("cost")
    if statement.word != "read" or not task.is_whole or at < cost:
        return []
    text = f"`at {at}` isn't below the cost of the task `{task.name}`, which is {cost}: the latest is `at {cost - 1}`"
    note = Note(task.head.line, task.head.numbers["cost"].column, "the cost is here")
    return [error_at(statement.numbers["at"], statement.line, 16, text, note)]


def name_faults(document):
    """Returns the messages of a document's names, in the order of its lines."""
    return NameFaults(document).all()
