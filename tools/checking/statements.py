"""The lines of a document as statements, by their forms."""

from __future__ import annotations

from dataclasses import dataclass, field

from checking.expressions import whole
from checking.language import GREATEST_DELAY, VERSIONS, part_form, parts_after, task_form
from checking.text import listed
from checking.tokens import Kind, Token
from policies import POLICIES

NO_EXPRESSION = "`when` has the name of an input and no expression: the task occurs if the input isn't 0"


@dataclass
class Statement:
    """A line with tokens: its kind, and those of its parts that it has.

    `source` and `port` are what a `read` names, `source` alone what `on` and `sense` name, `condition` what `when` names;
    `numbers` has the numbers by the words before them, `names` the names in the expression.
    """

    line: int
    head: Token
    name: Token | None = None
    value: Token | None = None
    source: Token | None = None
    port: Token | None = None
    condition: Token | None = None
    numbers: dict[str, Token] = field(default_factory=dict)
    names: list[Token] = field(default_factory=list)
    is_delayed: bool = False
    tokens: tuple[Token, ...] = ()

    @property
    def word(self):
        """The word that the line begins with."""
        return self.head.text

    def number(self, word, default=None):
        """Returns the value of a number of this line, or what stands for it if it is left out."""
        return self.numbers[word].value if word in self.numbers else default

    @property
    def delay(self):
        """How many occurrences earlier a `read` reads."""
        return self.number("pre", 1) if self.is_delayed else 0


def header(cursor, statement):
    """Takes the version after `dbp`."""
    wanted = f"the version {listed(VERSIONS, 'or')}"
    statement.value = cursor.number(wanted)
    if statement.value.value not in VERSIONS:
        cursor.at -= 1
        cursor.leave(wanted)
    cursor.end()


def policy(cursor, statement):
    """Takes the word of a policy."""
    statement.value = cursor.word(*POLICIES)
    cursor.end()


def until(cursor, statement):
    """Takes the end of the time."""
    statement.numbers["until"] = cursor.number("a number of ticks")
    cursor.end()


def with_value(cursor, statement):
    """Takes the name and the first value of an input or a state."""
    statement.name = cursor.name("a name")
    if cursor.here is None:
        cursor.leave("`=`", f"it has a first value, as `{statement.word} {statement.name.text} = 0`")
    cursor.word("=")
    if cursor.here is not None and cursor.here.kind is Kind.NAME:
        cursor.leave("a number", "the first value is one number, and no expression")
    statement.value = cursor.number("a number")
    if cursor.here is not None:
        more = cursor.advice("the line's end") or "the first value is one number, and no expression"
        cursor.leave("the line's end", more)


def event(cursor, statement):
    """Takes the name of an event."""
    statement.name = cursor.name("a name")
    if cursor.says("="):
        cursor.leave("the line's end", "an event has no value")
    cursor.end()


def task(cursor, statement):
    """Takes a task's name, its clock and what stands after it."""
    cursor.form = task_form("every", cursor.version)
    if cursor.says("every", "on"):
        cursor.leave("a name", "the name of the task comes before its clock")
    statement.name = cursor.name("a name")
    if not cursor.says("every", "on"):
        cursor.form = "` or `".join(task_form(word, cursor.version) for word in ("every", "on"))
        cursor.leave("`every` or `on`", about_version(cursor))
    word = cursor.word("every", "on").text
    cursor.form = task_form(word, cursor.version)
    clock(cursor, statement, word)
    after_clock(cursor, statement, [word], parts_after(word, cursor.version))


def clock(cursor, statement, word):
    """Takes the period or the event of a clock, after its word."""
    here = cursor.here
    if word == "every":
        if here is not None and here.kind is Kind.NAME:
            cursor.leave("the period, a number,", f"a task that occurs with an event is `on {here.text}`")
        statement.numbers["every"] = cursor.number("the period, a number,")
    else:
        if here is not None and here.kind is Kind.NUMBER:
            cursor.leave("the name of an event", f"a task with a period is `every {here.text}`")
        statement.source = cursor.name("the name of an event")


def after_clock(cursor, statement, given, left):
    """Takes what stands after the clock: of the words that are left, in their order, `cost` and any others."""
    while left:
        first = left[: left.index("cost") + 1] if "cost" in left else left
        taken = cursor.takes(*first)
        if taken is None and "cost" in left:
            cursor.leave(listed(map(part_form, first), "or"), about_task(cursor, given, left))
        if taken is None:
            break
        if taken.text == "when":
            statement.condition = condition(cursor)
        else:
            statement.numbers[taken.text] = cursor.number(f"a number after `{taken.text}`")
        given.append(taken.text)
        left = left[left.index(taken.text) + 1 :]
    if cursor.here is not None:
        wanted = " or ".join([*(f"`{part_form(word)}`" for word in left), "the line's end"])
        cursor.leave(wanted, about_task(cursor, given, left))


def condition(cursor):
    """Takes the name of the input after `when`."""
    here = cursor.here
    if here is not None and (here.kind in (Kind.NUMBER, Kind.SYMBOL) or here.says("not", "if", "min", "max")):
        cursor.leave("the name of an input", NO_EXPRESSION)
    return cursor.name("the name of an input")


def about_task(cursor, given, left):
    """Returns more about a word in a `task` line that isn't at its place, or nothing."""
    here = cursor.here
    if here is None or cursor.advice(""):
        return ""
    if here.text in given:
        return f"`{here.text}` stands here a second time"
    if here.says("from") and given[0] == "on":
        return "only a task with `every` has an offset"
    if about_version(cursor):
        return about_version(cursor)
    if given[-1] == "when" and (here.kind is Kind.SYMBOL or here.says("and", "or")):
        return NO_EXPRESSION
    if here.says("from", "when", "prio", "deadline"):
        return f"`{part_form(here.text)}` comes before `{part_form(given[-1])}`"
    if here.says("cpu"):
        return "`cpu N` comes after `cost N`"
    return "" if left else f"`{part_form(given[-1])}` comes last"


def about_version(cursor):
    """Returns which documents have a word that those of this version don't have, or nothing."""
    is_later = cursor.version == 1 and cursor.says("when", "cpu")
    return f"`{cursor.here.text}` needs a document that begins with `dbp 2`" if is_later else ""


def sense(cursor, statement):
    """Takes the name of a value and of an input."""
    statement.name = cursor.name("a name")
    if cursor.here is None:
        cursor.leave("`=`", f"the value has a name, as `sense NAME = {statement.name.text}`")
    cursor.word("=")
    statement.source = cursor.name("the name of an input")
    cursor.end()


def read(cursor, statement):
    """Takes what a `read` names: a task and an out of it, with a delay, at a time."""
    statement.name = cursor.name("a name")
    if cursor.says("."):
        cursor.leave("`=`", f"the value has a name, as `read NAME = {statement.name.text}.OUT`")
    cursor.word("=")
    statement.is_delayed = bool(cursor.takes("pre"))
    if statement.is_delayed and cursor.says("("):
        cursor.leave("the name of a task", "`pre` has no parentheses, as in `pre TASK.OUT`")
    if statement.is_delayed and cursor.here is not None and cursor.here.kind is Kind.NUMBER:
        statement.numbers["pre"] = cursor.number("a number")
    statement.source = cursor.name("the name of a task" if statement.is_delayed else "`pre` or the name of a task")
    if not cursor.takes("."):
        cursor.leave("`.`", about_read(cursor, statement))
    statement.port = cursor.name("the name of an out")
    if cursor.takes("at"):
        statement.numbers["at"] = cursor.number("a number of ticks")
        cursor.end()
    elif cursor.here is not None:
        before = "`pre` and its number come before the task" if cursor.says("pre") else ""
        cursor.leave("`at N` or the line's end", before)


def about_read(cursor, statement):
    """Returns more about what stands after the name of a task in a `read`, or nothing."""
    if cursor.here is None:
        return f"an out of the task is named, as `{cursor.last.text}.NAME`"
    if statement.is_delayed and "pre" not in statement.numbers and cursor.here.kind is Kind.NAME:
        return f"the delay after `pre` is a number from 1 to {GREATEST_DELAY}"
    return cursor.advice("")


def with_expression(cursor, statement):
    """Takes a name and its expression."""
    statement.name = cursor.name("a name")
    cursor.word("=")
    whole(cursor, statement.names)


def out(cursor, statement):
    """Takes a name, its first value and its expression."""
    statement.name = cursor.name("a name")
    cursor.word("=")
    if cursor.here is not None and cursor.here.kind is Kind.NAME:
        cursor.leave("the first value, a number,", f"as in `out {statement.name.text} = 0 then E`")
    statement.value = cursor.number("the first value, a number,")
    if not cursor.takes("then"):
        cursor.leave("`then`", cursor.advice("") or "the first value, before `then`, is one number")
    whole(cursor, statement.names)


def alone(cursor, _):
    """Takes nothing more."""
    cursor.end()


FORM_OF = {
    "dbp": header,
    "policy": policy,
    "until": until,
    "input": with_value,
    "event": event,
    "task": task,
    "state": with_value,
    "sense": sense,
    "read": read,
    "let": with_expression,
    "next": with_expression,
    "out": out,
    "trace": alone,
    "script": alone,
    "done": alone,
}
