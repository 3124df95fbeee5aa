"""Which column of a log is the time, and which are those of the inputs and the events of a document."""

from dataclasses import dataclass
from decimal import Decimal
from typing import Dict, Tuple

from checking.text import first_listed, listed
from ending import Ended, Status
from tracing.log import printable, quoted

TIME = "time"


@dataclass(frozen=True)
class Columns:
    """The places of columns in the rows of a log: of the time, of the inputs and of the events by their names."""

    count: int
    time: int
    inputs: Dict[str, int]
    events: Dict[str, int]
    left_over: Tuple[str, ...]

    @property
    def names(self):
        """Returns the names that have a column, in the order in which the document declares them."""
        return [*self.inputs, *self.events]


@dataclass(frozen=True)
class Wanted:
    """What the words of a call say of columns: which are given by name, and the factors of inputs."""

    time: str
    inputs: Dict[str, str]
    events: Dict[str, str]
    factors: Dict[str, Decimal]


def check_names(wanted, document):
    """Ends the tool if the words of the call name no input or no event of the document."""
    inputs = [it.name for it in document.inputs]
    for kind, given, declared in (
        ("input", [*wanted.inputs, *wanted.factors], inputs),
        ("event", wanted.events, document.events),
    ):
        for name in given:
            if name not in declared:
                raise Ended(Status.WRONG_WORDS, f"the document has no {kind} {quoted(name)}")


def place_of(log, name):
    """Returns the place of the column with a name, or nothing; two columns may not have it."""
    places = [place for place, column in enumerate(log.columns) if column == name]
    if len(places) > 1:
        raise log.fault(log.line, f"two columns have the name {quoted(name)}")
    return places[0] if places else None


def listed_columns(log):
    """Returns the names of the first columns for a sentence, and how many more there are."""
    return first_listed([printable(it) for it in log.columns])


def named_place(log, name):
    """Returns the place of the column that a word of the call names."""
    place = place_of(log, name)
    if place is None:
        raise Ended(Status.WRONG_WORDS, f"{log.name} has no column {quoted(name)}; it has {listed_columns(log)}")
    return place


def time_place(log, wanted, declared):
    """Returns the place of the time: the column that is named, else `time`, else the first if nothing else has its name."""
    if wanted is not None:
        return named_place(log, wanted)
    place = place_of(log, TIME)
    if place is None and log.columns[0] in declared:
        raise log.fault(log.line, f"no column is `{TIME}`; --time names the one with the times")
    return place or 0


def places_of(log, names, given, time):
    """Returns the places of those of these names that have a column: the one that is given, or one of the same name."""
    found = {}
    for name in names:
        place = named_place(log, given[name]) if name in given else place_of(log, name)
        if place is not None and (place != time or name in given):
            found[name] = place
    return found


def columns_of(log, document, wanted):
    """Returns the columns of a log for the inputs and the events of a document; at least one must have one."""
    check_names(wanted, document)
    names = [it.name for it in document.inputs]
    time = time_place(log, wanted.time, {*names, *document.events})
    inputs = places_of(log, names, wanted.inputs, time)
    events = places_of(log, document.events, wanted.events, time)
    if not inputs and not events:
        text = f"no column has the name of an input or an event; this row has {listed_columns(log)}"
        raise log.fault(log.line, text)
    taken = {time, *inputs.values(), *events.values()}
    left_over = tuple(name for place, name in enumerate(log.columns) if place not in taken and name)
    return Columns(len(log.columns), time, inputs, events, left_over)


def told_of(log, columns, document, wanted):
    """Yields a line for times in a column of another name, for inputs and for events without a column, and for the columns
    that are left over."""
    time = log.columns[columns.time]
    if time not in (TIME, wanted.time):
        yield f"{log.name}: the times are those of the first column, {quoted(time)}\n"
    inputs = [it.name for it in document.inputs if it.name not in columns.inputs]
    events = [it for it in document.events if it not in columns.events]
    if inputs:
        yield f"{log.name}: no column for the input {listed(inputs)}: the first value stays\n"
    if events:
        yield f"{log.name}: no column for the event {listed(events)}: it never occurs\n"
    if columns.left_over:
        yield f"{log.name}: no input or event for the column {', '.join(map(quoted, columns.left_over))}\n"
