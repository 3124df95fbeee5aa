"""When tasks occur, and the fault of a document whose tasks occur too often."""

from itertools import chain

from canonical import spans_on, times_in
from checking.language import MOST_OCCURRENCES
from checking.messages import error_at
from checking.text import listed
from checking.trace import number, row_of


def filled_cells(document, names):
    """Returns the time and the text of each filled cell of the columns of some names, by a trace without faults."""
    header = row_of(document.rows[0]).cells if document.rows else ()
    places = {place: column.text for place, column in enumerate(header) if place > 0 and column.text in names}
    found = {name: [] for name in places.values()}
    for line in document.rows[1:] if places else ():
        cells = line.text.split(b",")
        for place, name in places.items():
            cell = cells[place].strip(b" \t")
            if cell:
                found[name].append((number(cells[0].strip(b" \t").decode()), cell.decode()))
    return found


def times_of_events(document):
    """Returns the times at which each event occurs that the trace has a column of."""
    cells = filled_cells(document, document.declared("event"))
    return {name: [time for time, cell in filled if cell == "1"] for name, filled in cells.items()}


def spans_of_inputs(document):
    """Returns, for each input that a `when` names, the spans of ticks in which it isn't 0."""
    named = {task.head.condition.text for task in document.tasks if task.head.condition is not None}
    inputs = {name: it for name, it in document.declared("input").items() if name in named}
    cells, end = filled_cells(document, inputs), document.until.number("until")
    samples = {name: [(time, number(cell)) for time, cell in filled] for name, filled in cells.items()}
    return {name: [*spans_on(it.value.value, samples.get(name, []), end)] for name, it in inputs.items()}


class Times:
    """When the tasks of a document occur, which has no faults."""

    def __init__(self, document):
        self.end = document.until.number("until")
        self.events = times_of_events(document)
        self.spans = spans_of_inputs(document)

    def base(self, task):
        """Returns the times of a task's clock, as a range or a list."""
        head = task.head
        if head.source is not None:
            return self.events.get(head.source.text, [])
        return range(head.number("from", 0), self.end, head.number("every"))

    def pieces(self, task):
        """Returns the times of a task in pieces, as ranges or lists: with a `when` one for each span of its input."""
        condition = task.head.condition
        return [self.base(task)] if condition is None else times_in(self.base(task), self.spans[condition.text])

    def count(self, task):
        """Returns how often a task occurs, without going through its times."""
        return sum(map(len, self.pieces(task)))

    def of(self, task):
        """Returns the times at which a task occurs."""
        return chain.from_iterable(self.pieces(task))


def occurrence_faults(document):
    """Returns the message of a document, without other faults, whose tasks occur too often."""
    if document.until is None:
        return []
    times = Times(document)
    counts = {task.name: times.count(task) for task in document.tasks}
    total = sum(counts.values())
    if total <= MOST_OCCURRENCES:
        return []
    most = sorted(counts, key=lambda it: -counts[it])[:3]
    text = f"all tasks together occur {total:,} times, and may occur {MOST_OCCURRENCES:,} times: most often "
    text += f"{listed(most)} ({', '.join(f'{counts[it]:,}' for it in most)})"
    return [error_at(document.until.numbers["until"], document.until.line, 25, text)]


def count_of_occurrences(document):
    """Returns how often all tasks of a document occur together, which has no fault."""
    return sum(map(Times(document).count, document.tasks))
