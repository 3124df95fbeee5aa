"""The tests of drawn traces: what fails is made smaller, kept as a document, and told."""

import re
from pathlib import Path
from typing import Dict, NamedTuple, Tuple

from checking.messages import Note
from checking.text import times
from command_line import write_text
from testing.beside import DOCUMENT, properties_file
from testing.cases import Refused
from testing.judging import failure_of
from testing.own import SAME_LINES
from testing.results import Test
from testing.shrinking import Shrinker
from testing.telling import told_of_failure, told_of_way
from testing.traced import traced, traced_text
from testing.ways import MEAN, fault_of_way

KEPT = "failed_"


class Drawn(NamedTuple):
    """What came of drawn traces: how many there were, the first trace of which a property doesn't hold, by its place, and
    by a command's name the first trace that it doesn't run as `mean` does, with the difference."""

    count: int
    failing: Dict[int, int]
    faults: Dict[str, Tuple[int, str]]


def drawn_traces(case, seed, numbers, ways):
    """Returns what comes of the traces of some numbers."""
    failing, faults, count = {}, {}, 0
    for number in numbers:
        count += 1
        columns = case.drawer.columns(seed, number)
        text, document = traced_text(case.places, columns), traced(case.document, columns)
        try:
            lines = case.lines_of_mean(text)
        except Refused as refused:
            faults.setdefault(MEAN, (number, str(refused)))
            continue
        standing = case.evaluated(document, lines)
        for way in ways:
            said = fault_of_way(case.program, way, text, lines) if way.name != MEAN else None
            if said:
                faults.setdefault(way.name, (number, said))
        for place, it in enumerate(case.properties):
            if place not in failing and failure_of(it, standing):
                failing[place] = number
    return Drawn(count, failing, faults)


def joined(parts):
    """Returns what came of traces that were drawn in parts; of two that fail the one with the lesser number counts."""
    failing, faults = {}, {}
    for part in parts:
        for own, found in ((part.failing, failing), (part.faults, faults)):
            for key, it in own.items():
                found[key] = min(it, found.get(key, it))
    return Drawn(sum(it.count for it in parts), failing, faults)


class Traces:
    """The tests of what came of the drawn traces of a document."""

    def __init__(self, case, seed, folder):
        self.case, self.seed = case, seed
        base = properties_file(case.file)
        self.base = base if folder is None else Path(folder) / base.name

    def tests(self, drawn):
        """Returns a test for each property, and for each command that differs."""
        name = f"{drawn.count} drawn traces" if drawn.count != 1 else "1 drawn trace"
        found = [Test(self.case.file, f"{SAME_LINES}, {name}", way, self.told_of_fault(way, *fault))
                 for way, fault in drawn.faults.items()]
        for place, it in enumerate(self.case.properties):
            told = self.told_of_trace(it, drawn.failing[place]) if place in drawn.failing else None
            found.append(Test(self.case.file, f"{it.title}, {name}", MEAN, told))
        return found

    def name_of(self, number):
        """Returns what a drawn trace is called."""
        return f"trace {number} of seed {self.seed}"

    def told_of_fault(self, way, number, said):
        """Returns what is told of a trace that a command doesn't run as `mean` does; it is kept as it was drawn."""
        text = traced_text(self.case.places, self.case.drawer.columns(self.seed, number))
        file = self.keep(re.sub(r"\W+", "_", way), text)
        return told_of_way(self.case, way, f"{self.name_of(number)}, which is kept in {file}: {said}", text)

    def told_of_trace(self, it, number):
        """Makes a failing trace smaller, keeps it, and returns what is told of it."""
        case = self.case
        columns = case.drawer.columns(self.seed, number)
        columns, until, _ = Shrinker(case.meaning, it, case.drawer.ranges, columns).shrink()
        comment = f"tools/test: {it.title} doesn't hold; {self.name_of(number)}, made smaller"
        text = traced_text(case.places, columns, until, comment)
        document = traced(case.document, columns, until)
        standing = case.evaluated(document, case.lines_of_mean(text))
        failure = failure_of(it, standing)
        file = self.keep(it.name or f"line_{it.line}", text)
        count = sum(len(own.cells) for own in columns)
        about = f"{self.name_of(number)}, made smaller, is kept as {file}, with {times(count, 'cell')}"
        return told_of_failure(case, it, failure, standing, text, (Note(1, 1, about, file),))

    def keep(self, name, text):
        """Writes a document that fails beside the properties, and returns its file."""
        file = str(self.base.with_name(f"{self.base.stem}.{KEPT}{name}{DOCUMENT}"))
        write_text([text], file)
        return file
