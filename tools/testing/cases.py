"""A document with what stands beside it, and the evaluation of its runs."""

import os
from functools import cached_property, partial

from canonical import read_document
from checking.printed import plain
from checking.reading import read_document as read_places
from checking.text import lines_of
from checking.verdicts import ENDS, TOO_LARGE, Command, Judged
from command_line import read_bytes
from ending import Ended, Status
from program import CannotRun, read_as_answer, run_program, table_lines
from testing.beside import declared_in, expected_file, must_be_whole, properties_file
from testing.coverage import Coverage
from testing.drawing import Drawer
from testing.expectations import read_expectations
from testing.meaning import Meaning
from testing.properties import read_properties
from testing.results import Told
from testing.standing import Standing
from testing.ways import MEAN, difference


class Refused(Exception):
    """The program refuses a document: what is told of it."""

    def __init__(self, told):
        super().__init__(told.said)
        self.told = told


class Beside:
    """A file beside a document: its name, its text, and what is read of it."""

    def __init__(self, file, read, declared):
        self.file = str(file)
        self.text = read_bytes(self.file)
        must_be_whole(self.file, self.text)
        self.read = read(self.text, declared)

    @property
    def name(self):
        return os.path.basename(self.file)

    @property
    def faults(self):
        return self.read.faults

    def plain(self, messages):
        """Returns messages of the file as text."""
        return plain(self.file, lines_of(self.text), messages)


class Case:
    """A document of a file, and what is found of it. `coverage` counts all runs that are evaluated."""

    def __init__(self, program, file):
        self.program, self.file = program, file
        self.text = read_bytes(file)
        self.lines = self.lines_of_mean(self.text)
        form = run_program(program, ["form"], self.text).stdout
        with read_as_answer(program):
            self.document = read_document(form)
        self.places = read_places(self.text)[0]
        self.coverage = Coverage(self.places)
        self.meaning = Meaning(self.places, self.document, self.coverage.counting)

    def lines_of_mean(self, text):
        """Returns the lines that `mean` prints of a text of this document, if it is accepted."""
        ran = run_program(self.program, [MEAN], text)
        if ran.status == Status.DONE:
            return table_lines(ran)
        if ran.status != Status.REFUSED:
            said = {**ENDS, Status.TOO_LARGE: TOO_LARGE}.get(ran.status, f"the program ended with status {ran.status}")
            raise Ended(ran.status, f"{self.file}: {said}")
        messages = Judged(partial(run_program, self.program), text).verdict(Command.PLAN).messages
        if not messages:
            raise CannotRun(f"{self.program}: its answer isn't one of dbp")
        told = plain(self.file, lines_of(text), messages)
        raise Refused(Told(f"the document is refused: {messages[0].text}", told, text))

    @cached_property
    def declared(self):
        """What the document declares."""
        return declared_in(self.places)

    @cached_property
    def expected(self):
        """The file of its expectations, if it is there."""
        file = expected_file(self.file)
        return Beside(file, read_expectations, self.declared) if file.is_file() else None

    @cached_property
    def asked(self):
        """The file of its properties, if it is there."""
        file = properties_file(self.file)
        return Beside(file, read_properties, self.declared) if file.is_file() else None

    @property
    def properties(self):
        """The properties that are asked of it; none if their file has a fault."""
        return () if self.asked is None or self.asked.faults else self.asked.read.properties

    @cached_property
    def drawer(self):
        """What draws traces for it."""
        return Drawer(self.document, self.text, () if self.asked is None else self.asked.read.ranges)

    def evaluated(self, document, lines):
        """Returns the outs of the document, whose trace may be another, as they stand: the program has printed its lines."""
        instances = self.meaning.instances(document)
        differs = difference([it.line for it in instances], lines, "tools/test", MEAN)
        if differs:
            raise CannotRun(f"{self.file}: the values that are computed here aren't the program's: {differs}")
        self.coverage.count_tasks(instances)
        return Standing(document, instances)
