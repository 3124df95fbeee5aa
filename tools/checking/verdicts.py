"""The program's verdict on a document, and the messages that come of it."""

import re
from dataclasses import dataclass
from enum import Enum

from checking.illegal import explained, illegal_of
from checking.language import MOST_BYTES
from checking.messages import Message, Severity
from checking.names import name_faults
from checking.occurrences import occurrence_faults
from checking.ranks import rank_faults
from checking.reading import read_document
from checking.steps import no_script, step_faults
from checking.tasks import task_faults
from checking.trace import trace_faults
from checking.warned import warnings_of
from ending import Ended, Status
from program import CannotRun

REFUSED = re.compile(rb"refused: line ([0-9]+): ([0-9]+) ([A-Za-z ]+)\n")

# What is said of a refusal that isn't found here.
NOT_FOUND = "the program refuses this line; docs/LANGUAGE.md says when exactly"

TOO_LARGE = "the document has more than 1,048,576 bytes"

# What is said of ends that no document is to blame for.
ENDS = {
    Status.WRONG_WORDS: "the program doesn't know the command that it was given",
    Status.READ_FAILED: "the program couldn't read the document",
    Status.WRITE_FAILED: "the program couldn't write its answer",
    Status.OUT_OF_MEMORY: "the program's memory ran out",
}


class Command(Enum):
    """Which command of the program judges a document."""

    PLAN = "plan"
    REPLAY = "replay"
    RANKED = "ranked"

    @property
    def words(self):
        """The words of the command."""
        return ["replay", "--ranked"] if self is Command.RANKED else [self.value]


@dataclass(frozen=True)
class Refusal:
    """The line by which the program refuses a document."""

    line: int
    code: int
    name: str


@dataclass(frozen=True)
class Verdict:
    """What came of a document: the exit status, the command that judged it, and the messages."""

    status: int
    command: Command
    messages: tuple[Message, ...]


def refusal_of(stdout):
    """Returns the refusal that the program printed, or nothing."""
    found = REFUSED.fullmatch(stdout)
    return Refusal(int(found[1]), int(found[2]), found[3].decode()) if found else None


class Judged:
    """A document, judged by the program and read here."""

    def __init__(self, run, text):
        self.run = run  # calls the program with words and a document
        self.text = text
        # A text that is too large is refused unread.
        self.document, self.reading = read_document(text if len(text) <= MOST_BYTES else b"")

    def verdict(self, command=None):
        """Returns the verdict of a command; without one, of `replay` if there is a script, else of `plan`."""
        command, ran = self.judged_by(command)
        if ran.status not in (0, 1):
            return Verdict(ran.status, command, (other_end(ran.status),))
        errors = [] if ran.status == 0 else self.errors(command, ran)
        warned = warnings_of(self.run, self.text, self.document) if self.is_diagram_accepted(command, ran) else []
        return Verdict(ran.status, command, (*errors, *sorted(warned, key=lambda it: (it.line, it.column))))

    def judged_by(self, command):
        """Returns the command that judges, and its run. A script is accepted if it is under one of the two counts."""
        if command is not None:
            return command, self.run(command.words, self.text)
        if self.document.script_at is None:
            return Command.PLAN, self.run(Command.PLAN.words, self.text)
        ran = self.run(Command.REPLAY.words, self.text)
        stopped = illegal_of(ran.stdout)
        if stopped is None:
            return Command.REPLAY, ran
        ranked = self.run(Command.RANKED.words, self.text)
        other = illegal_of(ranked.stdout)
        is_further = other is None or other.number > stopped.number
        return (Command.RANKED, ranked) if is_further else (Command.REPLAY, ran)

    def is_diagram_accepted(self, command, ran):
        """Whether all before the script is accepted."""
        if ran.status == 0 or illegal_of(ran.stdout):
            return True
        refusal = refusal_of(ran.stdout)
        return command is not Command.PLAN and refusal is not None and refusal.code in (27, 28, 29)

    def errors(self, command, ran):
        """Returns the errors of a refused document, the program's first."""
        stopped = illegal_of(ran.stdout)
        if stopped is not None and stopped.number <= len(self.document.steps):
            return [explained(self.run, command.words, self.document, stopped)]
        refusal = refusal_of(ran.stdout)
        if refusal is None:
            raise CannotRun(f"the program's answer isn't one of dbp: {ran.stdout[:80]!r}")
        return merged(refusal, self.faults(command))

    def faults(self, command):
        """Returns what is found here, in the order in which the program tries it."""
        document = self.document
        found = [*self.reading]
        for faults_of in (name_faults, task_faults, rank_faults, trace_faults):
            found += faults_of(document)
        if not found:
            found += occurrence_faults(document)
        if command is Command.PLAN:
            return found
        return found + (step_faults(document) if document.script_at is not None else [no_script(document)])


def other_end(status):
    """Returns the message of a document that is too large; another end is no verdict of it."""
    if status != Status.TOO_LARGE:
        raise Ended(status, ENDS.get(status, f"the program ended with status {status}"))
    return Message(1, 1, Severity.ERROR, None, "TooLarge", TOO_LARGE)


def merged(refusal, found):
    """Returns the errors to print: the program's refusal first, and what was found here after it.

    What was found here before it is no fault. If the refusal itself wasn't found here, nothing else is told.
    """
    for place, it in enumerate(found):
        if (it.line, it.code, it.name) == (refusal.line, refusal.code, refusal.name):
            later = sorted(found[place + 1 :], key=lambda other: (other.line, other.column))
            return one_of_each_place([it, *later])
    return [Message(refusal.line, 1, Severity.ERROR, refusal.code, refusal.name, NOT_FOUND)]


def one_of_each_place(found):
    """Returns messages without those at a place that has one already."""
    kept = {}
    for it in found:
        kept.setdefault((it.line, it.column), it)
    return list(kept.values())
