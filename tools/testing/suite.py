"""The documents of a call, what each process has to do with them, and what comes of all."""

import multiprocessing
import os
import signal
from contextlib import ExitStack, suppress
from pathlib import Path
from typing import List, NamedTuple, Optional, Tuple

from command_line import STANDARD_INPUT
from ending import STOPS, Ended, Status, held_stops, kept_in, reason_of, running_programs, say, unfinished_files
from testing.beside import DOCUMENT, expected_file, properties_file
from testing.cases import Case, Refused
from testing.coverage import Coverage
from testing.own import own_tests
from testing.results import Test
from testing.traces import Drawn, Traces, drawn_traces, joined

LEFT_OUT = {"__pycache__", "out"}


class Share(NamedTuple):
    """A part of all work: of so many parts the one of this number, from 0."""

    number: int
    count: int

    def has_own(self, document):
        """Whether it has the tests of a document's own trace, by the document's number."""
        return document % self.count == self.number

    def traces(self, document, count):
        """Returns the numbers of the drawn traces of a document that it has, from 1 to a count."""
        return [it for it in range(1, count + 1) if (document + it) % self.count == self.number]

    def split(self, count):
        """Returns as many shares that together have what this one has."""
        return [Share(self.number + self.count * it, self.count * count) for it in range(count)]


class Asked(NamedTuple):
    """What is asked of documents: how they are run, how many traces are drawn from which number, and where is kept what
    fails."""

    program: str
    files: Tuple[str, ...]
    ways: tuple
    traces: int
    seed: int
    updates: bool
    folder: Optional[str]


class Part(NamedTuple):
    """What a process found of a document: the tests of its own trace, what came of drawn ones, and its coverage."""

    tests: Optional[List[Test]]
    drawn: Optional[Drawn]
    counts: Optional[List[int]]


def documents_of(names):
    """Returns the documents that names of files and folders stand for; of a folder those with tests, sorted."""
    found = []
    for name in names:
        if name == STANDARD_INPUT:
            raise Ended(Status.WRONG_WORDS, "nothing stands beside standard input: name a file")
        if os.path.isdir(name):
            found += sorted(str(it) for it in below(name) if has_tests(it))
        else:
            found.append(name)
    return tuple(dict.fromkeys(found))


def below(folder):
    """Yields the documents below a folder."""

    def fail(error):
        raise Ended(Status.READ_FAILED, f"{error.filename}: {reason_of(error)}") from error

    for place, folders, files in os.walk(folder, onerror=fail):
        folders[:] = sorted(it for it in folders if it not in LEFT_OUT and not it.startswith("."))
        yield from (Path(place) / it for it in files if it.endswith(DOCUMENT))


def has_tests(document):
    """Whether something stands beside a document."""
    return expected_file(document).is_file() or properties_file(document).is_file()


def parts_of(asked, share):
    """Returns what is found of each document that a share has something of, by the document's number."""
    return {number: part_of(asked, share, number, file) for number, file in enumerate(asked.files)
            if share.has_own(number) or share.traces(number, asked.traces)}


def part_of(asked, share, number, file):
    """Returns what a share finds of a document."""
    is_own = share.has_own(number)
    try:
        case = Case(asked.program, file)
    except Refused as refused:
        return Part([Test(file, "it is accepted", "mean", refused.told)] if is_own else None, None, None)
    tests = own_tests(case, asked.ways, asked.updates) if is_own else None
    numbers = share.traces(number, asked.traces)
    is_drawn = numbers and case.properties and case.drawer.ranges
    drawn = drawn_traces(case, asked.seed, while_awaited(numbers), asked.ways) if is_drawn else None
    return Part(tests, drawn, case.coverage.counts)


def while_awaited(numbers):
    """Yields numbers as long as the process that waits for what comes of them is there."""
    parent = multiprocessing.parent_process()
    for number in numbers:
        if parent is not None and parent.pid != os.getppid():
            os._exit(Status.INTERRUPTED)
        yield number


def found_by(asked, shares):
    """Returns the parts of all shares, each found by a process of its own if there are several."""
    if len(shares) == 1:
        return [parts_of(asked, shares[0])]
    context = multiprocessing.get_context("fork")
    with ExitStack() as kept:
        started = []
        for share in shares:
            source, sink = context.Pipe(duplex=False)
            process = context.Process(target=work, args=(asked, share, sink))
            with held_stops():
                process.start()
                kept.enter_context(kept_in(running_programs, process))
            sink.close()
            kept.callback(process.join)
            kept.callback(process.terminate)
            started.append(source)
        return [answer_of(source) for source in started]


def work(asked, share, sink):
    """Finds the parts of a share in a process of its own, and sends them, or what ended it. Interrupts waited until now."""
    running_programs.clear()
    unfinished_files.clear()
    signal.pthread_sigmask(signal.SIG_UNBLOCK, STOPS)
    try:
        answer = parts_of(asked, share)
    except Ended as ended:
        answer = ended.status, str(ended)
    except MemoryError:
        answer = Status.OUT_OF_MEMORY, "out of memory"
    with suppress(OSError):  # the first process may have ended
        sink.send(answer)


def answer_of(source):
    """Returns what a process sends; if it was ended, so is the tool."""
    try:
        answer = source.recv()
    except EOFError as error:
        raise Ended(Status.CANNOT_RUN, "a process of --jobs ended before it was done") from error
    if isinstance(answer, tuple):
        raise Ended(*answer)
    return answer


class Outcome(NamedTuple):
    """What came of a document: its tests, and its text and its coverage if it is accepted."""

    file: str
    tests: List[Test]
    text: Optional[bytes]
    coverage: Optional[Coverage]


def outcomes_of(asked, shares):
    """Yields what came of each document that the shares have something of."""
    found = found_by(asked, shares)
    for number, file in enumerate(asked.files):
        parts = [it[number] for it in found if number in it]
        if parts:
            yield outcome_of(asked, file, parts)


def outcome_of(asked, file, parts):
    """Returns what came of a document in several processes."""
    tests = [test for it in parts for test in it.tests or ()]
    counts = [it.counts for it in parts if it.counts is not None]
    if not counts:
        return Outcome(file, tests, None, None)
    case = Case(asked.program, file)
    drawn = [it.drawn for it in parts if it.drawn is not None]
    if asked.traces and case.properties and not case.drawer.ranges:
        say(f"test: {file}: no traces are drawn, since {case.asked.name} doesn't say what they are like")
    if drawn:
        tests += Traces(case, asked.seed, asked.folder).tests(joined(drawn))
    case.coverage.clear()
    for it in counts:
        case.coverage.merge(it)
    return Outcome(file, tests, case.text, case.coverage)
