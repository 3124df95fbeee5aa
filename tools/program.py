"""The program dbp, run by the tools beside this file: every verdict and value of theirs comes from it."""

import os
import re
import shutil
import signal
import subprocess
from contextlib import ExitStack, contextmanager
from dataclasses import dataclass
from pathlib import Path

from ending import Ended, Status, kept_in, reason_of, running_programs, say

TOP = Path(__file__).resolve().parent.parent
LAUNCHER = TOP / "dbp"  # of a repository; where dbp is installed, the program itself
BUILDER = TOP / "tools" / "build.py"  # of a repository alone
BUILT = TOP / "crates" / "dbp" / "out" / "dbp"
STATUSES = range(8)  # what the program may end with
TABLE_LINE = re.compile(r"[0-9]+,\w+,[0-9]+(,-?[0-9]+)+")
LOGIC = re.compile(rb"rattle logic=([0-9a-f]{16,64})")


class CannotRun(Ended):
    """The program isn't there, couldn't be built, or ended as it never does."""

    def __init__(self, text):
        super().__init__(Status.CANNOT_RUN, text)


class LimitReached(Ended):
    """The program used more than it may."""

    def __init__(self, text):
        super().__init__(Status.CANNOT_RUN, text)


@dataclass(frozen=True)
class Limits:
    """What a run of the program may use: seconds, and how many bytes it may write. The limit on the bytes is the process's
    own on files (`RLIMIT_FSIZE`), which the program inherits."""

    seconds: float
    output: int

    def answer(self, words, document):
        """Runs words on a document; returns the status, and what was written to standard output and standard error."""
        with ExitStack() as kept:
            sinks = [kept.enter_context(open(os.memfd_create("output"), "w+b")) for _ in range(2)]
            streams = dict(zip(("stdout", "stderr"), sinks))
            started = kept.enter_context(subprocess.Popen(words, stdin=subprocess.PIPE, **streams))
            try:
                started.communicate(document, timeout=self.seconds)
            except subprocess.TimeoutExpired as error:
                raise LimitReached(f"{called(words)} took longer than {self.seconds:g} seconds") from error
            finally:
                started.kill()  # which does nothing if it has ended
            if started.returncode == -signal.SIGXFSZ:
                raise LimitReached(f"{called(words)} wrote more than {self.output:,} bytes")
            for sink in sinks:
                sink.seek(0)
            return started.returncode, sinks[0].read(), sinks[1].read()


class Kept:
    """The limits that each run of the program keeps to, if there are any."""

    limits = None


@dataclass(frozen=True)
class Ran:
    """What one run of the program gave: its exit status, its lines and its notes."""

    status: int
    stdout: bytes
    stderr: bytes


def add_program_option(parser):
    """Adds the option that names another program than the one beside the tools."""
    parser.add_argument("--program", default=str(LAUNCHER), help="the program dbp (the one beside the tools)")


def run_program(program, words, document, seconds=None):
    """Runs the program with these words on the bytes of a document. The launcher builds it first if it isn't there.

    If it hasn't ended after so many seconds, it is ended, and `TimeoutExpired` is raised.
    """
    if program == str(LAUNCHER) and BUILDER.exists() and not BUILT.exists() and shutil.which("rt"):
        say(f"{LAUNCHER} proves and builds the program first, in half an hour on four processors")
    try:
        status, stdout, stderr = answer_of([program, *words], document, seconds)
    except OSError as error:
        raise CannotRun(f"{program}: {reason_of(error)}") from error
    if status not in STATUSES:
        raise end_of(program, status, stderr)
    return Ran(status, stdout, stderr)


def answer_of(words, document, seconds):
    """Runs words on a document; returns the status, and what was written to standard output and standard error."""
    if Kept.limits:
        return Kept.limits.answer(words, document)
    pipe = subprocess.PIPE
    started = subprocess.Popen(words, stdin=pipe, stdout=pipe, stderr=pipe)
    with started, kept_in(running_programs, started):
        try:
            stdout, stderr = started.communicate(document, seconds)
        except subprocess.TimeoutExpired:
            started.kill()
            raise
    return started.returncode, stdout, stderr


def called(words):
    """Returns the words of a run as one knows them."""
    return f"`dbp {' '.join(words[1:])}`"


def end_of(program, status, stderr):
    """Returns what is wrong with a program that gave no answer: its last line, or its status."""
    if status in (-signal.SIGINT, Status.INTERRUPTED):
        return Ended(Status.INTERRUPTED, f"{program}: interrupted")
    lines = stderr.decode(errors="replace").split("\n")
    said = [line.strip() for line in lines if line.strip()]
    if said:
        return CannotRun(said[-1])
    return CannotRun(f"{program}: signal {-status} ended it" if status < 0 else f"{program}: its status is {status}")


def logic_in(content):
    """Returns the logic of the kit that a program's file names, or nothing."""
    found = LOGIC.search(content)
    return found[1].decode() if found else None


@contextmanager
def read_as_answer(program):
    """Ends the tool if what is read here isn't of the form that the program's answers have: then it isn't dbp."""
    try:
        yield
    except (LookupError, StopIteration, TypeError, ValueError) as error:
        raise CannotRun(f"{program}: its answer isn't one of dbp") from error


def table_lines(ran):
    """Returns the lines of a table that a run gave, of `mean`, `sim`, `cpus` or `run`."""
    lines = ran.stdout.decode("ascii", "replace").splitlines()
    if lines and not TABLE_LINE.fullmatch(lines[0]):
        raise CannotRun(f"the program's answer isn't one of dbp: {lines[0][:80]!r}")
    return lines
