"""How a tool ends: its exit status, and what an interrupt leaves behind.

A script of this folder calls `serve` with the module of its command. From then on an interrupt ends the process with
status 130 at once: what is half written is removed, and the programs that run are ended.
"""

import gc
import os
import signal
import sys
from contextlib import contextmanager, suppress
from enum import IntEnum
from importlib import import_module

STOPS = (signal.SIGINT, signal.SIGTERM, signal.SIGHUP)
OUTPUT, ERRORS = 1, 2  # the numbers of standard output and standard error

unfinished_files = set()
running_programs = set()


class Status(IntEnum):
    """The exit statuses of all tools. Those below 70 are the program's for the same."""

    DONE = 0
    REFUSED = 1
    WRONG_WORDS = 2
    OVERRUN = 3
    READ_FAILED = 4
    WRITE_FAILED = 5
    OUT_OF_MEMORY = 6
    TOO_LARGE = 7
    CANNOT_RUN = 70
    INTERRUPTED = 130


class Ended(Exception):
    """A command can't go on: the status with which it ends, and what it says."""

    def __init__(self, status, text):
        super().__init__(text)
        self.status = status


def reason_of(error):
    """Returns in words why a call of the system failed."""
    return error.strerror or str(error)


def write_all(stream, text):
    """Writes all of a text to a standard stream, by its number. Nothing is kept back that could fail later."""
    left = memoryview(text.encode("utf-8", "surrogateescape"))
    while left:
        left = left[os.write(stream, left) :]


def say(text):
    """Writes a line on standard error, if that takes it."""
    with suppress(OSError):
        write_all(ERRORS, f"{text}\n")


@contextmanager
def kept_in(group, it):
    """Keeps a file or a program among those that an interrupt removes or ends."""
    group.add(it)
    try:
        yield it
    finally:
        group.discard(it)


def stop(*_):
    """Ends the process at an interrupt."""
    for name in [*unfinished_files]:
        with suppress(OSError):
            os.unlink(name)
    for program in [*running_programs]:
        with suppress(OSError):
            program.terminate()
    os._exit(Status.INTERRUPTED)


def catch_stops():
    """Lets interrupts end the process by `stop`, but for those that the process was told to ignore."""
    for number in STOPS:
        if signal.getsignal(number) is not signal.SIG_IGN:
            signal.signal(number, stop)


@contextmanager
def held_stops():
    """Lets interrupts wait until what is done here is done."""
    before = signal.pthread_sigmask(signal.SIG_BLOCK, STOPS)
    try:
        yield
    finally:
        signal.pthread_sigmask(signal.SIG_SETMASK, before)


def fill_closed_streams():
    """Opens each standard stream that is closed so that its use fails, and no file gets its number."""
    for stream, way in ((0, os.O_WRONLY), (OUTPUT, os.O_RDONLY), (ERRORS, os.O_RDONLY)):
        try:
            os.fstat(stream)
        except OSError:
            os.open(os.devnull, way)


def name_of(tool):
    """Returns how a tool is called here: an installed one by a link with `dbp-` before its name."""
    called = os.path.basename(sys.argv[0])
    return called if called == f"dbp-{tool}" else tool


def status_of(tool, command):
    """Returns the status with which a command ends; what stopped it is said on standard error."""
    try:
        return command()
    except Ended as ended:
        say(f"{name_of(tool)}: {ended}")
        return ended.status
    except MemoryError:
        say(f"{name_of(tool)}: out of memory")
        return Status.OUT_OF_MEMORY


def status_of_all(statuses):
    """Returns the status of a call for several files: the first that is neither 0 nor 1, else the greatest."""
    return next((it for it in statuses if it > Status.REFUSED), max(statuses))


def serve(module, name="main"):
    """Ends the process with the status of a command, which is the function of this name of a module."""
    gc.disable()  # nothing that grows is held by a cycle, and looking for cycles takes a third of a long run
    catch_stops()
    fill_closed_streams()
    tool = os.path.basename(sys.argv[0])
    sys.exit(status_of(tool, getattr(import_module(module), name)))
