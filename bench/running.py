"""The program dbp, run by the scripts beside this file: what a run gives, and what it takes."""

import argparse
import os
import re
import signal
import subprocess
import sys
import tempfile
import threading
import time
from contextlib import suppress
from dataclasses import dataclass
from pathlib import Path

BUILT = Path(__file__).resolve().parent.parent / "crates" / "dbp" / "out" / "dbp"


@dataclass(frozen=True)
class Run:
    """What a run gave, and the seconds that it took, by the clock and of the processors."""

    status: int
    stdout: bytes
    seconds: float
    processor_seconds: float


def parser_of(about):
    """Returns a parser that tells what a script does, with the option for another program than the one that ./dbp builds."""
    parser = argparse.ArgumentParser(description=about, formatter_class=argparse.RawDescriptionHelpFormatter)
    parser.add_argument("--program", type=program, default=str(BUILT), help="the program (what ./dbp has built)")
    return parser


def program(text):
    """Returns the path of a program, if it is one."""
    if not os.access(text, os.X_OK):
        sys.exit(f"{text} is no program; ./dbp builds it at its first call")
    return text


def kill(pid):
    """Ends a process. Popen.kill also asks whether it has ended, and then wait4 finds no process."""
    with suppress(ProcessLookupError):
        os.kill(pid, signal.SIGKILL)


def run(command, document, limit=600, environment=None):
    """Runs a command from a file into a file. After `limit` seconds it is killed, and its status is -9."""
    with tempfile.TemporaryFile() as source, tempfile.TemporaryFile() as sink:
        source.write(document)
        source.seek(0)
        start = time.perf_counter()
        child = subprocess.Popen(command, stdin=source, stdout=sink, stderr=subprocess.DEVNULL, env=environment)
        timer = threading.Timer(limit, kill, (child.pid,))
        timer.start()
        _, status, used = os.wait4(child.pid, 0)
        seconds = time.perf_counter() - start
        timer.cancel()
        child.returncode = os.waitstatus_to_exitcode(status)
        sink.seek(0)
        return Run(child.returncode, sink.read(), seconds, used.ru_utime + used.ru_stime)


class Calls:
    """Calls of programs on one document after another, in the main thread of a process: a call takes a quarter of the time
    that `run` takes for it, and tells no times."""

    def __init__(self, folder, limit=60):
        self.source, self.sink, self.limit = f"{folder}/document", f"{folder}/written", limit
        self.given = self.child = None
        signal.signal(signal.SIGALRM, lambda *_: kill(self.child))

    def give(self, document):
        """Keeps the document that the next calls read."""
        if document != self.given:
            Path(self.source).write_bytes(document)
            self.given = document

    def answer(self, path, words, environment=os.environ):
        """Returns the exit status of a program and what it writes; after the limit it is killed, and the status is -9."""
        sink = (os.POSIX_SPAWN_OPEN, 1, self.sink, os.O_WRONLY | os.O_CREAT | os.O_TRUNC, 0o600)
        errors = (os.POSIX_SPAWN_OPEN, 2, os.devnull, os.O_WRONLY, 0)
        streams = [(os.POSIX_SPAWN_OPEN, 0, self.source, os.O_RDONLY, 0), sink, errors]
        self.child = os.posix_spawn(path, [path, *words], environment, file_actions=streams)
        signal.setitimer(signal.ITIMER_REAL, self.limit)
        _, status = os.waitpid(self.child, 0)
        signal.setitimer(signal.ITIMER_REAL, 0)
        return os.waitstatus_to_exitcode(status), Path(self.sink).read_bytes()


def peak_megabytes(command, document):
    """Returns the peak memory of a run. Debian's `time` tells it: a child of Python begins with Python's own."""
    with tempfile.NamedTemporaryFile() as told:
        run(["/usr/bin/time", "-q", "-f", "%M", "-o", told.name, *command], document)
        return int(told.read()) / 1024


def counted_run(command, document, profile=None):
    """Returns a run under valgrind, which runs one thread at a time, and how many million instructions it took. The
    profile is a file for callgrind_annotate."""
    with tempfile.NamedTemporaryFile() as unnamed:
        file = profile or unnamed.name
        counting = ["valgrind", "--tool=callgrind", f"--callgrind-out-file={file}"]
        counted = run([*counting, *command], document, limit=3600)
        return counted, int(re.search(r"^(?:summary|totals): (\d+)", Path(file).read_text(), re.M)[1]) / 1e6
