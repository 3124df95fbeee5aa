"""Lets a process judge documents, one after another; one that takes long with an old text is ended."""

import json
import subprocess
import sys
import threading
import time
from contextlib import suppress
from pathlib import Path
from typing import NamedTuple, Optional

from ending import Ended, Status, reason_of, running_programs
from program import BUILT, LAUNCHER, CannotRun, run_program

SCRIPT = Path(__file__).resolve().parent.parent / "language_server"
PATIENCE = 0.5  # seconds that the check of an old text may take
TRIES = 2  # to have an answer, as the process may be ended when it has just begun with another document


class Asked(NamedTuple):
    """A version of a document that is to be judged."""

    uri: str
    version: Optional[int]
    text: bytes


class Verdict(NamedTuple):
    """What is said of a version; instead of messages there is a failure if the program can't be run."""

    asked: Asked
    messages: Optional[list]
    failure: Optional[str]


class Judge:
    """Judges the newest version of each document, in a thread of its own, and hands the verdicts on.

    That thread alone starts the process, speaks with it and closes its streams; other threads only terminate it.
    """

    def __init__(self, program, take):
        self.program = program
        self.take = take
        self.wanted = {}
        self.changed = threading.Condition()
        self.process = None
        self.is_stopped = False
        self.current, self.since = None, 0.0
        self.ready = threading.Event()  # set when the program is there

    def ask(self, asked):
        """Wants a verdict on a version, in place of those of earlier versions."""
        with self.changed:
            self.wanted[asked.uri] = asked
            self.end_old(asked.uri)
            self.changed.notify()

    def forget(self, uri):
        """Wants no verdict on a document."""
        with self.changed:
            self.wanted.pop(uri, None)
            self.end_old(uri)

    def end_old(self, uri):
        """Ends the check of an old text if it has taken long."""
        is_old = self.current is not None and self.current.uri == uri
        if is_old and time.monotonic() - self.since > PATIENCE and self.process is not None:
            self.process.terminate()

    def stop(self):
        """Ends the process, and lets no other one begin."""
        with self.changed:
            self.is_stopped = True
            process = self.process
        if process is not None:
            process.terminate()
            process.wait()

    def serve(self):
        """Judges what is wanted, for ever."""
        with suppress(Ended):  # which is told with the first verdict
            self.make_ready()
            self.begin()
        while True:
            with self.changed:
                self.current = None
                while not self.wanted:
                    self.changed.wait()
                self.current = self.wanted.pop(next(iter(self.wanted)))
                self.since = time.monotonic()
            verdict = self.verdict_on(self.current)
            if verdict is not None:
                self.take(verdict)

    def verdict_on(self, asked):
        """Returns the verdict on a version, or nothing if a newer one is wanted before it is there."""
        try:
            self.make_ready()
            for _ in range(TRIES):
                answer = self.answer(asked.text)
                if answer is not None:
                    found = json.loads(answer)
                    return Verdict(asked, found.get("messages"), found.get("failure"))
                with self.changed:
                    if asked.uri in self.wanted:
                        return None
        except Ended as ended:
            return Verdict(asked, None, str(ended))
        return Verdict(asked, None, "the check of a document has ended without an answer")

    def make_ready(self):
        """Lets the launcher prove and build the program if it isn't yet, and calls the program itself from then on."""
        if not self.ready.is_set():
            run_program(self.program, [], b"")
            if self.program == str(LAUNCHER) and BUILT.is_file():
                self.program = str(BUILT)
            self.ready.set()

    def answer(self, text):
        """Returns what the process says of a text, or nothing if it ends."""
        process = self.begin()
        with suppress(OSError):
            process.stdin.write(b"%d\n" % len(text))
            process.stdin.write(text)
            process.stdin.flush()
            line = process.stdout.readline()
            if line.endswith(b"\n"):
                return line
        self.end()
        return None

    def begin(self):
        """Returns the process, which is started if it doesn't run."""
        with self.changed:
            if self.is_stopped:
                raise Ended(Status.DONE, "the server ends")
            if self.process is None:
                pipe = subprocess.PIPE
                words = [sys.executable, "-S", str(SCRIPT), "--judge", "--program", self.program]
                try:
                    self.process = subprocess.Popen(words, stdin=pipe, stdout=pipe)
                except OSError as error:
                    raise CannotRun(f"{sys.executable}: {reason_of(error)}") from error
                running_programs.add(self.process)
            return self.process

    def end(self):
        """Ends the process, which runs no more for other threads either."""
        with self.changed:
            process, self.process = self.process, None
        process.terminate()
        running_programs.discard(process)
        for stream in (process.stdin, process.stdout):
            with suppress(OSError):
                stream.close()
        process.wait()
