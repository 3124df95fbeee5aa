"""Processes that do what takes long: each is forked from one that has read all modules, keeps to limits, and can be stopped.

The process that forks has no threads. The server sends it a kind of work, the text, and the end of a pipe; on the pipe the
new process writes events: a line of JSON each, which may name how many bytes of a page follow.
"""

import json
import os
import resource
import signal
import socket
from contextlib import suppress
from itertools import count
from threading import Lock

from ending import Ended, Status
from program import Kept, LimitReached, Limits

SECONDS = 10  # of a run of the program
OUTPUT = 128 << 20  # bytes that a run of the program may write
MEMORY = 2 << 30  # bytes that the process, and a run of the program, may have
WORK_SECONDS = 180  # of the whole work
MOST_MESSAGE = 1 << 16


def line_of(event):
    """Returns an event as a line."""
    return json.dumps(event).encode() + b"\n"


class Incoming:
    """The events of a job as they come in."""

    def __init__(self):
        self.pending = bytearray()

    def events(self, content):
        """Yields the events that are whole with this content, each with its page if it has one."""
        self.pending += content
        while True:
            line, end, _ = self.pending.partition(b"\n")
            if not end:
                return
            event = json.loads(line)
            stop = len(line) + 1 + event.get("size", 0)
            if len(self.pending) < stop:
                return
            has_page = event.pop("size", None) is not None
            page = bytes(self.pending[len(line) + 1 : stop]) if has_page else None
            del self.pending[:stop]
            yield event, page


class Events:
    """Writes events to the server."""

    def __init__(self, sink):
        self.sink = sink

    def tell(self, kind, **what):
        """Writes an event."""
        self.write(line_of({"kind": kind, **what}))

    def page(self, kind, page, **what):
        """Writes an event with a page."""
        self.write(line_of({"kind": kind, "size": len(page), **what}) + page)

    def write(self, content):
        """Writes bytes; if nobody reads them any more, the process ends."""
        try:
            self.sink.write(content)
            self.sink.flush()
        except OSError:
            os._exit(0)


def keep_limits():
    """Limits this process and those that it starts."""
    for kind, most in ((resource.RLIMIT_AS, MEMORY), (resource.RLIMIT_FSIZE, OUTPUT), (resource.RLIMIT_CORE, 0)):
        _, hard = resource.getrlimit(kind)
        least = most if hard == resource.RLIM_INFINITY else min(most, hard)
        resource.setrlimit(kind, (least, least))
    Kept.limits = Limits(SECONDS, OUTPUT)
    signal.signal(signal.SIGALRM, too_long)
    signal.alarm(WORK_SECONDS)


def too_long(*_):
    """Ends the work, which has taken too long."""
    raise LimitReached(f"the work took longer than {WORK_SECONDS} seconds")


def answer(work, asked, text, events):
    """Does a work, and tells how it ended."""
    try:
        keep_limits()
        work(asked, text, events)
        events.tell("done")
    except LimitReached as reached:
        events.tell("ended", text=f"a limit is reached: {reached}")
    except MemoryError:
        events.tell("ended", text=f"a limit is reached: the work needs more than {MEMORY >> 20} MiB of memory")
    except Ended as ended:
        is_limit = ended.status == Status.OUT_OF_MEMORY
        about = f"a limit is reached, {MEMORY >> 20} MiB of memory: " if is_limit else ""
        events.tell("ended", text=f"{about}{ended}")


class Forker:
    """The process that forks: it takes messages until the server is gone, and ends then what it has forked."""

    def __init__(self, channel, works):
        self.channel = channel
        self.works = works
        self.children = {}

    def serve(self):
        """Takes messages until there are none any more."""
        for number in (signal.SIGINT, signal.SIGHUP):
            signal.signal(number, signal.SIG_IGN)
        while True:
            message, files, _, _ = socket.recv_fds(self.channel, MOST_MESSAGE, 2)
            self.reap()
            if not message:
                break
            asked = json.loads(message)
            if "stop" in asked:
                self.stop(asked["stop"])
            else:
                self.fork(asked, *files)
        for job in [*self.children]:
            self.stop(job)

    def fork(self, asked, text, sink):
        """Forks a process that does a work."""
        process = os.fork()
        if not process:
            self.work(asked, text, sink)
        with suppress(OSError):
            os.setpgid(process, process)
        self.children[asked["job"]] = process
        os.close(text)
        os.close(sink)

    def work(self, asked, text, sink):
        """Does a work in this process, which ends then."""
        try:
            os.setpgid(0, 0)
            self.channel.close()
            with open(text, "rb") as source, open(sink, "wb") as out:
                source.seek(0)
                answer(self.works[asked["kind"]], asked, source.read(), Events(out))
        finally:
            os._exit(0)

    def stop(self, job):
        """Ends the process of a job, if it hasn't ended yet, and those that it has started."""
        if job in self.children:
            with suppress(OSError):
                os.killpg(self.children[job], signal.SIGKILL)

    def reap(self):
        """Forgets the processes that have ended."""
        for job, process in [*self.children.items()]:
            if os.waitpid(process, os.WNOHANG)[0]:
                del self.children[job]


class Jobs:
    """What the server asks for: at most one job of each kind, so that the newest text wins."""

    def __init__(self, works):
        self.numbers = count(1)
        self.lock = Lock()
        self.running = {}
        self.newest = {}
        self.channel, other = socket.socketpair(socket.AF_UNIX, socket.SOCK_SEQPACKET)
        if not os.fork():
            self.channel.close()
            try:
                Forker(other, works).serve()
            finally:
                os._exit(0)
        other.close()

    def begin(self, kind, text, turn, **asked):
        """Begins a job in place of the last one of its kind; returns its number, and the pipe of its events.

        The turn is the page that asks, and how often it had asked before. Questions may come in another order than they
        were asked in: one that is older than the last one of its page begins nothing, and its pipe has no events.
        """
        source, sink = os.pipe()
        with self.lock, open(os.memfd_create("text"), "wb") as memory:
            memory.write(text)
            memory.flush()
            job = next(self.numbers)
            if not self.is_older(kind, turn):
                self.newest[kind] = turn
                if kind in self.running:
                    self.send({"stop": self.running[kind]})
                self.running[kind] = job
                self.send({"job": job, "kind": kind, **asked}, memory.fileno(), sink)
        os.close(sink)
        return job, source

    def is_older(self, kind, turn):
        """Returns whether the page of a turn has asked for this kind later already."""
        page, number = self.newest.get(kind, (None, 0))
        return turn[0] == page and turn[1] < number

    def stop(self, job):
        """Ends a job, if it hasn't ended yet."""
        with self.lock:
            self.send({"stop": job})

    def send(self, message, *files):
        """Sends a message to the process that forks."""
        with suppress(OSError):
            socket.send_fds(self.channel, [json.dumps(message).encode()], files)
