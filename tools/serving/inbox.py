"""What waits to be answered: messages of the editor, which a thread of their own reads, and verdicts on documents."""

import threading
from collections import deque
from contextlib import suppress

from serving.framing import BadMessage, read_message

CANCEL = "$/cancelRequest"
CHANGES = ("textDocument/didChange", "textDocument/didClose")


class InputEnds(Exception):
    """No message comes any more."""


def uri_of(message):
    """Returns the document that a message is about, or nothing."""
    with suppress(LookupError, TypeError):
        uri = message["params"]["textDocument"]["uri"]
        return uri if isinstance(uri, str) else None
    return None


def id_of(message):
    """Returns the number of a request, or nothing."""
    return message.get("id") if isinstance(message, dict) else None


class Inbox:
    """The messages in their order. Of a request it is known whether it is out of date: cancelled, or of an old text."""

    def __init__(self):
        self.waiting = deque()
        self.ready = threading.Condition()
        self.cancelled = set()
        self.changes = {}  # how many changes of each document have come
        self.has_ended = False

    def read_all(self, source):
        """Reads messages until none comes any more."""
        try:
            with suppress(BadMessage, OSError):
                for message in iter(lambda: read_message(source), None):
                    self.take(message)
        finally:
            with self.ready:
                self.has_ended = True
                self.ready.notify()

    def take(self, message):
        """Takes a message of the editor."""
        uri = uri_of(message)
        with self.ready:
            if message.get("method") == CANCEL:
                self.cancel(message)
                return
            if message.get("method") in CHANGES:
                self.changes[uri] = self.changes.get(uri, 0) + 1
            self.waiting.append((message, self.changes.get(uri, 0)))
            self.ready.notify()

    def cancel(self, message):
        """Keeps that a request which waits is cancelled."""
        params = message.get("params")
        number = params.get("id") if isinstance(params, dict) else None
        if isinstance(number, (int, str)) and any(id_of(it) == number for it, _ in self.waiting):
            self.cancelled.add(number)

    def take_verdict(self, verdict):
        """Takes what the judge says."""
        with self.ready:
            self.waiting.append((verdict, None))
            self.ready.notify()

    def next(self):
        """Waits for the next message or verdict, and returns it with the number of the changes before it."""
        with self.ready:
            while not self.waiting:
                if self.has_ended:
                    raise InputEnds
                self.ready.wait()
            return self.waiting.popleft()

    def is_cancelled(self, number):
        """Whether a request is cancelled, which it is told once."""
        with self.ready:
            found = isinstance(number, (int, str)) and number in self.cancelled
            if found:
                self.cancelled.discard(number)
            return found

    def is_old(self, uri, change):
        """Whether the document has changed after a message came."""
        with self.ready:
            return uri is not None and self.changes.get(uri, 0) != change
