"""A client of tools/language_server, which speaks the protocol as an editor does."""

import json
import queue
import subprocess
import sys
import threading
import time
from pathlib import Path

from awaited import SECONDS
from served import own_signals

TOP = Path(__file__).resolve().parent.parent
SERVER = TOP / "tools" / "language_server"
TREES = {"textDocument": {"documentSymbol": {"hierarchicalDocumentSymbolSupport": True}}}


class Hangs(Exception):
    """No answer has come."""


def framed(message):
    """Returns the bytes of a message."""
    body = message if isinstance(message, bytes) else json.dumps(message).encode()
    return b"Content-Length: %d\r\n\r\n%s" % (len(body), body)


def parsed(data):
    """Returns the messages that bytes are, and what is left of them; raises a `ValueError` if they aren't messages."""
    found = []
    while data:
        head, cut, rest = data.partition(b"\r\n\r\n")
        name, _, length = head.partition(b": ")
        if not cut or name != b"Content-Length" or len(rest) < int(length):
            break
        found.append(json.loads(rest[: int(length)]))
        data = rest[int(length) :]
    return found, data


class Client:
    """A server that runs, and the messages that it has sent."""

    def __init__(self, program, *words, **how):
        command = [sys.executable, "-S", str(SERVER), "--program", str(program), *words]
        pipe = subprocess.PIPE
        self.process = subprocess.Popen(command, stdin=pipe, stdout=pipe, stderr=pipe, preexec_fn=own_signals, **how)
        self.messages = queue.Queue()
        self.number = 0
        self.slowest = (0.0, "")
        self.told = {}  # the diagnostics of each document, by the version
        self.shown = []
        self.said = b""
        self.threads = [threading.Thread(target=it, daemon=True) for it in (self.read, self.listen)]
        for thread in self.threads:
            thread.start()

    def __enter__(self):
        return self

    def __exit__(self, *_):
        self.process.kill()
        self.process.wait()
        for thread in self.threads:
            thread.join(SECONDS)
        for stream in (self.process.stdin, self.process.stdout, self.process.stderr):
            try:
                stream.close()
            except OSError:
                pass

    def read(self):
        """Reads what the server writes on standard output, which must be messages alone."""
        stream = self.process.stdout
        while True:
            head = stream.readline()
            if not head:
                break
            if not head.startswith(b"Content-Length: ") or stream.readline() != b"\r\n":
                self.messages.put({"wrong": head})
                break
            self.messages.put(json.loads(stream.read(int(head.split()[1]))))
        self.messages.put(None)

    def listen(self):
        """Reads what the server says on standard error."""
        self.said = self.process.stderr.read()

    def write(self, data):
        """Writes bytes."""
        self.process.stdin.write(data)
        self.process.stdin.flush()

    def notify(self, method, **given):
        """Sends a message that has no answer."""
        self.write(framed({"jsonrpc": "2.0", "method": method, "params": given}))

    def send(self, method, given):
        """Sends a request, and returns its number."""
        self.number += 1
        self.write(framed({"jsonrpc": "2.0", "id": self.number, "method": method, "params": given}))
        return self.number

    def next(self, seconds=SECONDS):
        """Returns the next message, or nothing at the end; diagnostics and shown messages are kept."""
        try:
            message = self.messages.get(timeout=seconds)
        except queue.Empty:
            raise Hangs(f"no message in {seconds} seconds") from None
        if message is not None and "wrong" in message:
            raise ValueError(f"standard output has {message['wrong'][:100]!r}")
        if message is not None and message.get("method") == "textDocument/publishDiagnostics":
            given = message["params"]
            self.told[given["uri"], given.get("version")] = given["diagnostics"]
        elif message is not None and message.get("method") == "window/showMessage":
            self.shown.append(message["params"]["message"])
        return message

    def answer(self, number):
        """Returns the answer to a request."""
        while True:
            message = self.next()
            if message is None:
                raise ValueError(f"the server has ended; it said {self.said[-500:]!r}")
            if message.get("id") == number and "method" not in message:
                return message

    def request(self, method, **given):
        """Returns the result of a request; an error is raised."""
        start = time.monotonic()
        answer = self.answer(self.send(method, given))
        self.slowest = max(self.slowest, (time.monotonic() - start, method))
        if "error" in answer:
            raise ValueError(f"{method}: {answer['error']}")
        return answer["result"]

    def begin(self, **given):
        """Begins as an editor does."""
        found = self.request("initialize", processId=None, rootUri=None, **{"capabilities": TREES, **given})
        self.notify("initialized")
        return found

    def begin_with_program(self, **given):
        """Begins, and waits until a document is judged: the program is there then, for which requests wait but shortly."""
        self.begin(**given)
        self.open("file:///first", "")
        self.diagnostics("file:///first", 1)
        self.notify("textDocument/didClose", textDocument={"uri": "file:///first"})

    def open(self, uri, text, version=1):
        """Opens a document."""
        it = {"uri": uri, "languageId": "dbp", "version": version, "text": text}
        self.notify("textDocument/didOpen", textDocument=it)

    def change(self, uri, version, *changes):
        """Changes a document: each change is a range or nothing, and a text."""
        listed = [{"text": text, **({"range": span} if span else {})} for span, text in changes]
        it = {"uri": uri, "version": version}
        self.notify("textDocument/didChange", textDocument=it, contentChanges=listed)

    def diagnostics(self, uri, version):
        """Waits for the diagnostics of a version, and returns them."""
        while (uri, version) not in self.told:
            if self.next() is None:
                raise ValueError(f"the server has ended; it said {self.said[-500:]!r}")
        return self.told[uri, version]

    def of(self, method, uri, **given):
        """Returns the result of a request about a document."""
        return self.request(f"textDocument/{method}", textDocument={"uri": uri}, **given)

    def at(self, method, uri, line, character, **given):
        """Returns the result of a request about a position."""
        return self.of(method, uri, position={"line": line, "character": character}, **given)

    def end(self):
        """Ends the server as an editor does, and returns its exit status."""
        self.request("shutdown")
        self.notify("exit")
        return self.process.wait(SECONDS)
