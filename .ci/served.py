"""A tools/studio that a trial starts, asks over HTTP, and ends; every wait is bounded."""

import json
import os
import select
import signal
import socket
import subprocess
import sys
import tempfile
from pathlib import Path
from urllib.parse import quote, urlencode

from awaited import SECONDS
from stand_ins import write_program

TOP = Path(__file__).resolve().parent.parent
WITHOUT_MIRROR = """
import sys
from pathlib import Path
import studios.server
studios.server.FILES["codemirror.js"] = (Path("/none"), "text/javascript")
from ending import serve
serve("studios.command")
"""


class Served:
    """A studio: its process, its address, and a folder that is its home, its place for other files, and where it is.

    Its document, if it has a text, is in a folder of its own beside another one. `browser` is the text of a program that is
    started as the browser.
    """

    def __init__(self, program, text=None, has_mirror=True, browser=None, tool=TOP / "tools" / "studio"):
        self.program, self.has_mirror, self.browser, self.tool = program, has_mirror, browser, tool
        self.room = tempfile.TemporaryDirectory(prefix="studio ")
        self.place = Path(self.room.name)
        for name in ("home", "tmp", "here", "own folder"):
            (self.place / name).mkdir()
        self.file = None if text is None else self.place / "own folder" / "own.dbp"
        if text is not None:
            self.file.write_bytes(text)
            (self.file.parent / "other.dbp").write_bytes(b"other\n")

    def words(self):
        """Returns the words of the call."""
        start = [self.tool] if self.has_mirror else ["-c", WITHOUT_MIRROR]
        named = [] if self.file is None else [self.file]
        program = ["--program", self.program] if self.program else []
        quiet = [] if self.browser else ["--no-browser"]
        return [sys.executable, "-B", *start, *program, *quiet, "--port", "0", *named]

    def environment(self):
        """Returns the environment of the call."""
        env = {**os.environ, "HOME": str(self.place / "home"), "TMPDIR": str(self.place / "tmp")}
        if not self.has_mirror:
            env["PYTHONPATH"] = str(TOP / "tools")
        if self.browser:
            env["BROWSER"] = f"'{self.place / 'browser'}' %s"
            write_program(self.place / "browser", self.browser)
        return env

    def __enter__(self):
        pipe, words, env = subprocess.PIPE, self.words(), self.environment()
        self.process = subprocess.Popen(words, stdout=pipe, stderr=pipe, env=env, cwd=self.place / "here", preexec_fn=own_signals)
        if not select.select([self.process.stdout], [], [], SECONDS)[0]:
            self.process.kill()
            raise TimeoutError("the studio prints no address")
        self.address = self.process.stdout.readline().decode().strip()
        if not self.address:
            raise ValueError(f"the studio ends: {self.process.stderr.read()[-300:]!r}")
        self.host, self.token = self.address[len("http://") :].strip("/").split("/")
        self.port = int(self.host.rpartition(":")[2])
        return self

    def __exit__(self, *_):
        self.end(signal.SIGTERM)
        self.room.cleanup()

    def end(self, number):
        """Ends the studio by a signal, if it hasn't ended; returns its status, and what it said besides its address."""
        if self.process.poll() is None:
            self.process.send_signal(number)
        try:
            out, said = self.process.communicate(timeout=SECONDS)
        except subprocess.TimeoutExpired:
            self.process.kill()
            out, said = self.process.communicate()
        except ValueError:  # its streams are closed: it has ended before
            return self.process.returncode, b"", b""
        return self.process.returncode, out, said

    def connected(self):
        """Returns a connection to the studio."""
        return socket.create_connection(("127.0.0.1", self.port), timeout=SECONDS)

    def raw(self, request):
        """Sends bytes, and returns all that comes back."""
        with self.connected() as client:
            client.sendall(request)
            return read_all(client)

    def request(self, method, path, headers=None, body=b"", **more):
        """Returns the bytes of a request as the page makes it, but for these headers; None leaves one out."""
        given = {"Host": self.host, "Origin": f"http://{self.host}", "Content-Length": len(body) if method == "POST" else None}
        given = {**given, **(headers or {}), **more}
        lines = [f"{name}: {value}" for name, value in given.items() if value is not None]
        return "\r\n".join([f"{method} {path} HTTP/1.1", *lines, "", ""]).encode() + body

    def ask(self, method, what, body=b"", /, **query):
        """Asks as the page does; returns the status and the content of the answer."""
        path = f"/{self.token}/{quote(what)}" + (f"?{urlencode(query)}" if query else "")
        return parted(self.raw(self.request(method, path, body=body)))

    def events(self, kind, body, **query):
        """Returns the events of a job, and the pages that it made."""
        status, content = self.ask("POST", kind, body, **query)
        if status != 200:
            raise ValueError(f"{kind}: the status is {status}: {content[:200]!r}")
        return [json.loads(line) for line in content.splitlines()]

    def processes(self):
        """Returns the processes that descend from the studio, by their numbers, with their words."""
        parents, words = {}, {}
        for folder in Path("/proc").iterdir():
            if folder.name.isdigit():
                try:
                    parents[int(folder.name)] = int((folder / "stat").read_text().rpartition(")")[2].split()[1])
                    words[int(folder.name)] = (folder / "cmdline").read_bytes()
                except OSError:
                    continue
        found, last = {}, {self.process.pid}
        while last:
            last = {process for process, parent in parents.items() if parent in last and words.get(process)}
            found.update((process, words[process]) for process in last)
        return found


def own_signals():
    """Lets interrupts end the process, whatever the trials' own one ignores."""
    for number in (signal.SIGINT, signal.SIGTERM, signal.SIGHUP):
        signal.signal(number, signal.SIG_DFL)


def read_all(client):
    """Returns all that comes over a connection."""
    parts = []
    while True:
        try:
            part = client.recv(1 << 20)
        except ConnectionResetError:
            part = b""
        if not part:
            return b"".join(parts)
        parts.append(part)


def parted(answer):
    """Returns the status and the content of an answer; no answer has the status 0."""
    head, _, content = answer.partition(b"\r\n\r\n")
    return (int(head.split()[1]), content) if head.startswith(b"HTTP/") else (0, answer)
