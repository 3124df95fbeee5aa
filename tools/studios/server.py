"""The HTTP of the page. Whoever hasn't the token, comes by another name of the host or from another origin, asks for what
isn't there, or sends more than a document may have, is refused before anything is read or done.

Nothing of a request is logged. A name from a request is looked up among the documents, and never made a path.
"""

import json
import os
import re
import select
import socket
from collections import OrderedDict
from contextlib import suppress
from http import HTTPStatus
from http.server import BaseHTTPRequestHandler, ThreadingHTTPServer
from itertools import count
from pathlib import Path
from secrets import compare_digest, token_urlsafe
from threading import BoundedSemaphore, Lock
from urllib.parse import parse_qs

from command_line import MOST_BYTES
from ending import Ended
from program import TOP
from studios.documents import Changed, is_too_large
from studios.jobs import Incoming, line_of
from studios.work import WORKS

ADDRESS = "127.0.0.1"
SECONDS = 10  # that a client may be silent
MOST_CLIENTS = 32  # that are served at once
MOST_PAGES = 4  # reports that are kept
PAGE = Path(__file__).resolve().parent / "page"
CODEMIRROR = Path("/usr/share/javascript/codemirror")
MOST_READ = 1 << 20  # bytes of a job's events at once
NUMBER = re.compile(r"[0-9]{1,20}")

# What may be asked for by its name: a file and its type.
FILES = {
    "": (PAGE / "studio.html", "text/html"),
    "studio.css": (PAGE / "studio.css", "text/css"),
    "colours.css": (TOP / "tools" / "reports" / "colours.css", "text/css"),
    **{name: (PAGE / name, "text/javascript") for name in ("studio.js", "editor.js", "grammar.js", "steps.js", "turns.js")},
    "grammar.json": (TOP / "editors" / "vscode" / "dbp.tmLanguage.json", "application/json"),
    "codemirror.js": (CODEMIRROR / "lib" / "codemirror.js", "text/javascript"),
    "codemirror.css": (CODEMIRROR / "lib" / "codemirror.css", "text/css"),
}
JSON, HTML = "application/json", "text/html"
OWN_POLICY = ("default-src 'none'; script-src 'self'; style-src 'self' 'unsafe-inline'; img-src 'self' data:; "
              "connect-src 'self'; frame-src 'self'; base-uri 'none'; form-action 'none'; frame-ancestors 'none'")
# A report is a document of no origin: its script may draw, and ask nobody for anything.
REPORT_POLICY = ("sandbox allow-scripts; default-src 'none'; style-src 'unsafe-inline'; script-src 'unsafe-inline'; "
                 "img-src data:; base-uri 'none'; form-action 'none'; frame-ancestors 'self'")
HEADERS = {
    "Cache-Control": "no-store",
    "Cross-Origin-Opener-Policy": "same-origin",
    "Cross-Origin-Resource-Policy": "same-origin",
    "Referrer-Policy": "no-referrer",
    "X-Content-Type-Options": "nosniff",
}


class Refusal(Exception):
    """A request that isn't served: the status, and why."""

    def __init__(self, status, text):
        super().__init__(text)
        self.status = status


class Pages:
    """The last reports, by their numbers."""

    def __init__(self):
        self.numbers = count(1)
        self.lock = Lock()
        self.kept = OrderedDict()

    def keep(self, page):
        """Keeps a page, and returns its number."""
        with self.lock:
            number = next(self.numbers)
            self.kept[number] = page
            while len(self.kept) > MOST_PAGES:
                self.kept.popitem(last=False)
        return number


class Studio(ThreadingHTTPServer):
    """The server: its documents, its jobs, its pages, and its token."""

    daemon_threads = True
    allow_reuse_port = False

    def __init__(self, port, program, documents, jobs):
        super().__init__((ADDRESS, port), Handler)
        self.program = program
        self.documents = documents
        self.jobs = jobs
        self.pages = Pages()
        self.token = token_urlsafe(24)
        self.ticket = token_urlsafe(24)  # by which the browser gets the token, once
        self.clients = BoundedSemaphore(MOST_CLIENTS)

    @property
    def host(self):
        """Returns by which name alone the server is asked."""
        return f"{ADDRESS}:{self.server_address[1]}"

    @property
    def address(self):
        """Returns the address of the page."""
        return f"http://{self.host}/{self.token}/"

    @property
    def first_address(self):
        """Returns an address that leads to the page once: other users see the words with which a browser is started."""
        return f"http://{self.host}/open/{self.ticket}"

    def process_request(self, request, client_address):
        """Serves a client, if there aren't too many."""
        if self.clients.acquire(blocking=False):
            super().process_request(request, client_address)
        else:
            self.shutdown_request(request)

    def process_request_thread(self, request, client_address):
        """Serves a client in a thread of its own."""
        try:
            super().process_request_thread(request, client_address)
        finally:
            self.clients.release()

    def handle_error(self, request, client_address):
        """Says nothing of a client that is gone."""


class Handler(BaseHTTPRequestHandler):
    """Serves a request."""

    timeout = SECONDS
    server_version, sys_version = "studio", ""

    def log_message(self, *_):
        """Logs nothing."""

    def do_GET(self):
        """Serves what only reads."""
        self.serve(self.gets())

    def do_POST(self):
        """Serves what has a text."""
        self.serve(self.posts())

    def gets(self):
        """Returns what may be read, each with its call."""
        return {"about": self.about, "document": self.document, "version": self.version, "page": self.page}

    def posts(self):
        """Returns what may be asked with a text, each with its call."""
        return {"save": self.save, **{kind: self.work for kind in WORKS}}

    def serve(self, calls):
        """Serves a request, or refuses it."""
        try:
            if self.is_first():
                return
            name, query = self.checked()
            self.asked = {key: values[-1] for key, values in parse_qs(query, keep_blank_values=True).items()}
            if name in calls:
                self.kind = name
                calls[name]()
            elif self.command == "GET" and name in FILES:
                self.file(*FILES[name])
            else:
                raise Refusal(HTTPStatus.NOT_FOUND, "there is nothing of this name")
        except Refusal as refusal:
            self.refuse(refusal.status, str(refusal))
        except Ended as ended:
            self.refuse(HTTPStatus.CONFLICT, str(ended))
        except OSError:
            self.close_connection = True

    def checked(self):
        """Returns what is asked for, if the one who asks may do so."""
        if self.headers.get_all("Host") != [self.server.host]:
            raise Refusal(HTTPStatus.FORBIDDEN, "this isn't the name of the host")
        if self.headers.get_all("Origin", [f"http://{self.server.host}"]) != [f"http://{self.server.host}"]:
            raise Refusal(HTTPStatus.FORBIDDEN, "another page asks")
        path, _, query = self.path.partition("?")
        start, _, name = path[1:].partition("/")
        if not (path.startswith("/") and compare_digest(start.encode(), self.server.token.encode())):
            raise Refusal(HTTPStatus.FORBIDDEN, "the token is missing: open the address that tools/studio has printed")
        return name, query

    def is_first(self):
        """Whether the browser comes by the ticket; it gets the token then, and the ticket is void."""
        ticket = self.server.ticket
        is_right = ticket is not None and compare_digest(self.path.encode(), f"/open/{ticket}".encode())
        if not is_right or self.command != "GET" or self.headers.get_all("Host") != [self.server.host]:
            return False
        self.server.ticket = None
        self.answer(HTTPStatus.SEE_OTHER, "text/plain", b"", Location=self.server.address)
        return True

    # Answers.

    def answer(self, status, kind, content, **headers):
        """Sends a whole answer."""
        self.begin(status, kind, **{"Content-Length": len(content), **headers})
        self.wfile.write(content)

    def begin(self, status, kind, **headers):
        """Sends the head of an answer."""
        self.send_response_only(status)
        for name, value in {**HEADERS, "Content-Type": f"{kind}; charset=utf-8", **headers}.items():
            self.send_header(name, str(value))
        self.end_headers()

    def refuse(self, status, text):
        """Sends why a request isn't served."""
        self.close_connection = True
        with suppress(OSError):
            self.answer(status, "text/plain", f"{text}\n".encode("utf-8", "backslashreplace"))

    def send_error(self, code, message=None, explain=None):
        """Sends why a request isn't one of HTTP, without a word of it."""
        self.refuse(HTTPStatus(code), HTTPStatus(code).phrase)

    def file(self, path, kind):
        """Sends a file of the page."""
        try:
            content = path.read_bytes()
        except OSError:
            raise Refusal(HTTPStatus.NOT_FOUND, "this file isn't installed") from None
        self.answer(HTTPStatus.OK, kind, content, **{"Content-Security-Policy": OWN_POLICY})

    def json(self, value, status=HTTPStatus.OK):
        """Sends a value."""
        self.answer(status, JSON, json.dumps(value).encode())

    # What is read.

    def about(self):
        """Sends which documents there are."""
        documents = self.server.documents
        own, examples = ([it.name for it in places] for places in (documents.own, documents.examples))
        self.json({"own": own, "examples": examples, "has_codemirror": FILES["codemirror.js"][0].is_file(), "most": MOST_BYTES})

    def place(self):
        """Returns the name of the document that is asked for."""
        name = self.asked.get("name", "")
        if name not in self.server.documents.places:
            raise Refusal(HTTPStatus.NOT_FOUND, "there is no document of this name")
        return name

    def document(self):
        """Sends the text of a document. One that isn't UTF-8 is sent byte by byte."""
        name = self.place()
        content = self.server.documents.read(name)
        if is_too_large(content):
            raise Refusal(HTTPStatus.REQUEST_ENTITY_TOO_LARGE, f"{name} has more than {MOST_BYTES:,} bytes")
        try:
            text, encoding = content.bytes.decode("utf-8"), "utf-8"
        except UnicodeDecodeError:
            text, encoding = content.bytes.decode("latin-1"), "latin-1"
        self.json({"text": text, "encoding": encoding, "version": content.version})

    def version(self):
        """Sends the version of a document's file."""
        self.json({"version": self.server.documents.read(self.place()).version})

    def page(self):
        """Sends a report."""
        number = self.asked.get("number", "")
        page = self.server.pages.kept.get(int(number)) if NUMBER.fullmatch(number) else None
        if page is None:
            raise Refusal(HTTPStatus.NOT_FOUND, "this report isn't kept any more")
        self.answer(HTTPStatus.OK, HTML, page, **{"Content-Security-Policy": REPORT_POLICY})

    # What has a text.

    def body(self):
        """Returns the text of a request."""
        length = self.headers.get_all("Content-Length", [])
        if self.headers.get("Transfer-Encoding") or len(length) != 1 or not NUMBER.fullmatch(length[0]):
            raise Refusal(HTTPStatus.LENGTH_REQUIRED, "the length is missing")
        if int(length[0]) > MOST_BYTES:
            raise Refusal(HTTPStatus.REQUEST_ENTITY_TOO_LARGE, f"a text has at most {MOST_BYTES:,} bytes")
        text = self.rfile.read(int(length[0]))
        if len(text) != int(length[0]):
            raise Refusal(HTTPStatus.BAD_REQUEST, "the text isn't whole")
        return text

    def save(self):
        """Saves a text to the file of a document."""
        name, text = self.place(), self.body()
        try:
            self.json({"version": self.server.documents.save(name, text, self.asked.get("version"))})
        except Changed:
            there = self.server.documents.read(name).version
            self.json({"version": there, "changed": True}, HTTPStatus.PRECONDITION_FAILED)

    def work(self):
        """Begins a job in place of the last one of its kind, and sends its events."""
        number, turn = (self.asked.get(it, "0") for it in ("number", "turn"))
        if not (NUMBER.fullmatch(number) and NUMBER.fullmatch(turn)):
            raise Refusal(HTTPStatus.BAD_REQUEST, "this isn't a number")
        name, text = self.asked.get("name", "text")[:200], self.body()
        given = {"program": self.server.program, "name": name, "number": number}
        job, source = self.server.jobs.begin(self.kind, text, (self.asked.get("page"), int(turn)), **given)
        try:
            self.begin(HTTPStatus.OK, "application/x-ndjson")
            self.relay(source)
        finally:
            os.close(source)
            self.server.jobs.stop(job)

    def relay(self, source):
        """Sends the events of a job while the client is there; keeps its pages."""
        incoming, last = Incoming(), ""
        while self.is_awaited(source):
            content = os.read(source, MOST_READ)
            if not content:
                break
            for event, page in incoming.events(content):
                if page is not None:
                    event["page"] = self.server.pages.keep(page)
                last = event["kind"]
                self.wfile.write(line_of(event))
        if last not in ("done", "ended"):
            self.wfile.write(line_of({"kind": "ended", "text": "it was stopped"}))

    def is_awaited(self, source):
        """Waits for more of a job, and returns whether the client still waits for it."""
        ready, _, _ = select.select([source, self.connection], [], [])
        if self.connection not in ready:
            return True
        return bool(self.connection.recv(1, socket.MSG_PEEK))
