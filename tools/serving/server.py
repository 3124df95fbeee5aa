"""Answers the messages of an editor, one after another."""

import gc
import threading
from contextlib import suppress

from ending import Ended, Status, name_of, say
from serving import answers, params
from serving.changing import NotDone
from serving.framing import write_message
from serving.inbox import Inbox, InputEnds, uri_of
from serving.judge import Asked, Judge, Verdict
from serving.judging import FAULTS, SEVERITIES
from serving.lengths import length_of
from serving.listing import path_of
from serving.params import BadParams
from serving.reading import Version
from serving.texts import Text, lines_with_ends

INVALID, NO_METHOD, BAD_PARAMS, INTERNAL, EARLY = -32600, -32601, -32602, -32603, -32002
CANCELLED, OLD, FAILED = -32800, -32801, -32803
ERROR_MESSAGE = 1
COLLECTED_AFTER = 200  # messages: cycles of what was raised are looked for only then
UNUSED = 1  # the tag of a diagnostic


HAS_TREES = ("capabilities", "textDocument", "documentSymbol", "hierarchicalDocumentSymbolSupport")


class Refused(Exception):
    """A request isn't answered: the number of the error, and why."""

    def __init__(self, number, text):
        super().__init__(text)
        self.number = number


class Server:
    """What is open in the editor, and what it has asked for."""

    def __init__(self, program, tick):
        self.inbox = Inbox()
        self.judge = Judge(program, self.inbox.take_verdict)
        self.tick = tick
        self.versions = {}
        self.facts = {}
        self.fixes = {}  # of each document: the number of its version, and its diagnostics with their fixes
        self.folders = []
        self.has_trees = False  # whether the editor shows symbols in symbols
        self.is_begun = self.is_shut = False
        self.status = None
        self.failures = set()

    def serve(self):
        """Answers messages until the editor ends, and returns the exit status."""
        threading.Thread(target=self.read, daemon=True).start()
        threading.Thread(target=self.judge.serve, daemon=True).start()
        count = 0
        try:
            while self.status is None:
                message, change = self.inbox.next()
                if isinstance(message, Verdict):
                    self.tell(message)
                else:
                    self.take(message, change)
                count += 1
                if count % COLLECTED_AFTER == 0:
                    gc.collect()
        except InputEnds:
            return Status.DONE if self.is_shut else Status.REFUSED
        except OSError:
            return Status.WRITE_FAILED
        finally:
            self.judge.stop()
        return self.status

    def read(self):
        """Reads messages, in a thread of its own."""
        with open(0, "rb", closefd=False) as source:
            self.inbox.read_all(source)

    def take(self, message, change):
        """Answers a message."""
        method, number = message.get("method"), message.get("id")
        if not isinstance(method, str):
            if "result" not in message and "error" not in message:
                self.fail(number, INVALID, "a message has a method")
            return
        try:
            result = self.answer(method, number, message, change)
        except Refused as refused:
            self.fail(number, refused.number, str(refused))
        else:
            if "id" in message:
                write_message({"jsonrpc": "2.0", "id": number, "result": result})

    def answer(self, method, number, message, change):
        """Returns the result of a message."""
        uri, given = uri_of(message), message.get("params")
        if "id" in message:
            self.must_be_wanted(method, number, uri, change)
        if method == "exit":
            self.status = Status.DONE if self.is_shut else Status.REFUSED
            return None
        own = self.own_methods().get(method)
        asked = answers.METHODS.get(method)
        if own is None and asked is None:
            if "id" in message:
                raise Refused(NO_METHOD, f"there is no method {method}")
            return None
        try:
            return own(given) if own is not None else asked(self, given)
        except BadParams as error:
            raise Refused(BAD_PARAMS, f"{method}: {error}") from error
        except (Ended, NotDone) as error:
            raise Refused(FAILED, str(error)) from error
        except FAULTS as error:
            say(f"{name_of('language_server')}: {method}: {type(error).__name__}: {error}")
            raise Refused(INTERNAL, f"{method} can't be answered: {type(error).__name__}") from error

    def must_be_wanted(self, method, number, uri, change):
        """Refuses a request that is cancelled or about an old text, or comes before the first or after the last one."""
        if self.inbox.is_cancelled(number):
            raise Refused(CANCELLED, "the request is cancelled")
        if not self.is_begun and method != "initialize":
            raise Refused(EARLY, "the first request is `initialize`")
        if self.is_shut:
            raise Refused(INVALID, "the last request was `shutdown`")
        if self.inbox.is_old(uri, change):
            raise Refused(OLD, "the document has changed")

    def own_methods(self):
        """Returns the methods that change what is kept here."""
        return {
            "initialize": self.initialize,
            "initialized": lambda _: None,
            "shutdown": self.shut,
            "textDocument/didOpen": self.open,
            "textDocument/didChange": self.change,
            "textDocument/didClose": self.close,
            "workspace/didChangeConfiguration": self.configure,
        }

    def initialize(self, given):
        """Begins: keeps what the editor can do, and says what is done here."""
        if self.is_begun:
            raise Refused(INVALID, "`initialize` comes once")
        self.has_trees = bool(params.optional(given, *HAS_TREES))
        folders = params.optional(given, "workspaceFolders")
        uris = [params.optional(it, "uri") for it in folders] if isinstance(folders, list) else []
        uris = uris or [params.optional(given, "rootUri")]
        self.folders = [it for it in (path_of(uri) for uri in uris if isinstance(uri, str)) if it is not None]
        self.take_settings(params.optional(given, "initializationOptions"))
        self.is_begun = True
        return {"capabilities": answers.CAPABILITIES, "serverInfo": {"name": "dbp"}}

    def configure(self, given):
        """Takes the settings of the editor when they change."""
        self.take_settings(params.optional(given, "settings", "dbp") or params.optional(given, "settings"))

    def take_settings(self, settings):
        """Takes the length of a tick, if settings have it; a text that is none means that it isn't known."""
        tick = params.optional(settings, "tick")
        if isinstance(tick, str):
            self.tick = length_of(tick)

    def shut(self, _):
        """Answers nothing more."""
        self.is_shut = True

    def open(self, given):
        """Opens a document."""
        it = params.part(given, "textDocument", dict)
        self.keep(params.uri(given), it.get("version"), Text(lines_with_ends(params.part(it, "text", str))))

    def change(self, given):
        """Changes a document: ranges of it one after another, or all of it."""
        text = answers.version_of(self, given).text
        for span, new in params.changes(given):
            text = Text(lines_with_ends(new)) if span is None else text.changed(span, new)
        self.keep(params.uri(given), params.optional(given, "textDocument", "version"), text)

    def keep(self, uri, number, text):
        """Keeps a version of a document, and lets it be judged."""
        self.versions[uri] = Version(uri, number, text)
        self.facts.pop(uri, None)
        self.judge.ask(Asked(uri, number, text.content))

    def close(self, given):
        """Closes a document: its diagnostics go."""
        uri = params.uri(given)
        self.judge.forget(uri)
        for kept in (self.versions, self.facts, self.fixes):
            kept.pop(uri, None)
        self.publish(uri, None, [])

    def tell(self, verdict):
        """Tells the editor what is said of a version, unless there is a newer one."""
        version = self.versions.get(verdict.asked.uri)
        if version is None or version.text.content is not verdict.asked.text:
            return
        if verdict.failure is not None and verdict.failure not in self.failures:
            self.failures.add(verdict.failure)
            said = {"type": ERROR_MESSAGE, "message": f"dbp: {verdict.failure}"}
            write_message({"jsonrpc": "2.0", "method": "window/showMessage", "params": said})
        made = [(diagnostic(version, it), it["fixes"]) for it in verdict.messages or ()]
        self.fixes[version.uri] = (version, made)
        self.publish(version.uri, version.number, [it for it, _ in made])

    def publish(self, uri, number, diagnostics):
        """Sends the diagnostics of a document."""
        told = {"uri": uri, "diagnostics": diagnostics}
        if isinstance(number, int):
            told["version"] = number
        write_message({"jsonrpc": "2.0", "method": "textDocument/publishDiagnostics", "params": told})

    def fail(self, number, code, text):
        """Answers a request with an error; a message that is no request gets none."""
        if number is not None:
            write_message({"jsonrpc": "2.0", "id": number, "error": {"code": code, "message": text}})


def diagnostic(version, message):
    """Returns a message of tools/check as the protocol has it."""
    text = version.text
    made = {
        "range": text.range(*message["place"]),
        "severity": SEVERITIES[message["severity"]],
        "code": message["name"],
        "source": "dbp",
        "message": message["text"],
    }
    if message["name"].startswith("Unused"):
        made["tags"] = [UNUSED]
    notes = [(text.range(line, column, 1), about) for line, column, about in message["notes"]]
    if notes:
        related = [{"location": {"uri": version.uri, "range": span}, "message": about} for span, about in notes]
        made["relatedInformation"] = related
    return made


def serve_editor(program, tick):
    """Serves an editor, and returns the exit status."""
    with suppress(BrokenPipeError):
        return Server(program, tick).serve()
    return Status.WRITE_FAILED
