"""tools/language_server, asked by a client of the trial's own as editors ask: each request on examples and while one is
typed, with changes by range, on large documents, with messages that are none, and with pipes that are closed.

Nothing is measured here; bench/language_server.py has the times. A server that hangs is found after some minutes.
"""

import importlib.util
import io
import os
import random
import signal
import subprocess
import sys
from functools import partial
from pathlib import Path
from unittest.mock import patch

TOP = Path(__file__).resolve().parents[2]
sys.path[:0] = [str(TOP / "tools"), str(TOP / ".ci")]

from canonical import read_document  # noqa: E402
from checking.tokens import code_of  # noqa: E402
from checking.verdicts import Judged  # noqa: E402
from comparing import Wrong, must  # noqa: E402
from editor_texts import Renaming, edited, position_at, range_in_bytes  # noqa: E402
from language_client import SECONDS, SERVER, Client, Hangs, framed, parsed  # noqa: E402
from program import run_program  # noqa: E402
from serving import server as serving  # noqa: E402
from serving.framing import BadMessage, read_message  # noqa: E402
from serving.judge import Asked, Judge  # noqa: E402
from serving.texts import Text, bytes_of, lines_with_ends  # noqa: E402

EXAMPLES = TOP / "examples"
ALARM = TOP / ".ci" / "tried" / "response" / "alarm.dbp"
URI = "file:///a%20b/document.dbp"
SEVERITIES = {"error": 1, "warning": 2, "note": 3}

# Documents that are asked about: of each kind some, with errors, warnings, a trace, a script, or comments.
ASKED = (
    "speed_control.dbp", "heater.dbp", "logger.dbp", "cascade.dbp", "ranked/feedback.dbp", "replay/waiting.dbp",
    "refused/03_bad_line.dbp", "refused/07_missing_done.dbp", "refused/11_unknown.dbp", "refused/18_undelayed_upward.dbp",
    "refused/22_bad_cell.dbp", "form/spacing.dbp",
)
WRITTEN = ("illegal_step.dbp", "many_names.dbp", "byte_order_mark.dbp", "crlf_and_tabs.dbp", "bad_bytes.dbp")
RENAMED = ("speed_control.dbp", "heater.dbp", "logger.dbp", "replay/preempted.dbp", "replay/eight_back.dbp")
TYPED = "two_rates.dbp"
POSITIONED = ("hover", "definition", "references", "documentHighlight", "prepareRename", "completion")
WHOLE = ("documentSymbol", "foldingRange", "semanticTokens/full", "codeLens", "formatting")


def module_beside(name):
    """Returns the module of another file of trials."""
    spec = importlib.util.spec_from_file_location(f"tried_{name}", TOP / ".ci" / "tried" / f"{name}.py")
    module = importlib.util.module_from_spec(spec)
    sys.modules[spec.name] = module  # in which its dataclasses look for themselves
    spec.loader.exec_module(module)
    return module


EDITORS = module_beside("editors")
Class = EDITORS.Class


def fault_of(trial, *given):
    """Returns what a trial finds, or nothing."""
    try:
        trial(*given)
    except (Wrong, Hangs, ValueError, OSError, subprocess.TimeoutExpired) as found:
        return f"{type(found).__name__}: {found}"
    return None


def ended_well(client):
    """Ends a server, which must have said nothing on standard error."""
    must(client.end() == 0, "its status isn't 0")
    client.threads[1].join(SECONDS)
    must(not client.said, f"it said {client.said[-500:]!r}")


def text_of(path):
    """Returns a document as an editor reads it, or nothing if it is no UTF-8."""
    try:
        return path.read_bytes().decode("utf-8")
    except UnicodeDecodeError:
        return None


def wanted_diagnostics(program, uri, text):
    """Returns the diagnostics of a document by the messages of tools/check."""
    judged = Judged(partial(run_program, program), text.encode("utf-8", "surrogatepass"))
    found = []
    for it in judged.verdict().messages:
        code = it.name if it.code is None else f"{it.code} {it.name}"
        notes = [(range_in_bytes(text, note.line, note.column, 1), uri, note.text) for note in it.notes]
        span = range_in_bytes(text, it.line, it.column, it.width)
        found.append((span, SEVERITIES[it.severity.value], code, it.text, notes))
    return found


def told_diagnostics(told):
    """Returns the diagnostics that a server has sent, in the same form."""
    found = []
    for it in told:
        related = it.get("relatedInformation", ())
        notes = [(note["location"]["range"], note["location"]["uri"], note["message"]) for note in related]
        found.append((it["range"], it["severity"], it["code"], it["message"], notes))
    return found


def must_be_told(program, client, uri, version, text, where):
    """Compares the diagnostics of a version with what tools/check says."""
    found = told_diagnostics(client.diagnostics(uri, version))
    wanted = wanted_diagnostics(program, uri, text)
    for one, other in zip([*found, None], [*wanted, None]):
        must(one == other, f"{where}: told is {one}, and {other} is wanted")


def ask_all(client, uri, text, step):
    """Asks each request about a document, at each so many characters, and returns the answers about all of it."""
    whole = {"start": {"line": 0, "character": 0}, "end": position_at(text, len(text))}
    for at in range(0, len(text), step):
        place = position_at(text, at)
        for method in POSITIONED:
            context = {"context": {"includeDeclaration": True}} if method == "references" else {}
            client.at(method, uri, place["line"], place["character"], **context)
    client.of("codeAction", uri, range=whole, context={"diagnostics": []})
    client.of("semanticTokens/range", uri, range=whole)
    client.request("workspace/symbol", query="a")
    return {method: client.of(method, uri, **({"options": {}} if method == "formatting" else {})) for method in WHOLE}


def examples_asked(program):
    """Asks each request on examples, and compares diagnostics and colours."""
    files = [*(EXAMPLES / it for it in ASKED), *(TOP / ".ci/tried/check" / it for it in WRITTEN)]
    with Client(program) as client:
        client.begin_with_program()
        for file in files:
            uri, text = file.as_uri(), text_of(file)
            if text is None:
                continue
            client.open(uri, text)
            must_be_told(program, client, uri, 1, text, file.name)
            answers = ask_all(client, uri, text, 23)
            if "refused" not in file.parts and "check" not in file.parts:
                must_be_coloured(text, answers["semanticTokens/full"]["data"], file.name)
            client.notify("textDocument/didClose", textDocument={"uri": uri})
            must(client.diagnostics(uri, None) == [], f"{file.name}: a closed document has diagnostics")
        ended_well(client)


def must_be_coloured(text, data, where):
    """Compares the colours of a document with the classes of a tokenizer that follows docs/LANGUAGE.md."""
    types = serving.answers.CAPABILITIES["semanticTokensProvider"]["legend"]["tokenTypes"]
    lines = text.split("\n")
    found = [["blank"] * len(line) for line in lines]
    line = character = 0
    for delta_line, delta, width, kind, _ in zip(*[iter(data)] * 5):
        line, character = line + delta_line, delta + (0 if delta_line else character)
        found[line][character : character + width] = [types[kind]] * width
    in_trace = False
    for number, (content, classes) in enumerate(zip(lines, EDITORS.classes_by_language(lines[:-1]))):
        in_trace = content.strip() != "script" and content.strip() != "done" and in_trace
        for column, it in enumerate(classes):
            own = found[number][column]
            if not in_trace and it is not Class.BLANK and it is not Class.SYMBOL:
                must(colour_class(own) is it, f"{where}: line {number + 1}, column {column + 1} is {own}, not {it.value}")
        in_trace = in_trace or content.split("#")[0].strip() == "trace"


def colour_class(kind):
    """Returns the class of bytes that have a colour."""
    named = ("class", "event", "parameter", "variable", "property")
    others = {it.value: it for it in (Class.KEYWORD, Class.NUMBER, Class.COMMENT)}
    others["function"] = Class.KEYWORD
    return Class.NAME if kind in named else others.get(kind, Class.BLANK)


def typed(program):
    """Types an example, and asks at each character."""
    text = text_of(EXAMPLES / TYPED)
    with Client(program) as client:
        client.begin_with_program()
        client.open(URI, "", 0)
        for at, letter in enumerate(text):
            place = position_at(text[:at], at)
            client.change(URI, at + 1, ({"start": place, "end": place}, letter))
            now = position_at(text[: at + 1], at + 1)
            for method in ("completion", POSITIONED[at % 5]):
                context = {"context": {}} if method == "references" else {}
                client.at(method, URI, now["line"], now["character"], **context)
            method = WHOLE[at % 5]
            client.of(method, URI, **({"options": {}} if method == "formatting" else {}))
            if at % 40 == 0 or at + 1 == len(text):
                must_be_told(program, client, URI, at + 1, text[: at + 1], f"{at + 1} characters of {TYPED}")
        ended_well(client)


PARTS = ("é", "😀", "\r\n", "\n", "\r", "a", "# ", "", "let x = y", "\ud83d", "\t", "  out y = 0 then z # é\r")


def texts_by_ranges(_):
    """Compares texts after drawn changes, and ranges in them, with those that are made without the tools."""
    draw = random.Random(3)
    for _ in range(4000):
        text = "".join(draw.choice(PARTS) for _ in range(draw.randrange(12)))
        start = draw.randrange(len(text) + 1)
        span = {"start": position_at(text, start), "end": position_at(text, min(len(text), start + draw.randrange(5)))}
        new = draw.choice(PARTS)
        found = Text(lines_with_ends(text)).changed(span, new).lines
        wanted = edited(text, [{"range": span, "newText": new}])
        must(found == lines_with_ends(wanted) and "".join(found) == wanted, f"{text!r}, {span}, {new!r}: {found}")
        lines = [line.rstrip("\r") for line in text.split("\n")]
        number = draw.randrange(len(lines)) + 1
        column, width = draw.randrange(len(bytes_of(lines[number - 1])) + 1) + 1, draw.randrange(4)
        own, other = Text(lines_with_ends(text)).range(number, column, width), range_in_bytes(text, number, column, width)
        must(own == other, f"{text!r}: the range of line {number}, column {column}, {width} bytes is {own}, not {other}")
        back = Text(lines_with_ends(text)).spot(position_at(text, start))
        before = text[:start].split("\n")
        is_within_end = text[start - 1 : start + 1] == "\r\n" and start > 0
        is_right = back == (len(before), len(bytes_of(before[-1])) + 1) or is_within_end
        must(is_right, f"{text!r}: the place {start} is {back}")


def changed_by_ranges(program):
    """Changes a document by ranges that are drawn, and compares where its errors are then."""
    draw, text = random.Random(5), text_of(EXAMPLES / "preempted.dbp")
    with Client(program) as client:
        client.begin()
        client.open(URI, text, 0)
        for version in range(1, 31):
            changes = []
            for _ in range(draw.randint(1, 3)):
                start = draw.randrange(len(text) + 1)
                end = min(len(text), start + draw.choice((0, 0, 1, 7)))
                span = {"start": position_at(text, start), "end": position_at(text, end)}
                if draw.random() < 0.1:
                    span["end"] = {"line": span["end"]["line"], "character": 10**6}  # past the line's end
                new = draw.choice(PARTS)
                changes.append((span, new))
                text = edited(text, [{"range": span, "newText": new}])
            client.change(URI, version, *changes)
            if version % 3 == 0:
                must_be_told(program, client, URI, version, text, f"after change {version}")
        client.change(URI, 31, (None, "dbp 1\n"))
        must_be_told(program, client, URI, 31, "dbp 1\n", "after a change of all")
        ended_well(client)


def large_documents():
    """Yields documents of about one MiB: of steps, of long expressions, and one that is too large."""
    head = "dbp 1\npolicy fp\nuntil 20000\ntask k every 1 prio 1 cost 1\n"
    head += "  state n = 0\n  next n = n + 1\n  out y = 0 then n + 1\n"
    steps = "aim k 0\nopen k\nstart k\nhear k\nshut k\nput k y\ndone k\nend k\nseen k\n"
    yield "steps", f"{head}script\n{steps * 15500}done\n"
    terms = " + ".join(["a_name_of_24_characters_"] * 32)
    lets = "".join(f"  let l{it} = {terms}\n" for it in range(40))
    body = f"  state a_name_of_24_characters_ = 0\n{lets}  out y = 0 then l1\n"
    tasks = "".join(f"task t{it} every 99 prio {it} cost 1\n{body}" for it in range(28))
    yield "expressions", f"dbp 1\npolicy fp\nuntil 9\n{tasks}done\n"
    yield "too many bytes", "#" * (2**20 + 1)


def large(program):
    """Asks each request on documents of about one MiB, and compares some answers."""
    for name, text in large_documents():
        with Client(program) as client:
            client.begin_with_program()
            client.open(URI, text)
            end = position_at(text[-5:], 5)
            end["line"] += text.count("\n", 0, len(text) - 5)
            client.at("hover", URI, 3, 6)
            told = [it["code"] for it in client.diagnostics(URI, 1)]
            wanted = {"too many bytes": {"TooLarge"}, "expressions": {"UnusedLet"}}
            must({*told} == wanted.get(name, set()), f"{name}: {set(told)} is told")
            client.change(URI, 2, ({"start": end, "end": end}, "# é"))
            for method in WHOLE:
                client.of(method, URI, **({"options": {}} if method == "formatting" else {}))
            places = client.at("references", URI, 4, 8, context={"includeDeclaration": True})
            counts = {"steps": 4, "expressions": 1281, "too many bytes": 0}
            must(len(places) == counts[name], f"{name}: {len(places)} places of a name")
            client.at("completion", URI, 3, 6)
            told = [it["code"] for it in client.diagnostics(URI, 2)]
            must(told[:1] == ["TooLarge" if name == "too many bytes" else "1 BadByte"], f"{name}: {told[:3]} is told at last")
            ended_well(client)


def bytes_sent(program, data, closes=True):
    """Returns the status of a server that gets bytes alone, the messages that it sends, and what it says."""
    command = [sys.executable, "-S", str(SERVER), "--program", str(program)]
    pipe = subprocess.PIPE
    with subprocess.Popen(command, stdin=pipe, stdout=pipe, stderr=pipe) as started:
        started.stdin.write(data)
        started.stdin.flush()
        if not closes:
            status = started.wait(SECONDS)
        out, said = started.communicate(timeout=SECONDS)
    sent, rest = parsed(out)
    must(not rest, f"standard output has more than messages: {rest[:100]!r}")
    return (started.returncode if closes else status), sent, said


BEGUN = framed({"jsonrpc": "2.0", "id": 1, "method": "initialize", "params": {}})

# Bytes that are no message: the server ends by itself.
NO_MESSAGES = {
    "no header": b"\r\n\r\n",
    "a line without a colon": b"Content-Length\r\n\r\n{}",
    "a length that is none": b"Content-Length: x\r\n\r\n{}",
    "a length below 0": b"Content-Length: -5\r\n\r\n{}",
    "a length that is too large": b"Content-Length: 99999999999\r\n\r\n",
    "a text that is no JSON": framed(b'{"id": 2,'),
    "bytes that are no UTF-8": framed(b'{"id": "\xff"}'),
    "JSON that is too deep": framed(b"[" * 200_000),
    "a number": framed(b"7"),
    "a list": framed(b"[]"),
    "a line feed alone": b"Content-Length: 2\n\n{}",
    "a header that doesn't end": b"a: b\r\n" * 20,
}

# Input that ends early: the server ends with it.
CUT = {
    "nothing": b"",
    "half a body": b"Content-Length: 100\r\n\r\n{",
    "a request and no more": BEGUN,
}


def no_message(program, data):
    """Compares how a server ends that gets what is no message."""
    status, sent, said = bytes_sent(program, BEGUN + data, closes=False)
    must(status == 1 and not said, f"the status is {status}; it said {said[-300:]!r}")
    must([it.get("id") for it in sent] == [1], f"it sent {sent}")


def no_messages(_):
    """Compares that each of these bytes is known to be no message."""
    for name, data in NO_MESSAGES.items():
        try:
            found = read_message(io.BytesIO(data))
        except BadMessage:
            continue
        raise Wrong(f"{name} is taken for {found!r:.100}")
    must(read_message(io.BytesIO(b"a: b\r\ncontent-LENGTH:  2 \r\n\r\n{}")) == {}, "a header with more in it is no message")


def cut(program, data):
    """Compares how a server ends whose input ends early."""
    status, _, said = bytes_sent(program, data)
    must(status == 1 and not said, f"the status is {status}; it said {said[-300:]!r}")


def odd_messages(program):
    """Compares the answers to requests that are wrong, or come too early or too late; the server goes on."""
    with Client(program) as client:
        codes = [client.answer(client.send(method, given)).get("error", {}).get("code") for method, given in EARLY]
        must(codes == [-32002] * len(EARLY), f"before `initialize` the answers are {codes}")
        client.begin_with_program()
        client.open(URI, "dbp 1\n")
        for method, given, code in WRONG:
            answer = client.answer(client.send(method, given))
            must(answer.get("error", {}).get("code") == code, f"{method} {given}: {answer}")
        for message in ({"id": 900}, {"id": None, "method": 5}, {"method": "$/none"}, {"method": "textDocument/didChange"},
                        {"id": 7, "result": None}, {"method": "textDocument/didOpen", "params": {"textDocument": 1}}):
            client.write(framed({"jsonrpc": "2.0", **message}))
        must(client.answer(900)["error"]["code"] == -32600, "a message without a method is no request")
        must(client.at("hover", URI, 10**9, 10**9) is None, "a position past the end has no name")
        client.request("shutdown")
        late = client.answer(client.send("textDocument/hover", {}))
        must(late["error"]["code"] == -32600, f"after `shutdown` the answer is {late}")
        client.notify("exit")
        must(client.process.wait(SECONDS) == 0, "its status after `exit` isn't 0")
        must(not client.said, f"it said {client.said!r}")


PLACE = {"textDocument": {"uri": URI}, "position": {"line": 0, "character": 0}}
EARLY = (("textDocument/hover", PLACE), ("shutdown", {}))
WRONG = (
    ("none", {}, -32601),
    ("initialize", {}, -32600),
    ("textDocument/hover", None, -32602),
    ("textDocument/hover", [], -32602),
    ("textDocument/hover", {"textDocument": {"uri": "file:///none"}, "position": {"line": 0, "character": 0}}, -32602),
    ("textDocument/hover", {**PLACE, "position": {"line": "0", "character": 0}}, -32602),
    ("textDocument/hover", {**PLACE, "position": {"line": -1, "character": 0}}, -32602),
    ("textDocument/hover", {**PLACE, "position": {"line": True, "character": 0}}, -32602),
    ("textDocument/rename", PLACE, -32602),
    ("textDocument/rename", {**PLACE, "newName": "x"}, -32803),
    ("textDocument/codeAction", {"textDocument": {"uri": URI}, "range": 5}, -32602),
    ("textDocument/semanticTokens/range", {"textDocument": {"uri": URI}, "range": None}, -32602),
    ("workspace/symbol", {}, -32602),
)


def closed_output(program):
    """Compares how a server ends of which nobody reads the answers."""
    command = [sys.executable, "-S", str(SERVER), "--program", str(program)]
    source, sink = os.pipe()
    os.close(source)
    try:
        ran = subprocess.run(command, input=BEGUN * 3, stdout=sink, stderr=subprocess.PIPE, timeout=SECONDS, check=False)
    finally:
        os.close(sink)
    must(ran.returncode == 5 and not ran.stderr, f"the status is {ran.returncode}; it said {ran.stderr[-300:]!r}")


class StoppedAsItBegins(Judge):
    """A judge that another thread stops right after its process has begun."""

    def begin(self):
        """Returns the process, which has ended."""
        process = super().begin()
        self.stop()
        return process


def ended_while_judging(program):
    """Compares what is said of a document when the server ends while it is judged: a failure, and nothing is raised."""
    judge = StoppedAsItBegins(str(program), None)
    verdict = judge.verdict_on(Asked(URI, 1, text_of(ALARM).encode()))
    must(verdict.messages is None and verdict.failure, f"the verdict is {verdict}")
    must(judge.process is None, "its process isn't ended")


def stopped(program, number):
    """Compares how a server ends at a signal, and that the process which judges ends too."""
    with Client(program) as client:
        client.begin()
        client.open(URI, text_of(ALARM))
        client.diagnostics(URI, 1)
        children = subprocess.run(["pgrep", "-P", str(client.process.pid)], capture_output=True, text=True, check=False)
        client.process.send_signal(number)
        status = client.process.wait(SECONDS)
        client.threads[1].join(SECONDS)
        must(status == 130 and not client.said, f"the status is {status}; it said {client.said!r}")
    for child in map(int, children.stdout.split()):
        for _ in range(200):
            if not is_running(child):
                break
            signal.sigtimedwait([], 0.05)
        must(not is_running(child), "the process that judges goes on")


def is_running(pid):
    """Whether a process runs."""
    try:
        return Path(f"/proc/{pid}/stat").read_text().rsplit(")", 1)[1].split()[0] != "Z"
    except OSError:
        return False


def no_program(_):
    """Compares what a server does whose program isn't there: it says so once, and answers what it can."""
    with Client("/none") as client:
        client.begin()
        client.open(URI, text_of(ALARM))
        client.change(URI, 2, (None, text_of(ALARM)))
        must(client.diagnostics(URI, 2) == [], "there are diagnostics")
        must(client.shown == ["dbp: /none: No such file or directory"], f"it shows {client.shown}")
        must(len(client.of("documentSymbol", URI)) == 5, "there are no symbols")
        answer = client.answer(client.send("textDocument/hover", {**PLACE, "position": {"line": 5, "character": 6}}))
        must(answer["error"]["code"] == -32803, f"the answer is {answer}")
        ended_well(client)


def out_of_date(program):
    """Compares which requests are dropped: those that are cancelled, and those about a text that has changed since."""
    written = []
    it = serving.Server(program, None)

    def take(method, number=None, **given):
        named = {} if number is None else {"id": number}
        it.inbox.take({"jsonrpc": "2.0", "method": method, "params": given, **named})

    document, other = {"uri": URI, "version": 1, "text": "dbp 1\n"}, {"uri": "file:///other.dbp", "version": 1, "text": ""}
    take("initialize", 1)
    take("textDocument/didOpen", textDocument=document)
    take("textDocument/didOpen", textDocument=other)
    take("textDocument/documentSymbol", 2, textDocument={"uri": URI})
    take("textDocument/documentSymbol", 3, textDocument={"uri": other["uri"]})
    take("textDocument/documentSymbol", "four", textDocument={"uri": other["uri"]})
    take("textDocument/didChange", textDocument={"uri": URI, "version": 2}, contentChanges=[{"text": "dbp 2\n"}])
    take("textDocument/documentSymbol", 5, textDocument={"uri": URI})
    take("$/cancelRequest", id="four")
    take("$/cancelRequest", id=77)
    with patch.object(serving, "write_message", written.append):
        while it.inbox.waiting:
            it.take(*it.inbox.next())
    found = {message["id"]: message.get("error", {}).get("code") for message in written}
    must(found == {1: None, 2: -32801, 3: None, "four": -32800, 5: None}, f"the answers are {found}")


def accepted_form(program, text):
    """Returns the canonical text of a document that the program accepts."""
    words = ["replay"] if "\nscript\n" in text else ["plan"]
    ran = run_program(program, words, text.encode())
    must(ran.status == 0, f"it is refused: {ran.stdout!r}")
    return run_program(program, ["form"], text.encode()).stdout


def renamed(program):
    """Renames each name of examples: the program accepts the document, and its form is the old one with the new name."""
    count = 0
    with Client(program) as client:
        client.begin()
        for name in RENAMED:
            text, uri = text_of(EXAMPLES / name), (EXAMPLES / name).as_uri()
            client.open(uri, text)
            old = read_document(accepted_form(program, text))
            for owner, own, place in declared_names(client.of("documentSymbol", uri)):
                edits = client.at("rename", uri, place["line"], place["character"], newName="a_new_name_")["changes"][uri]
                made = read_document(accepted_form(program, edited(text, edits)))
                wanted = Renaming(owner, own, "a_new_name_").document(old)
                must(made == wanted, f"{name}: {own} of {owner} is renamed otherwise")
                count += 1
        must_be_refused(client)
        ended_well(client)
    must(count > 60, f"{count} names alone are renamed")


def declared_names(symbols):
    """Yields the names that symbols have, each with its task and its position."""
    for it in symbols:
        if it["kind"] != 3:
            yield None, it["name"], it["selectionRange"]["start"]
        for part in it["children"]:
            yield it["name"], part["name"], part["selectionRange"]["start"]


def must_be_refused(client):
    """Compares which new names are refused, and why."""
    text = text_of(ALARM)
    client.open(URI, text)
    for new, said in REFUSED_NAMES.items():
        answer = client.answer(client.send("textDocument/rename", {**PLACE, "position": AT_LEVEL, "newName": new}))
        must(said in answer.get("error", {}).get("message", ""), f"{new!r}: {answer}")
    broken = text.replace("  out line = 0 then level", "  out line = 0 then level level")
    client.change(URI, 2, (None, broken))
    answer = client.answer(client.send("textDocument/rename", {**PLACE, "position": AT_LEVEL, "newName": "depth"}))
    must("mend that line" in answer.get("error", {}).get("message", ""), f"with a line that has a fault: {answer}")


AT_LEVEL = {"line": 8, "character": 6}  # the out of `sensor`
REFUSED_NAMES = {
    "n": "`n` is a state already, declared in line 7",
    "out": "keyword",
    "5a": "begins with no digit",
    "a b": "letters, digits",
    "é": "letters, digits",
    "": "letters, digits",
    "a" * 25: "at most 24",
}


def laid_out(program):
    """Lays examples out: each comment of the old one is there, the form is the same, and it is what tools/format writes."""
    files = [EXAMPLES / "heater.dbp", EXAMPLES / "form/spacing.dbp", TOP / ".ci/tried/layout/comments.dbp", ALARM]
    with Client(program) as client:
        client.begin_with_program()
        for file in files:
            for end in ("\n", "\r\n"):
                text = text_of(file).replace("\r", "").replace("\n", end)
                if file == ALARM:
                    text = text.rstrip("\r\n")  # the last line has no end
                uri = file.as_uri() + f"?{len(end)}"
                client.open(uri, text)
                made = edited(text, client.of("formatting", uri, options={"tabSize": 4, "insertSpaces": True}))
                forms = [run_program(program, ["form"], it.encode()).stdout for it in (text, made)]
                must(forms[0] == forms[1] and forms[0].startswith(b"dbp"), f"{file.name}: the form is another one")
                must(comments_of(made) == comments_of(text), f"{file.name}: the comments are others")
                command = [TOP / "tools/format", "--program", program, "-"]
                ran = subprocess.run(command, input=text.encode(), capture_output=True, check=False)
                must(made.replace("\r\n", "\n").encode() == ran.stdout, f"{file.name}: tools/format writes another text")
                wanted = made.count("\n") if end == "\r\n" else 0
                must(made.count("\r\n") == wanted, f"{file.name}: the ends of lines differ")
        client.open(URI, "dbp 1\nx\n")
        must(client.of("formatting", URI, options={}) == [], "a refused document is laid out")
        ended_well(client)


def comments_of(text):
    """Returns the comments of a document; a trace has none."""
    lines = text.partition("\ntrace")[0].splitlines()
    return [line.partition("#")[2].rstrip() for line in lines if "#" in line]


# What is said of a place of the alarm's document: the line and the character, from 0, and parts of the text. A tick has 5 ms.
SAID = (
    (12, 6, ("`control` is a task", "rank 2 of 0 to 2", "load 0.200", "a period is 50 ms", "prio 2, cost 2", "1 in `sim`")),
    (5, 6, ("`sensor` is a task", "rank 0 of 0 to 2", "every 5", "slots: 3 in `sim`, 3 in `run`")),
    (9, 6, ("`report` is a task", "on alarm", "prio 3, cost 3")),
    (8, 7, ("`level` is an out of `sensor`, declared in line 9", "tick 0: 0", "tick 5: 7", "tick 10: 14")),
    (13, 8, ("`level` is a read of `control`, declared in line 14: `read level = sensor.level`",)),
    (4, 8, ("`alarm` is an event, declared in line 5: `event alarm`",)),
    (3, 7, ("60 ticks, 300 ms",)),
    (17, 1, ("10 ticks, 50 ms",)),
    (6, 3, ("`state NAME = V`",)),
)
# Places of which nothing is said.
SILENT = ((6, 12), (8, 31), (0, 5), (16, 2), (19, 9))


def hovered(program):
    """Compares what is said of places of the alarm's document, and of bounds, conditions and refused documents."""
    with Client(program, "--tick", "5ms") as client:
        client.begin_with_program()
        client.open(URI, text_of(ALARM))
        for line, character, parts in SAID:
            must_say(client, URI, line, character, parts)
        for line, character in SILENT:
            must(client.at("hover", URI, line, character) is None, f"something is said of {line}, {character}")
        client.notify("workspace/didChangeConfiguration", settings={"dbp": {"tick": "250 us"}})
        must_say(client, URI, 3, 7, ("60 ticks, 15 ms",))
        client.notify("workspace/didChangeConfiguration", settings={"dbp": {"tick": ""}})
        must(client.at("hover", URI, 3, 7) is None, "a tick without a length has one")
        client.open("file:///rta", text_of(EXAMPLES / "rta/three_rates.dbp"))
        bounds = dict(line.split(",")[:2] for line in (EXAMPLES / "rta/three_rates.dbp.stdout").read_text().splitlines())
        for line, content in enumerate(text_of(EXAMPLES / "rta/three_rates.dbp").splitlines()):
            if content.startswith("task"):
                ticks = "tick," if bounds[content.split()[1]] == "1" else "ticks,"
                must_say(client, "file:///rta", line, 6, (f"at most {bounds[content.split()[1]]} {ticks} by `dbp rta`",))
        client.open("file:///ranks", SMALL + "  read x = pre slow.y\n  out z = 0 then x\ndone\n")
        must_say(client, "file:///ranks", 3, 6, ("`slow` is a task", "rank 1 of 0 to 1"))
        client.change(URI, 2, (None, text_of(ALARM).replace("control every", "control evry")))
        must_say(client, URI, 5, 6, ("`sensor` is a task", "refused"))
        ended_well(client)


def must_say(client, uri, line, character, parts):
    """Compares what is said of a place."""
    found = client.at("hover", uri, line, character)
    said = found["contents"]["value"] if found else ""
    missing = [it for it in parts if it not in said]
    must(not missing, f"{line}, {character}: {missing} isn't in {said!r}")


def places_of_names(program):
    """Compares where names of the alarm's document are declared and stand, and its symbols, parts and marks."""
    with Client(program) as client:
        client.begin()
        client.open(URI, text_of(ALARM))
        for line, character, declared, places in NAMED:
            found = client.at("definition", URI, line, character)
            must(start_of(found) == declared, f"{line}, {character} is declared at {found}")
            for method, given in (("references", {"context": {"includeDeclaration": True}}), ("documentHighlight", {})):
                found = client.at(method, URI, line, character, **given)
                must([*map(start_of, found)] == places, f"{method} of {line}, {character}: {found}")
            found = client.at("references", URI, line, character, context={"includeDeclaration": False})
            must([*map(start_of, found)] == [it for it in places if it != declared], f"uses of {line}, {character}: {found}")
        symbols = client.of("documentSymbol", URI)
        names = [(it["name"], it["range"]["start"]["line"], it["range"]["end"]["line"]) for it in symbols]
        must(names == SYMBOLS, f"the symbols are {names}")
        must([it["name"] for it in symbols[2]["children"]] == ["level", "line"], f"the parts are {symbols[2]['children']}")
        folds = [(it["startLine"], it["endLine"], it["kind"]) for it in client.of("foldingRange", URI)]
        must(folds == [(5, 8, "region"), (9, 11, "region"), (12, 14, "region"), (15, 18, "region")], f"the folds are {folds}")
        client.change(URI, 2, (None, "# a\n# b\n" + text_of(ALARM)))
        folds = [(it["startLine"], it["endLine"], it["kind"]) for it in client.of("foldingRange", URI)]
        must(folds[0] == (0, 2, "comment"), f"the folds are {folds}")
        client.change(URI, 3, (None, text_of(ALARM).replace("task report", "\n# The next one.\ntask report")))
        ends = [it["range"]["end"]["line"] for it in client.of("documentSymbol", URI)]
        must(ends == [4, 8, 13, 16, 20], f"with a comment between tasks the last lines are {ends}")
        ended_well(client)
    with Client(program) as client:
        client.begin(workspaceFolders=[{"uri": (EXAMPLES / "tutorial").as_uri(), "name": "a"}], capabilities={})
        client.open(URI, text_of(ALARM))
        found = client.request("workspace/symbol", query="ctl")
        found = {(it["name"], Path(it["location"]["uri"]).parent.name) for it in found}
        must(found == {("control", "tutorial"), ("control", "a%20b")}, f"the symbols of all are {found}")
        flat = [(it["name"], it.get("containerName")) for it in client.of("documentSymbol", URI)]
        must(("valve", "control") in flat, f"without a tree the symbols are {flat}")
        ended_well(client)


def start_of(it):
    """Returns the line and the character at which a location begins."""
    return (it["range"]["start"]["line"], it["range"]["start"]["character"]) if it else None


# Positions in the alarm's document, where the name there is declared, and where it stands.
NAMED = (
    (13, 16, (5, 5), [(5, 5), (10, 15), (13, 15)]),  # the task `sensor`
    (10, 24, (8, 6), [(8, 6), (10, 22), (13, 22)]),  # its out `level`
    (14, 29, (13, 7), [(13, 7), (14, 27)]),  # the read `level` of `control`
    (7, 12, (6, 8), [(6, 8), (7, 7), (7, 11), (8, 21)]),  # the state `n`
    (16, 7, (4, 6), [(4, 6), (9, 15), (16, 5)]),  # the event `alarm`
    (2, 3, None, []),
)
SYMBOLS = [("alarm", 4, 4), ("sensor", 5, 8), ("report", 9, 11), ("control", 12, 14), ("trace", 15, 18)]

HEAD = "dbp 2\npolicy fp\nuntil 9\ninput heat = 1\nevent knock\n"
BODY = HEAD + "task a every 2 prio 1 cost 1\n  state n = 0\n  sense h = heat\n  out y = 0 then n\n"
BODY += "task b on knock prio 2 cost 1\n"
STEPS = BODY + "  read x = pre a.y\n  out z = 0 then x\nscript\n"
VALUES_OF_A = {"n", "h"}
OPERANDS = {"if", "not", "min", "max"}

# What stands before a place, and what may stand there, as docs/LANGUAGE.md has the lines.
COMPLETED = (
    ("", {"dbp"}),
    ("dbp 2\n", {"policy"}),
    ("dbp 2\npolicy ", {"fp", "edf"}),
    ("dbp 2\npolicy fp\nun", {"until"}),
    (HEAD, {"input", "event", "task", "trace", "script", "done"}),
    (HEAD + "task a ", {"every", "on"}),
    (HEAD + "task a every 5 ", {"from", "when", "prio", "deadline", "cost"}),
    (HEAD + "task a every 5 from 2 pr", {"when", "prio", "deadline", "cost"}),
    (HEAD + "task a on ", {"knock"}),
    (HEAD + "task a every 5 when ", {"heat"}),
    (HEAD + "task a every 5 cost 2 ", {"cpu"}),
    (HEAD + "task a every ", set()),
    (BODY, {"state", "sense", "read", "let", "next", "out", "task", "trace", "script", "done"}),
    (BODY + "  sense x = ", {"heat"}),
    (BODY + "  read x = ", {"pre", "a"}),
    (BODY + "  read x = pre ", {"a"}),
    (BODY + "  read x = pre 2 a.", {"y"}),
    (BODY + "  read x = a.y ", {"at"}),
    (BODY + "  state ", set()),
    (BODY + "  out y = 0 ", {"then"}),
    (BODY + "  out y = 0 then ", OPERANDS),
    (BODY.replace("task b", "  let m = n\n  let k = ") + "#", None),
    (BODY.partition("task b")[0] + "  let k = ", VALUES_OF_A | OPERANDS),
    (BODY.partition("task b")[0] + "  let k = if n ", {"then", "and", "or"}),
    (BODY.partition("task b")[0] + "  let k = n + ", VALUES_OF_A | OPERANDS - {"if"}),
    (BODY.partition("task b")[0] + "  next ", {"n"}),
    (BODY + "  let k = 5 # ", set()),
    (BODY + "trace\n", {"time", "script", "done"}),
    (BODY + "trace\ntime,", {"heat", "knock"}),
    (BODY + "trace\ntime,heat,", {"knock"}),
    (BODY + "trace\ntime,heat\n4,", set()),
    (STEPS, {"seen", "aim", "claim", "open", "start", "hear", "look", "take", "shut", "put", "done", "end"}),
    (STEPS + "claim ", {"a", "b"}),
    (STEPS + "claim b ", {"pre", "a", "b"}),
    (STEPS + "look b ", {"x"}),
    (STEPS + "put a ", {"y"}),
    (STEPS + "aim a ", set()),
    (STEPS + "done\n", set()),
)


def completed(program):
    """Compares what may stand at places of documents; the part of a word that is there is replaced."""
    with Client(program) as client:
        client.begin()
        for version, (before, wanted) in enumerate(it for it in COMPLETED if it[1] is not None):
            client.open(URI, before, version)
            place = position_at(before, len(before))
            items = client.at("completion", URI, **place)["items"]
            found = {it["label"] for it in items}
            must(found == wanted, f"after {before[-40:]!r} may stand {sorted(found)}")
            begun = len(before) - len(before.rstrip("abcdefghijklmnopqrstuvwxyz"))
            starts = {it["textEdit"]["range"]["start"]["character"] for it in items}
            must(starts <= {place["character"] - begun}, f"after {before[-40:]!r} words begin at {starts}")
        ended_well(client)


# A line of a document, the code of its message, and the line after the fix; `^` goes before the line `done`.
LINE = "dbp 1\npolicy fp\nuntil 9\ninput heat = 1\ntask a every 2 prio 1 cost 1\n"
LINE += "  state count = 0\n  sense h = heat\n^  out y = 0 then count\n"
FIXED = (
    ("  let x = 0 < h < 5", "3 BadLine", "  let x = 0 < h and h < 5"),
    ("  let x = h or 0 < h + 1 < 5 and h", "3 BadLine", "  let x = h or 0 < h + 1 and h + 1 < 5 and h"),
    ("  out x = 0 then (0 < h) < 5", "ComparedComparison", "  out x = 0 then 0 < h and h < 5"),
    ("  out x = 0 then ((0 < h) < 5) * 2", "ComparedComparison", "  out x = 0 then (0 < h and h < 5) * 2"),
    ("  out x = 0 then not h == 3", "NotBeforeComparison", "  out x = 0 then not (h == 3)"),
    ("  out x = 0 then (not h == 3) + 1", "NotBeforeComparison", "  out x = 0 then (not (h == 3)) + 1"),
    ("  out x = 0 then cuont", "11 Unknown", "  out x = 0 then count"),
    ("  sense k = haet", "11 Unknown", "  sense k = heat"),
    ("  next cuont = 1", "11 Unknown", "  next count = 1"),
    ("  sate z = 1", "3 BadLine", "  state z = 1"),
    ("  Let z = 1", "3 BadLine", "  let z = 1"),
    ("  let z = IF h then 1 else 2", "3 BadLine", "  let z = if h then 1 else 2"),
    ("  let z = h = 1", "3 BadLine", "  let z = h == 1"),
    ("  let z = h <> 1", "3 BadLine", "  let z = h != 1"),
    ("  let z = h => 1", "3 BadLine", "  let z = h >= 1"),
    ("  let z = h=<1", "3 BadLine", "  let z = h<=1"),
    ("  let z = h === 1", "3 BadLine", "  let z = h == 1"),
    ("  let z = h && 1", "2 BadToken", "  let z = h and 1"),
    ("  let z = h || 1", "2 BadToken", "  let z = h or 1"),
    ("  let z = !h", "2 BadToken", "  let z = not h"),
    ("  let z = h mod 2", "3 BadLine", "  let z = h % 2"),
    ("  let z = h div 2", "3 BadLine", "  let z = h / 2"),
    ("  let z = if h then 1 elsif h then 2 else 3", "3 BadLine", "  let z = if h then 1 else if h then 2 else 3"),
    ("  let z = 1 // more", "3 BadLine", "  let z = 1 # more"),
    ("  let my-name = 1", "3 BadLine", "  let my_name = 1"),
)
# Whole documents, the code of a message, and the document after its fix.
SMALL = "dbp 1\npolicy fp\nuntil 9\ntask slow every 10 prio 1 cost 2\n  out y = 0 then 7\ntask fast every 2 prio 9 cost 1\n"
FIXED_WHOLE = (
    (SMALL + "  read x = slow.y\n  out z = 0 then x\ndone\n", "18 UndelayedUpward",
     SMALL + "  read x = pre slow.y\n  out z = 0 then x\ndone\n"),
    (SMALL + "  out z = 0 then 1\n", "7 MissingDone", SMALL + "  out z = 0 then 1\ndone\n"),
    (SMALL + "  out z = 0 then 1", "7 MissingDone", SMALL + "  out z = 0 then 1\ndone\n"),
    (SMALL + "  out z = 0 then 1\nend\n", "3 BadLine", SMALL + "  out z = 0 then 1\ndone\n"),
    (SMALL + "  out z = 0 then 1\nDONE\n", "3 BadLine", SMALL + "  out z = 0 then 1\ndone\n"),
    (SMALL + "  state s = 0\ndone\n", "17 NoOut", SMALL + "  state s = 0\n  out alive = 0 then 1\ndone\n"),
    (SMALL.replace("slow every", "slow evry") + "  out z = 0 then 1\ndone\n", "3 BadLine",
     SMALL + "  out z = 0 then 1\ndone\n"),
    (SMALL + "  out z = 0 then 1\ntask low every 20 prio 0 cost 1\n  read x = pre 2 fast.z\n  out o = 0 then x\ndone\n",
     "DelayedDownward",
     SMALL + "  out z = 0 then 1\ntask low every 20 prio 0 cost 1\n  read x = fast.z\n  out o = 0 then x\ndone\n"),
    (SMALL + "  out z = 0 then 1\nscript\nopne slow\ndone\n", "27 BadStep",
     SMALL + "  out z = 0 then 1\nscript\nopen slow\ndone\n"),
    (SMALL + "  out z = 0 then 1\nscript\nopen slwo\ndone\n", "28 StepName",
     SMALL + "  out z = 0 then 1\nscript\nopen slow\ndone\n"),
    (SMALL.replace("until 9", "until 9\ninput x = 0") + "  sense k = X\n  out z = 0 then k\ndone\n", "11 Unknown",
     SMALL.replace("until 9", "until 9\ninput x = 0") + "  sense k = x\n  out z = 0 then k\ndone\n"),
)
# A text that names no cure for the place of the message.
UNFIXED = (
    ("  let z = heta", "11 Unknown"),  # an input, which expressions can't name
    ("  let z = 5 +", "3 BadLine"),
)


def fixed(program):
    """Compares what fixes make of documents: the wanted text, of which tools/check says the same no more."""
    cases = [(line_in(line), code, line_in(new)) for line, code, new in FIXED]
    with Client(program) as client:
        client.begin()
        for version, (text, code, wanted) in enumerate([*cases, *FIXED_WHOLE], 1):
            actions = fixes_of(client, text, version, code)
            must(len(actions) == 1, f"{code} of {text[-60:]!r} has {len(actions)} fixes")
            made = edited(text, actions[0]["edit"]["changes"][URI])
            must(made == wanted, f"{code}: {made[-80:]!r} is made, and {wanted[-80:]!r} is wanted")
            client.change(URI, 1000 + version, (None, made))
            again = [it for it in client.diagnostics(URI, 1000 + version) if it["code"] == code]
            must(not again, f"after the fix of {code} in {text[-60:]!r} there is {again}")
            client.notify("textDocument/didClose", textDocument={"uri": URI})
        for version, (line, code) in enumerate(UNFIXED, 500):
            actions = fixes_of(client, line_in(line), version, code)
            must(not actions, f"{line!r} has the fix {actions}")
        ended_well(client)


def line_in(line):
    """Returns a document with a line."""
    return LINE.replace("^", f"{line}\n") + "done\n"


def fixes_of(client, text, version, code):
    """Returns the fixes of the messages with a code of a document that is opened."""
    client.open(URI, text, version)
    told = [it for it in client.diagnostics(URI, version) if it["code"] == code]
    must(told, f"{text[-60:]!r} has no {code}, but {client.told[URI, version]}")
    found = client.of("codeAction", URI, range=told[0]["range"], context={"diagnostics": told})
    return [it for it in found if it["diagnostics"][0]["code"] == code]


def heard(program):
    """Compares what steps of scripts hear with what `dbp replay` prints in the cases; of an illegal one those before."""
    with Client(program) as client:
        client.begin_with_program()
        for file in sorted((EXAMPLES / "replay").glob("*.dbp")):
            lines = Path(f"{file}.stdout").read_text().splitlines()
            text, uri = text_of(file), file.as_uri()
            client.open(uri, text)
            found = [(it["range"]["start"]["line"], it["command"]["title"]) for it in client.of("codeLens", uri)]
            first = text.splitlines().index("script") + 1
            steps = [it for it, line in enumerate(text.splitlines()) if it >= first and code_of(line.encode()).strip()]
            pairs = zip(steps, (line.partition(" -> ")[2] for line in lines))
            wanted = [(line, f"hears {it}") for line, it in pairs if it]
            must(found == wanted and wanted, f"{file.name}: {found[:3]}, and {wanted[:3]} are wanted first")
        illegal = text.rstrip()[: -len("done")] + f"{steps_of(text)[0]}\ndone\n"
        client.open(URI, illegal)
        again = [it["command"]["title"] for it in client.of("codeLens", URI)]
        must(again == [it for _, it in found], f"before an illegal step the lenses are {again}")
        ended_well(client)


def steps_of(text):
    """Returns the steps of a document's script."""
    lines = text.splitlines()
    return [it for it in lines[lines.index("script") + 1 :] if it.strip() and not it.startswith("#")]


def trials(program):
    """Yields the trials: a name, and a call that returns what differs, or nothing."""
    for trial in (examples_asked, typed, texts_by_ranges, changed_by_ranges, large, no_messages, odd_messages, closed_output,
                  ended_while_judging, no_program, out_of_date, renamed, laid_out, hovered, places_of_names, completed,
                  fixed, heard):
        yield trial.__name__.replace("_", " "), partial(fault_of, trial, program)
    for name in ("no header", "a text that is no JSON", "a list"):
        yield name, partial(fault_of, no_message, program, NO_MESSAGES[name])
    for name, data in CUT.items():
        yield name, partial(fault_of, cut, program, data)
    for number in (signal.SIGINT, signal.SIGTERM):
        yield number.name, partial(fault_of, stopped, program, number)
