"""tools/studio: who isn't the page is refused, nothing but the file is written, limits and stops are kept, and in a real
browser the page follows the text: marks, timeline, overrun, steps, turns, undoing over reloads, saving, and large documents.

A trial for which chromium, its driver, python3-selenium or libjs-codemirror is missing is skipped.
"""

import hashlib
import json
import os
import re
import signal
import socket
import subprocess
import sys
import tempfile
from contextlib import ExitStack
from functools import lru_cache, partial
from pathlib import Path
from threading import Lock

TOP = Path(__file__).resolve().parents[2]
sys.path[:0] = [str(TOP / "tools"), str(TOP / ".ci"), str(TOP / ".ci" / "tried")]

import editors as editors_tried  # noqa: E402
import report as reports_tried  # noqa: E402
from awaited import BROWSER_SECONDS, SECONDS, wait_until  # noqa: E402
from canonical import read_document  # noqa: E402
from comparing import Skipped  # noqa: E402
from served import Served, parted, read_all  # noqa: E402
from stand_ins import between  # noqa: E402

CODEMIRROR = Path("/usr/share/javascript/codemirror/lib/codemirror.js")
ONE_BROWSER = Lock()

GOOD = (TOP / "examples" / "preempted.dbp").read_bytes()
MOST_BYTES = 1_048_576


# Who may ask.

def requests(it):
    """Yields requests that must be refused, each with its name and the status."""
    about, token = f"/{it.token}/about", it.token
    yield "no token", it.request("GET", "/about"), 403
    yield "an empty token", it.request("GET", "//about"), 403
    yield "the token without its last letter", it.request("GET", f"/{token[:-1]}/about"), 403
    yield "the token and a letter", it.request("GET", f"/{token}x/about"), 403
    yield "the token in the query", it.request("GET", f"/?token={token}"), 403
    yield "another host", it.request("GET", about, Host="evil.example"), 403
    yield "another host with the port", it.request("GET", about, Host=f"evil.example:{it.port}"), 403
    yield "the host by its name", it.request("GET", about, Host=f"localhost:{it.port}"), 403
    yield "another port", it.request("GET", about, Host=f"127.0.0.1:{it.port + 1}"), 403
    yield "no host", it.request("GET", about, Host=None), 403
    yield "two hosts", it.request("GET", about).replace(b"\r\n\r\n", b"\r\nHost: evil.example\r\n\r\n"), 403
    yield "another origin", it.request("GET", about, Origin="http://evil.example"), 403
    yield "no document's origin", it.request("GET", about, Origin="null"), 403
    yield "another scheme", it.request("GET", about, Origin=f"https://{it.host}"), 403
    yield "another port's origin", it.request("GET", about, Origin=f"http://127.0.0.1:{it.port + 1}"), 403
    for kind in ("report", "steps", "turns", "save"):
        path = f"/{token}/{kind}?name=own.dbp&version=none"
        yield f"{kind} without the token", it.request("POST", f"/{kind}?name=own.dbp", body=GOOD), 403
        yield f"{kind} from another origin", it.request("POST", path, body=GOOD, Origin="http://evil.example"), 403
        yield f"{kind} by another host", it.request("POST", path, body=GOOD, Host="evil.example"), 403
        large = {"Content-Length": MOST_BYTES + 1}
        yield f"{kind} with a body above one MiB", it.request("POST", path, large), 413
        yield f"{kind} with a body without a length", it.request("POST", path, {"Content-Length": None}), 411
        chunked = {"Content-Length": None, "Transfer-Encoding": "chunked"}
        yield f"{kind} in chunks", it.request("POST", path, chunked, b"0\r\n\r\n"), 411
        yield f"{kind} of a negative length", it.request("POST", path, {"Content-Length": -1}), 411
        yield f"{kind} by GET", it.request("GET", path), 404
    yield from paths(token, it)


def paths(token, it):
    """Yields requests for what isn't there, each with its name and the status."""
    outside = ("..", "../studio", "../../../../etc/passwd", "%2e%2e/studio.html", "..%2fserver.py", "page/studio.html",
               "./studio.js", "studio.js/", "/etc/passwd", "frame.js", "server.py", "codemirror.js/..", "studio.js%00")
    for path in outside:
        yield f"the path {path}", it.request("GET", f"/{token}/{path}"), 404
    yield "a path before the token", it.request("GET", f"/../{token}/about"), 403
    yield "a whole address", it.request("GET", f"http://{it.host}/{token}/about"), 403
    for name in ("../own.dbp", "other.dbp", "/etc/passwd", "examples/../../own.dbp", "", "own.dbp\0", "./own.dbp"):
        shown = name.replace("\0", "%00")
        yield f"the document {shown!r}", it.request("GET", f"/{token}/document?name={shown}"), 404
        yield f"saving {shown!r}", it.request("POST", f"/{token}/save?name={shown}&version=none", body=GOOD), 404
    yield "a page that isn't there", it.request("GET", f"/{token}/page?number=999"), 404
    yield "a page of no number", it.request("GET", f"/{token}/page?number=../1"), 404
    yield "turns of no number", it.request("POST", f"/{token}/turns?number=--record", body=GOOD), 400
    yield "another method", it.request("PUT", f"/{token}/about"), 501
    yield "no request of HTTP", b"hello\r\n\r\n", 0  # which is answered without a head


def snapshot(*folders):
    """Returns what is in folders: each file with its bytes and its rights."""
    found = {}
    for folder in folders:
        for it in sorted(Path(folder).rglob("*")):
            about = it.lstat()
            content = it.read_bytes() if it.is_file() else None
            found[str(it)] = (about.st_mode, content, about.st_mtime_ns if it.is_file() else None)
    return found


def refused_fault(program):
    """Returns the first request that isn't refused as it must be; none of them changes a file or is logged."""
    with Served(program, GOOD) as it:
        before = snapshot(it.place)
        for name, request, status in requests(it):
            found, content = parted(it.raw(request))
            if found != status or it.token.encode() in content or b"own.dbp" in content:
                return f"{name}: the status is {found}, and {status} is wanted; the answer is {content[:100]!r}"
        if it.ask("GET", "about")[0] != 200:
            return "the page itself is refused"
        if snapshot(it.place) != before:
            return "a file has changed"
        said = it.end(signal.SIGINT)
    return None if said == (130, b"", b"") else f"it ends with {said}"


def taken_fault(program):
    """Returns how a second studio on a port ends, if it isn't refused; the first one serves on."""
    with Served(program, GOOD) as it:
        words = [sys.executable, "-B", TOP / "tools/studio", "--program", program, "--no-browser", "--port", str(it.port)]
        ran = subprocess.run(words, capture_output=True, timeout=SECONDS, check=False)
        is_refused = ran.returncode == 2 and not ran.stdout and b"Address already in use" in ran.stderr
        if not is_refused or b"Traceback" in ran.stderr:
            return f"it ends with {ran.returncode} and says {ran.stderr[-300:]!r}"
        return None if it.ask("GET", "about")[0] == 200 else "the first one serves no more"


def address_fault(program):
    """Returns on which other address of this machine the studio can be reached, if there is one."""
    with Served(program, GOOD) as it:
        for address in ("127.0.0.2", own_address()):
            try:
                socket.create_connection((address, it.port), timeout=5).close()
                return f"it can be reached by {address}"
            except OSError:
                continue
    return None


def own_address():
    """Returns an address of this machine that others see, or one of the loop."""
    with socket.socket(socket.AF_INET, socket.SOCK_DGRAM) as it:
        try:
            it.connect(("192.0.2.1", 9))  # sends nothing
            return it.getsockname()[0]
        except OSError:
            return "127.0.0.3"


BROWSER = """#!/bin/sh
printf '%s' "$1" > "$HOME/asked"
"""


def ticket_fault(program):
    """Returns how the address that a browser is started with fails: it leads to the page once, and hasn't its token."""
    with Served(program, browser=BROWSER) as it:
        asked = it.place / "home" / "asked"
        if not wait_until(lambda: asked.exists() and asked.read_text().startswith("http")):
            return "no browser was started"
        address = asked.read_text()
        path = address[len(f"http://{it.host}") :]
        if it.token in address:
            return f"the words of the browser have the token: {address}"
        headers = ({"Host": "evil.example"}, {"Origin": None}, {"Origin": None})
        answers = [it.raw(it.request("GET", path, **words)) for words in headers]
    statuses = [parted(answer)[0] for answer in answers]
    is_led = f"\r\nLocation: {it.address}\r\n".encode() in answers[1]
    return None if statuses == [403, 303, 403] and is_led else f"the statuses are {statuses}"


# What is written.

def saved_fault(program):
    """Returns how saving differs: the bytes go to the file alone, and never over what another program has written."""
    text, other, last = GOOD + b"# more\n", GOOD + b"# of another program\n", GOOD + b"# caf\xe9\r\n"
    with Served(program, GOOD) as it:
        os.chmod(it.file, 0o640)
        before, known = snapshot(it.place), version_of(GOOD)
        it.events("report", text, name="own.dbp")
        if snapshot(it.place) != before:
            return "a file has changed before it was saved"
        answers = [it.ask("POST", "save", text, name="own.dbp", version=known)]
        it.file.write_bytes(other)
        answers.append(it.ask("POST", "save", last, name="own.dbp", version=version_of(text)))
        if it.file.read_bytes() != other:
            return "what another program wrote is gone"
        answers.append(it.ask("POST", "save", last, name="own.dbp", version=json.loads(answers[-1][1])["version"]))
        answers.append(it.ask("POST", "save", GOOD, name="examples/preempted.dbp", version=version_of(GOOD)))
        after = snapshot(it.place)
        has_rights = it.file.stat().st_mode & 0o777 == 0o640 and it.file.read_bytes() == last
    statuses = [status for status, _ in answers]
    is_alone = {**before, str(it.file): None} == {**after, str(it.file): None}
    if statuses != [200, 412, 200, 409] or not is_alone or not has_rights:
        return f"the statuses are {statuses}; alone {is_alone}, rights and bytes {has_rights}"
    return None if (TOP / "examples" / "preempted.dbp").read_bytes() == GOOD else "an example was written"


def version_of(text):
    """Returns the version that a file with these bytes has."""
    return hashlib.sha256(text).hexdigest()


def new_file_fault(program):
    """Returns how a file that isn't there is made, or one in a folder of documents is found; links there aren't followed."""
    with Served(program, GOOD) as it:
        it.file.unlink()
        known = json.loads(it.ask("GET", "version", name="own.dbp")[1])["version"]
        status, _ = it.ask("POST", "save", GOOD, name="own.dbp", version=known)
        if (status, known) != (200, "none") or it.file.read_bytes() != GOOD:
            return f"the status is {status}, of version {known}"
    with Served(program, GOOD) as other:
        target = other.place / "home" / "target.dbp"
        target.write_bytes(GOOD)
        (other.file.parent / "link.dbp").symlink_to(target)
        (other.file.parent / "folder.dbp").mkdir()
        other.file = other.file.parent
        other.end(signal.SIGTERM)
        with other:
            own = json.loads(other.ask("GET", "about")[1])["own"]
            (other.file / "own.dbp").unlink()
            (other.file / "own.dbp").symlink_to(target)
            status, _ = other.ask("POST", "save", b"", name="own.dbp", version=version_of(GOOD))
            is_kept = target.read_bytes() == GOOD
            return None if (own, status, is_kept) == (["other.dbp", "own.dbp"], 409, True) else f"{own}, {status}, {is_kept}"


ENDS = {
    "no folder": (["none/none/a.dbp"], 4),
    "an empty folder": (["here"], 4),
    "a device": (["/dev/zero"], 4),
    "a port that isn't one": (["--port", "70000"], 2),
    "a port of no number": (["--port", "x"], 2),
    "a document that is too large": (["large.dbp"], 7),
    "no program": (["--program", "/none"], 70),
    "another program": (["--program", "/bin/true"], 70),
}


def end_fault(program, words, status):
    """Returns how a call ends that serves nothing, if not with its status and a line that says why."""
    with tempfile.TemporaryDirectory() as room:
        (Path(room) / "here").mkdir()
        (Path(room) / "large.dbp").write_bytes(b"#" * (MOST_BYTES + 1))
        named = [] if "--program" in words else ["--program", program]
        command = [sys.executable, "-B", TOP / "tools/studio", "--no-browser", *named, *words]
        ran = subprocess.run(command, cwd=room, capture_output=True, timeout=SECONDS, check=False)
    is_wanted = ran.returncode == status and not ran.stdout and b"studio: " in ran.stderr and b"Traceback" not in ran.stderr
    return None if is_wanted else f"the status is {ran.returncode}, and {status} is wanted; it said {ran.stderr[-300:]!r}"


def unwritten_fault(program, way):
    """Returns how a studio ends whose address can't be written."""
    command = ["sh", "-c", f'exec "$@" {way}', "sh", sys.executable, "-B", TOP / "tools/studio", "--program", program]
    ran = subprocess.run([*command, "--no-browser", "--port", "0"], capture_output=True, timeout=SECONDS, check=False)
    is_wanted = ran.returncode == 5 and ran.stderr.startswith(b"studio: standard output: ") and ran.stderr.count(b"\n") == 1
    return None if is_wanted else f"the status is {ran.returncode}; it said {ran.stderr[-300:]!r}"


# What a job may use, and how it ends.

# A process of its own that sleeps longer than anything is awaited: only the end of the whole job ends it.
SLEEP = "sleep 600 & wait"

# What the program does in place of `sim --record`, and what the page is told.
LIMITS = {
    "time": ("exec sleep 600", "`dbp sim --record` took longer than 10 seconds"),
    "output": ("exec yes start a", "`dbp sim --record` wrote more than 134,217,728 bytes"),
    "errors": ("exec yes >&2", "`dbp sim --record` wrote more than 134,217,728 bytes"),
    "the limit on memory": ('echo "it is $(ulimit -v) KiB" >&2; exit 70', "it is 2097152 KiB"),
    "no memory": ('echo "dbp: memory ran out" >&2; exit 6', "2048 MiB of memory: own.dbp: dbp: memory ran out"),
}


def limit_fault(program, answer, said):
    """Returns how the end of a report differs in which a run of the program uses too much; what was known before is there."""
    with tempfile.TemporaryDirectory() as room:
        with Served(between(program, room, "sim --record", answer), GOOD) as it:
            try:
                events = it.events("report", GOOD, name="own.dbp")
            except socket.timeout:
                return f"it is silent for {SECONDS} seconds"
            left = wait_until(lambda: not [words for words in it.processes().values() if b"sleep" in words or b"yes" in words])
            again = it.events("turns", GOOD, number=1)[-1]["kind"]
    last = events[-1]
    is_told = last["kind"] == "ended" and said in last["text"]
    is_known = any(event["kind"] == "messages" for event in events)
    is_wanted = is_told and is_known and left and again == "done"
    return None if is_wanted else f"gone {left}, {again}: {last}"


def stopped_fault(program):
    """Returns how jobs end that a newer one takes the place of, or whose client goes: their processes end, too."""
    with tempfile.TemporaryDirectory() as room:
        slow = between(program, room, "sim --record", SLEEP)
        with Served(slow, GOOD) as it:
            others, begun = {*it.processes()}, set()
            clients = [it.connected() for _ in range(3)]
            for client in clients:
                client.sendall(it.request("POST", f"/{it.token}/report?name=own.dbp", body=GOOD))
                begun |= sleeping(it, begun)
            ends = [json.loads(read_all(client).splitlines()[-1]).get("text") for client in clients[:2]]
            clients[2].shutdown(socket.SHUT_RDWR)
            clients[2].close()
            is_gone = wait_until(lambda: not any(map(is_running, begun)) and {*it.processes()} == others)
    return None if ends == ["it was stopped"] * 2 and is_gone else f"they end with {ends}; their processes are gone: {is_gone}"


def sleeping(it, known):
    """Waits for a program that sleeps and isn't known yet; returns its number alone."""
    found = set()

    def is_there():
        found.update({process for process, words in it.processes().items() if words.startswith(b"sleep")} - known)
        return bool(found)

    wait_until(is_there)
    return found


def is_running(process):
    """Whether there is a process of this number that hasn't ended."""
    try:
        return Path(f"/proc/{process}/stat").read_text().rpartition(")")[2].split()[0] != "Z"
    except OSError:
        return False


def killed_fault(program, number, status):
    """Returns which process is left of a studio that gets a signal while it works."""
    with tempfile.TemporaryDirectory() as room:
        with Served(between(program, room, "sim --record", SLEEP), GOOD) as it:
            with it.connected() as client:
                client.sendall(it.request("POST", f"/{it.token}/report?name=own.dbp", body=GOOD))
                begun = sleeping(it, set()) | {*it.processes()}
                it.process.send_signal(number)
                it.process.wait(SECONDS)
                is_gone = wait_until(lambda: not any(map(is_running, begun)))
                ended = it.end(number)
    said = ended[2] if number != signal.SIGKILL else b""
    return None if ended[0] == status and not said and is_gone else f"it ends with {ended}; all is gone: {is_gone}"


def silent_fault(program):
    """Returns how the page isn't served while others are silent, each bounded in time."""
    with Served(program, GOOD) as it:
        clients = [it.connected() for _ in range(20)]
        for client in clients[::2]:
            client.sendall(f"POST /{it.token}/report HTTP/1.1\r\nHost: {it.host}\r\nContent-Length: 9\r\n\r\n1".encode())
        status, _ = it.ask("GET", "about")
        try:
            ends = [len(read_all(client)) for client in clients]
        except socket.timeout:
            return f"a silent client is served for {SECONDS} seconds"
    return None if status == 200 else f"the status is {status}; they end with {ends}"


def headers_fault(program):
    """Returns which answer lacks what keeps a page apart from others: a report is of no origin, and asks nobody."""
    with Served(program, GOOD) as it:
        page = it.events("report", GOOD, name="own.dbp")[-2]["page"]
        answers = {name: it.raw(it.request("GET", f"/{it.token}/{name}")).partition(b"\r\n\r\n")[0].decode()
                   for name in ("", "studio.js", f"page?number={page}", "about")}
    for name, head in answers.items():
        wanted = ["Cache-Control: no-store", "Referrer-Policy: no-referrer", "X-Content-Type-Options: nosniff"]
        wanted += ["default-src 'none'"] if name != "about" else []
        wanted += ["sandbox allow-scripts;"] if name.startswith("page") else []
        missing = [it for it in wanted if it not in head]
        if missing or "200" not in head.splitlines()[0] or "Server" in head:
            return f"{name!r} lacks {missing}: {head}"
    return None


# What pages say in a real browser.

EDITED = """dbp 1
policy fp
until 12
task fast every 4 prio 2 cost 1
  state n = 0
  next n = n + 1
  out y = 0 then n
task slow every 6 prio 1 cost 2
  read x = fast.y
  out z = 0 then x
done
"""
DELETE = "\ue017"  # the key, as the driver of the browser takes it
AFTER_COST = len("task slow every 6 prio 1 cost ")  # letters, of line 8
COSTS = {"cost": 3, "overrun": 5}
RED = "rgb(160, 16, 16)"  # of the report in the light
SCRIPTS = ("ranked/feedback.dbp", "replay/waiting.dbp", "replay/eight_back.dbp")
REFUSED_SCRIPT = "refused_scripts/illegal_step.dbp"
STEPS = 20
COLOURED = ("examples/heater.dbp", "examples/ranked/feedback.dbp", ".ci/tried/editors/tokens.dbp")
EMPTY_COMMENTS = "dbp 1 #\npolicy fp#\n\ntask a#\n#\ntrace #\ntime,a\n1,#\n done\nscript #\naim a 0 #\ndone #\ntask b\n"
STYLES = {"comment": "comment", "error": "error", "number": "number", "operator": "symbol", "keyword": "keyword",
          "variable": "name", None: "blank"}
SEEDS = ("0", "1", "6", "999", "18446744073709551615", "18446744073709551616")
HOSTILE = [reports_tried.HOSTILE[it] for it in ("a comment", "a name that isn't there", "a message", "a trace")]
ROUNDS, TYPED = 2, " # as one types"
KEYSTROKES = 5


def example(name):
    """Returns the bytes of an example."""
    return (TOP / "examples" / name).read_bytes()


def coloured():
    """Returns the texts whose colours are compared, a character for each byte."""
    return [*((TOP / name).read_bytes().decode("latin-1") for name in COLOURED), EMPTY_COMMENTS]


def jobs():
    """Returns what is done in the browser: by a name the text of the document, and what is done with it."""
    costs = {name: [8, AFTER_COST, DELETE, str(cost)] for name, cost in COSTS.items()}
    edited = EDITED.encode()
    found = {
        "edits": (edited, {"do": "edits", "break": [8, AFTER_COST + 1, "x"], **costs}),
        "speed": (edited, {"do": "speed", "count": KEYSTROKES}),
        "undone": (edited, {"do": "undone"}),
        "saving": (edited, {"do": "saving", "other": EDITED + "# of another program\n"}),
        "example": (edited, {"do": "example", "example": "examples/heater.dbp", "own": "own.dbp"}),
        "record": (edited, {"do": "steps", "count": STEPS, "by_hand": True}),
        "turns": (edited, {"do": "turns", "numbers": SEEDS[-2:]}),
        "large": (reports_tried.large_document(), {"do": "large", "rounds": ROUNDS, "typed": TYPED}),
        "hostile": (edited, {"do": "hostile", "texts": HOSTILE}),
        "tokens": (edited, {"do": "tokens", "texts": coloured()}),
        "plain": (edited, {"do": "plain", "break": [8, AFTER_COST + 1, "x"]}),
        "plain undone": (edited, {"do": "undone"}),
    }
    counts = {name: example(f"{name}.stdout").count(b"\n") for name in SCRIPTS}
    found.update((name, (example(name), {"do": "steps", "count": count, "by_hand": False})) for name, count in counts.items())
    found[REFUSED_SCRIPT] = (example(REFUSED_SCRIPT), {"do": "steps", "count": 1, "by_hand": False})
    return found


def missing_part():
    """Returns what the trials in a browser lack, or nothing."""
    missing = reports_tried.missing_part()
    return missing or (None if CODEMIRROR.is_file() else "libjs-codemirror")


@lru_cache(maxsize=None)
def used_pages(program):
    """Returns what the pages of all jobs say in one browser, each by its name."""
    given = jobs()
    with ExitStack() as kept:
        served = {name: kept.enter_context(Served(program, text, has_mirror=not name.startswith("plain")))
                  for name, (text, _) in given.items()}
        asked = [{"address": it.address, "file": str(it.file), **given[name][1]} for name, it in served.items()]
        words = [reports_tried.PYTHON, "-B", TOP / ".ci" / "browse_studio.py"]
        ran = subprocess.run(words, input=json.dumps(asked).encode(), capture_output=True, timeout=BROWSER_SECONDS, check=False)
        said = {name: it.end(signal.SIGINT) for name, it in served.items()}
    if ran.returncode:
        raise ValueError(ran.stderr.decode()[-600:])
    return {name: (page, said[name]) for name, page in zip(given, json.loads(ran.stdout))}


def browser_fault(program, name, compare):
    """Returns what a page in the browser says that isn't as wanted."""
    with ONE_BROWSER:
        missing = missing_part()
    if missing:
        return Skipped(f"there is no {missing}")
    try:
        with ONE_BROWSER:
            page, said = used_pages(program)[name]
    except (ValueError, subprocess.TimeoutExpired) as error:
        return f"the browser ends: {error}"
    found = page["found"]
    if isinstance(found, dict) and "failed" in found:
        return found["failed"]
    complaints = [it for it in page["said"] if "status of 412" not in it]  # of a file that another program has written
    if complaints or said != (130, b"", b""):
        return f"the browser says {complaints}; the studio ends with {said}"
    return compare(program, found)


def with_cost(cost):
    """Returns the text after the cost of `slow` was changed."""
    return EDITED.replace("cost 2", f"cost {cost}")


def told_by(program, words, text):
    """Returns what the program prints."""
    return subprocess.run([program, *words], input=text.encode(), capture_output=True, check=False).stdout.decode()


def marks_fault(program, found):
    """Compares the marks of a line that is broken, with their columns, and of one that is mended."""
    wanted = [[8, AFTER_COST + 1, "2x", "error"]]
    marks = [it[:4] for it in found["broken"]]
    if found["first"] or found["listed"] or marks != wanted or not found["broken"][0][4].startswith("`2x` is neither"):
        return f"the marks are {found['first']} and then {found['broken']}, and {wanted} is wanted"
    if not found["broken_list"][0].startswith(f"8:{AFTER_COST + 1}: error: 2 BadToken: `2x` ") or len(found["broken_list"]) != 1:
        return f"the messages are {found['broken_list']}"
    if found["verdict"] != [["refused: line 8: 2 BadToken", RED]]:
        return f"the verdict is {found['verdict']}"
    return None if found["mended"] == [[], [], EDITED] else f"the mended text has {found['mended']}"


def followed_fault(program, found):
    """Compares the timeline after a cost was changed, and the place in the report, which stays."""
    document = read_document(told_by(program, ["form"], with_cost(COSTS["cost"])).encode())
    fault = reports_tried.bars_fault(found, document)
    return fault or (None if found["place"] == [[700, "5", "1"]] * 2 else f"the places are {found['place']}")


def overrun_fault(program, found):
    """Compares how an overrun is shown: in red, with its line, and at its task in the text."""
    line = told_by(program, ["sim"], with_cost(COSTS["overrun"])).strip()
    listed, loud, drawn, verdict = found["overrun"]
    if line != "overrun: slow 2 at 6" or listed[0] != [line, RED] or loud != [[line, RED]] or [it[1] for it in drawn] != [RED]:
        return f"the program says {line!r}; the report has {found['overrun']}"
    marked = [it for it in found["overrun_marks"] if it[:4] == [8, 6, "slow", "warning"] and "released at tick 6" in it[4]]
    if len(marked) != 1 or line not in verdict[0][0] or verdict[0][1] != RED:
        return f"the marks are {found['overrun_marks']}, the verdict is {verdict}"
    return None if found["links"] == [8, "s"] else f"the message leads to {found['links']}"


def speed_fault(program, found):
    """Compares how many keystrokes have got their report; bench/studio.py measures how soon."""
    return None if len(found) == KEYSTROKES else f"the reports are shown after {found} milliseconds"


def undone_fault(program, found):
    """Compares the text over two reloads: as it was typed, then undone, and one change made again."""
    letters = " #\n#"
    after = [EDITED.replace("dbp 1", f"dbp 1{letters[: at + 1]}", 1) for at in range(len(letters))]
    is_again = found[5:] in [[text] for text in after]  # keys that come soon after one another are one change
    return None if found[:5] == [EDITED, *[after[-1]] * 3, EDITED] and is_again else f"the texts are {found}"


def saving_in_page_fault(program, found):
    """Compares the file and the text after each step of saving."""
    one, two, other = EDITED.replace("1", "1 ", 1), EDITED.replace("1", "1  ", 1), EDITED + "# of another program\n"
    warning = "own.dbp was changed on the disk by another program."
    wanted = [[EDITED, EDITED, "saved"], [EDITED, one, "not saved"], [one, one, "saved"], warning, [other, two, "not saved"],
              [two, two, "saved"], warning, [other, other, "saved"], [other, two, "not saved"]]
    shown = [it.partition("\n")[0] if isinstance(it, str) else [*it[:2], it[2][0]] for it in found]
    disabled = [it[2][1] for it in found if not isinstance(it, str)]
    is_wanted = shown == wanted and disabled == [True, False, True, False, True, True, False]
    return None if is_wanted else f"it is {shown}, and {wanted} is wanted; the button is {disabled}"


def example_fault(program, found):
    """Compares an example, which can't be saved, and the own document, whose change is still there."""
    wanted = [[example("heater.dbp").decode(), "true"], [EDITED.replace("1", "1 ", 1), None]]
    is_kept = (TOP / "examples" / "heater.dbp").read_text() == wanted[0][0] and wanted[0][0].startswith("# The heater")
    return None if found == wanted and is_kept else f"the texts are {found}"


def plain_fault(program, found):
    """Compares what a text area says of a broken line."""
    place = EDITED.index("cost 2\n  read") + len("cost ")
    is_listed = len(found["listed"]) == 1 and found["listed"][0].startswith(f"8:{AFTER_COST + 1}: error: 2 BadToken: ")
    return None if is_listed and found["selected"] == [place, place + 2] else f"it says {found}"


def turns_fault(program, found):
    """Compares the lines of each number with those of the program, which are those of the meaning."""
    for (number, said, lines), wanted in zip(found[:-1], SEEDS):
        printed = told_by(program, ["run", "--turns", wanted], EDITED)
        digest = hashlib.sha256(printed.encode()).hexdigest()[:16]
        told = f"run --turns {wanted}: {len(printed.splitlines())} lines, the same as those of mean; SHA-256 {digest}.."
        if (number, said, lines) != (wanted, told, printed.rstrip("\n")) or printed != told_by(program, ["mean"], EDITED):
            return f"it says {said!r} with {lines!r}, and {told!r} with {printed!r} is wanted"
    is_refused = found[-1][0] == SEEDS[-1] and "status 2" in found[-1][1] and not found[-1][2]
    return None if len(found) == len(SEEDS) and is_refused else f"the last is {found[-1]}"


def large_fault(program, found):
    """Compares whether a large document is drawn in each round, and how its report is stopped; bench/studio.py measures
    how soon, and how long the page does nothing else."""
    if len(found["pictures"]) != ROUNDS or not all(found["pictures"]):
        return f"the rounds have {found['pictures']} pictures"
    is_stopped = found["stopped"] == ["it was stopped", ""] and not found["is_there"]
    is_whole = found["text"] == len(reports_tried.large_document()) + ROUNDS * len(TYPED) + 1
    is_told = re.fullmatch(r"[a-z ]+, [0-9]+\.[0-9] s", found["progress"])
    return None if is_stopped and is_whole and is_told else f"it says {found}"


def hostile_fault(program, found):
    """Compares what has become of texts with markup: text."""
    return None if found == [[None, 0, None]] * len(HOSTILE) else f"markup has become {found}"


def tokens_fault(program, found):
    """Compares the styles of each letter with the classes of a tokenizer that follows docs/LANGUAGE.md."""
    for name, text, lines in zip([*COLOURED, "empty comments"], coloured(), found):
        wanted = editors_tried.classes_by_language(re.split("\r?\n", text.removesuffix("\n")))
        for number, (line, classes) in enumerate(zip(lines, wanted), 1):
            styles = [STYLES[style] for text, style in line for _ in text]
            blanks = [letter in " \t\r" for text, _ in line for letter in text]
            same = [it if not (is_blank and it in ("blank", "comment")) else None for it, is_blank in zip(styles, blanks)]
            others = [it.value if it.value != "blank" else None for it in classes]
            others = [None if is_blank and it == "comment" else it for it, is_blank in zip(others, blanks)]
            if same != others:
                return f"{name}: line {number} has {line}, and {others} are wanted"
    return None


# The words after the steps of a script, by the lines that the program prints: each word anew from the first step on.

class Scripted:
    """A document whose script the program has taken: its tasks, their slots, their outs, and the lines."""

    def __init__(self, program, words, text, lines):
        self.document = read_document(told_by(program, ["form"], text).encode())
        self.lines = [line.partition(" -> ")[::2] for line in lines]
        self.rows = {tuple(line.split(",")[1:3]): line.split(",")[3:] for line in told_by(program, ["mean"], text).splitlines()}
        column = 4 if "--ranked" in words else 5
        self.slots = {line.split(",")[0]: int(line.split(",")[column]) for line in told_by(program, ["plan"], text).splitlines()}
        self.links = [(task.name, read.writer, read.delay) for task in self.document.tasks for read in task.reads]
        self.links = list(dict.fromkeys(self.links))
        delays = {task.name: [it[2] for it in self.links if it[1] == task.name] for task in self.document.tasks}
        self.delays = {name: max(found, default=0) for name, found in delays.items()}

    def made(self, count, *words):
        """Returns the first steps that begin with these words, each with what it heard, without those that go on with more."""
        return [(step.split(), heard) for step, heard in self.lines[:count] if step.split()[: len(words)] == [*words]]

    def aims(self, count, task):
        """Returns the slot of each row of a task that is ordered."""
        return [0, *(int(step[2]) for step, _ in self.made(count, "aim", task))]

    def claims(self, count, link):
        """Returns the slot and the row that a link claims, and the instance for which it does; nothing before its first claim."""
        reader, writer, delay = link
        words = ["claim", reader, *(["pre"] if delay else []), *([str(delay)] if delay > 1 else []), writer]
        at = max((at for at, (step, _) in enumerate(self.lines[:count]) if step.split() == words), default=None)
        if at is None:
            return None
        aims = self.aims(at, writer)
        row = max(0, len(aims) - 1 - delay)
        return aims[row], row, len(self.aims(at, reader)) - 1

    def tables(self, count):
        """Returns the rows of all tables after so many steps."""
        names = [task.name for task in self.document.tasks]
        claims = {link: self.claims(count, link) for link in self.links}
        told = [[link[0], link[1], str(link[2] or "-"), "slot {}, row {}".format(*claim) if claim else "-"]
                for link, claim in claims.items()]
        order = [self.task_row(count, name) for name in names]
        return [order, told, *([self.slot_row(count, name, slot, claims) for slot in range(self.slots[name])] for name in names)]

    def known(self, count, task):
        """Returns how many instances of a task are known to have ended."""
        return int(([heard for _, heard in self.made(count, "seen", task)] or ["0"])[-1])

    def task_row(self, count, task):
        """Returns the row of a task."""
        aims = self.aims(count, task)
        opened = [at for at, (step, _) in enumerate(self.lines[:count]) if step == f"open {task}"]
        gate = len(self.aims(opened[-1], task)) - 1 if opened else 0
        last = [step for step, _ in self.lines[:count] if step.split()[1] == task]
        kept = [aims[max(0, len(aims) - 1 - back)] for back in range(1, self.delays[task] + 1)]
        aim = f"slot {aims[-1]}, row {len(aims) - 1}" if len(aims) > 1 else "-"
        ended = len(self.made(count, "end", task))
        cells = [gate, ended, aim, last[-1] if last else "-", self.known(count, task), len(aims) - 1, aims[-1]]
        return [task, *map(str, cells), " ".join(map(str, kept)) or "-"]

    def slot_row(self, count, task, slot, claims):
        """Returns the row of a slot: its stamp, its words, and what it is used for."""
        aims, instance, stamp = self.aims(count, task), 0, int(slot == 0)
        outs = [out.name for out in self.document.task(task).outs]
        words = [str(out.first) if slot == 0 else "-" for out in self.document.task(task).outs]
        for step, heard in self.lines[:count]:
            word, name, *rest = step.split()
            instance += (word, name, heard) == ("start", task, "started")
            if name == task and instance and aims[instance] == slot:
                stamp = {"shut": 0, "done": instance + 1}.get(word, stamp)
                if word == "put":
                    words[outs.index(rest[0])] = self.rows[task, str(instance)][outs.index(rest[0])]
        uses = ["current"] if aims[-1] == slot else []
        uses += [f"kept for pre {back}" for back in range(1, self.delays[task] + 1) if aims[max(0, len(aims) - 1 - back)] == slot]
        standing = [f"claimed by {link[0]} {claim[2]} for row {claim[1]}" for link, claim in claims.items()
                    if claim and link[1] == task and claim[0] == slot and claim[2] > self.known(count, link[0])]
        return [str(slot), str(stamp), *words, {*uses, *standing}]


def steps_fault(program, name, found):
    """Compares the words that are shown at each step, forward and back, with the lines of `replay`."""
    text, words = (example(name).decode(), ["replay"]) if name != "record" else (EDITED, ["replay", "--ranked"])
    if name == "record":
        text = text.replace("done\n", "script\n" + told_by(program, ["sim", "--record"], EDITED) + "done\n")
    numbers = [at for at, line in enumerate(text.split("\n"), 1) if line.strip() and not line.strip().startswith("#")]
    numbers = [at for at in numbers if at > text.split("\n").index("script") + 1]
    lines = told_by(program, words, text).splitlines()
    if name == REFUSED_SCRIPT:
        stopped = int(re.match(r"illegal step (\d+)", lines[0])[1])
        text = "\n".join([*text.split("\n")[: numbers[stopped - 1] - 1], "done", ""])
        if not re.search(rf" Then `.*` isn't allowed: {lines[0].partition(': ')[2]}\.", found["told"][0]):
            return f"it says {found['told']}, and the program {lines}"
        lines = told_by(program, words, text).splitlines()
    told, count = Scripted(program, words, text, lines), len(found["steps"]) - 1
    shown = [*enumerate(found["steps"]), *zip(range(count - 1, -1, -1), found["back"]), (len(lines), found["last"])]
    faults = (step_fault(told, at, lines, page, None if name == "record" else numbers) for at, page in shown)
    fault = next(filter(None, faults), None)
    is_long = count >= STEPS or name == REFUSED_SCRIPT
    is_whole = count == (STEPS if name == "record" else len(lines)) == len(found["back"]) and is_long
    return fault or (None if is_whole else f"there are {count} of {len(lines)} steps")


def step_fault(told, count, lines, page, numbers):
    """Compares what is shown after so many steps."""
    line = str(numbers[count - 1]) if numbers and count else None
    if (page["at"], page["now"], page["line"]) != (count, lines[count - 1 : count] if count else [], line):
        return f"after {count} steps it shows {page['at']}, {page['now']} and line {page['line']}; {line} is wanted"
    shown = page["tables"]
    cut = shown[:2] + [[[*row[:-1], {*filter(None, row[-1].split("; "))}] for row in table] for table in shown[2:]]
    wanted = told.tables(count)
    return None if cut == wanted else f"after {count} steps, `{page['now']}`: it shows {cut}, and {wanted} is wanted"


BROWSED = {
    "edits": {"marks": marks_fault, "a changed cost": followed_fault, "an overrun": overrun_fault},
    "speed": {"half a second after a keystroke": speed_fault},
    "undone": {"undoing over reloads": undone_fault},
    "plain undone": {"undoing over reloads in a text area": undone_fault},
    "plain": {"a text area": plain_fault},
    "saving": {"saving in the page": saving_in_page_fault},
    "example": {"an example": example_fault},
    "turns": {"turns": turns_fault},
    "large": {"a large document": large_fault},
    "hostile": {"markup": hostile_fault},
    "tokens": {"colours": tokens_fault},
}


def trials(program):
    """Yields the trials: a name, and a call that returns what differs, or nothing."""
    program = str(program)
    yield "who isn't the page", partial(refused_fault, program)
    yield "a second studio on the port", partial(taken_fault, program)
    yield "another address", partial(address_fault, program)
    yield "the browser's address", partial(ticket_fault, program)
    yield "headers", partial(headers_fault, program)
    yield "saving", partial(saved_fault, program)
    yield "a new file, and a folder", partial(new_file_fault, program)
    for name, wanted in ENDS.items():
        yield f"how it ends: {name}", partial(end_fault, program, *wanted)
    for way in (">&-", ">/dev/full"):
        yield f"how it ends: {way}", partial(unwritten_fault, program, way)
    for name, wanted in LIMITS.items():
        yield f"a limit: {name}", partial(limit_fault, program, *wanted)
    yield "jobs that are stopped", partial(stopped_fault, program)
    for number, status in ((signal.SIGINT, 130), (signal.SIGTERM, 130), (signal.SIGKILL, -9)):
        yield f"{number.name} while it works", partial(killed_fault, program, number, status)
    yield "silent clients", partial(silent_fault, program)


def trials_in_a_browser(program):
    """Yields the trials in a browser, which wait until it has used the pages of all."""
    program = str(program)
    for job, compared in BROWSED.items():
        for name, compare in compared.items():
            yield f"in the browser: {name}", partial(browser_fault, program, job, compare)
    for name in ("record", *SCRIPTS, REFUSED_SCRIPT):
        compare = partial(lambda name, program, found: steps_fault(program, name, found), name)
        yield f"in the browser: steps of {name}", partial(browser_fault, program, name, compare)
