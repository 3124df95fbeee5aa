"""Installations of dbp for trials: the packages that tools/package makes, unpacked, and what is compared in each."""

import atexit
import json
import os
import re
import shutil
import subprocess
import sys
import tempfile
import threading
from dataclasses import dataclass
from html.parser import HTMLParser
from pathlib import Path

TOP = Path(__file__).resolve().parent.parent
sys.path.insert(0, str(TOP / ".ci"))

from awaited import SECONDS  # noqa: E402
from comparing import must  # noqa: E402
from served import Served  # noqa: E402
from stand_ins import write_program  # noqa: E402

NOBODY = 65534
SYSTEM = "/usr/local/sbin:/usr/local/bin:/usr/sbin:/usr/bin:/sbin:/bin"
GOOD, REFUSED, TABLE = "two_rates.dbp", "refused/18_undelayed_upward.dbp", "two_rates.dbp.stdout"

# Each tool with words, in a folder with a copy of the examples; `made` is a folder that isn't there before.
CALLS = {
    "check": (["--no-warnings", GOOD, REFUSED], 1),
    "diagram": ([GOOD], 0),
    "emit_c": ([GOOD, "-o", "made"], 0),
    "format": (["--check", GOOD, "form/spacing.dbp"], 1),
    "language_server": ([], 1),  # whose input ends at once
    "report": ([GOOD, "-o", "made.html"], 0),
    "response": (["--json", GOOD], 0),
    "studio": (["--port", "70000", GOOD], 2),
    "test": (["--coverage", "cruise_control"], 0),
    "timeline": ([GOOD], 0),
    "trace": (["--tick", "500ms", "--scale", "temperature=10", "greenhouse.csv", "greenhouse.dbp"], 0),
    "waves": (["--format", "csv", "--wide", GOOD], 0),
}


def executed(words, status=0, **how):
    """Runs a command, which must end with this status, and returns its standard output and its standard error."""
    how = {"cwd": "/", "stdin": subprocess.DEVNULL, "env": {**os.environ, "PATH": SYSTEM}, **how}
    how["env"] = {name: it for name, it in how["env"].items() if name != "PYTHONDONTWRITEBYTECODE"}
    ran = subprocess.run([*map(str, words)], capture_output=True, timeout=SECONDS, check=False, **how)
    said = ran.stderr.decode("utf-8", "replace")
    wanted = f"the status is {ran.returncode}, and {status} is wanted"
    must(ran.returncode == status, f"{words[0]}: {wanted}; it said {said[-400:]!r}")
    must("Traceback" not in said, f"{words[0]}: it said {said[-400:]!r}")
    return ran.stdout, said


def package(program, *words, top=TOP, status=0, **how):
    """Calls tools/package with this program."""
    named = [] if program is None else ["--program", program]
    return executed([sys.executable, "-B", top / "tools" / "package", *named, *words], status, **how)


@dataclass(frozen=True)
class Installed:
    """An installation: the folder, and the user who runs it, if that isn't the own one."""

    prefix: Path
    user: int = None

    def run(self, name, *words, status=0, **how):
        """Runs a command of the installation."""
        who = {} if self.user is None else {"user": self.user, "group": self.user, "extra_groups": []}
        return executed([self.prefix / "bin" / name, *words], status, **{**who, **how})


class Made:
    """The packages, made once, and where they are unpacked."""

    def __init__(self):
        self.lock = threading.Lock()
        self.room = None

    def folder(self, program):
        """Returns the folder with both packages and what is in them."""
        with self.lock:
            if self.room is None:
                room = tempfile.mkdtemp(prefix="dbp-package-")
                atexit.register(discard, room)
                package(program, "-o", room)
                os.chmod(room, 0o755)
                self.room = Path(room)
        return self.room


made = Made()


def discard(folder):
    """Removes a folder with all that is in it, also what may not be written."""
    for place, _, _ in os.walk(folder):
        os.chmod(place, 0o755)
    shutil.rmtree(folder)


def package_file(program, ending):
    """Returns the file of a package."""
    return next(made.folder(program).glob(f"*{ending}"))


def tools_of_docs():
    """Returns the tools that docs/TOOLS.md lists."""
    return re.findall(r"(?m)^\| \[`tools/(\w+)`\]", (TOP / "docs" / "TOOLS.md").read_text())


def compare_commands(it):
    """Compares which commands there are, each with its manual page and what completes it."""
    wanted = {"dbp", *(f"dbp-{tool}" for tool in tools_of_docs())}
    share = it.prefix / "share"
    zsh = next((share / "zsh").iterdir())
    found = {
        "commands": {file.name for file in (it.prefix / "bin").iterdir()},
        "manual pages": {file.name[: -len(".1.gz")] for file in (share / "man" / "man1").iterdir()},
        "completions of bash": {file.name for file in (share / "bash-completion" / "completions").iterdir()},
        "completions of zsh": {file.name[1:] for file in zsh.iterdir()},
        "completions of fish": {file.stem for file in (share / "fish" / "vendor_completions.d").iterdir()},
    }
    for what, names in found.items():
        must(names == wanted, f"{what}: {sorted(names)}, and {sorted(wanted)} are wanted")


def compare_calls(program, it):
    """Compares what each command gives with what the program and the tools of the repository give."""
    must({*CALLS, "verify"} == {*tools_of_docs()}, f"nothing is tried of {sorted({*tools_of_docs()} - {*CALLS, 'verify'})}")
    with tempfile.TemporaryDirectory() as place:
        os.chmod(place, 0o777)
        shutil.copytree(it.prefix / "lib/dbp/examples", Path(place) / "own", symlinks=True)
        subprocess.run(["chmod", "-R", "a+rwX", place], check=True)
        room = Path(place) / "own"
        with open(room / GOOD, "rb") as document:
            out, _ = it.run("dbp", "mean", stdin=document, cwd=room)
        must(out == (TOP / "examples" / TABLE).read_bytes(), f"dbp mean prints {out[:200]!r}")
        write_program(Path(place) / "rt", "#!/bin/sh\nexit 70\n")  # which no installed tool takes for a way to the program
        path = {"env": {**os.environ, "PATH": f"{SYSTEM}:{place}"}}
        for tool, (words, status) in CALLS.items():
            found = it.run(f"dbp-{tool}", *words, cwd=room, status=status, **path)
            files = taken(room / "made")
            command = [sys.executable, "-B", TOP / "tools" / tool, "--program", program, *words]
            out, said = executed(command, status, cwd=room)
            wanted = out, said.replace(f"{tool}: ", f"dbp-{tool}: ")
            must(found == wanted, f"dbp-{tool} gives {found!r:.400}, and {wanted!r:.400} is wanted")
            must(files == taken(room / "made"), f"dbp-{tool} writes {sorted(files)}")
        said = it.run("dbp-check", "--none", cwd=room, status=2)[1]
        must(said.startswith("usage: dbp-check ") and "\ndbp-check: " in said, f"dbp-check says {said!r}")


def compare_served(it):
    """Compares what the installed studio serves: each file of its page, and a report by the installed program."""
    with Served(None, (TOP / "examples" / GOOD).read_bytes(), tool=it.prefix / "bin/dbp-studio") as served:
        for name in ("", "studio.css", "colours.css", "studio.js", "editor.js", "grammar.js", "steps.js", "turns.js", "grammar.json"):
            status, content = served.ask("GET", name)
            must(status == 200 and content, f"{name!r}: the status is {status}")
        events = served.events("report", (TOP / "examples" / GOOD).read_bytes(), name="own.dbp")
        must(events[-2].get("headline") == "accepted, and in time", f"it says {events[-2:]}")
        must(len(json.loads(served.ask("GET", "about")[1])["examples"]) > 20, "the examples aren't there")


def taken(folder):
    """Returns the files of a folder, which is removed."""
    found = {file.name: file.read_bytes() for file in folder.iterdir()} if folder.is_dir() else {}
    shutil.rmtree(folder, ignore_errors=True)
    return found


def compare_deployed(it):
    """Compares the example of C in examples/deploy: there it is built by the installed tools, and it runs."""
    with tempfile.TemporaryDirectory() as place:
        os.chmod(place, 0o777)
        command = ["make", "-s", "-C", it.prefix / "lib/dbp/examples/deploy", f"OUT={place}/out", "check", "bounds"]
        said = executed(command)[0].decode()
    must("same rows\n" in said and "brake,1,100" in said, f"it said {said[-300:]!r}")


def compare_verified(it):
    """Compares what dbp-verify says of an installation that is as it was."""
    said = it.run("dbp-verify")[0].decode()
    count = len([file for file in it.prefix.rglob("*") if not file.is_dir() or file.is_symlink()]) - 1
    line = f"files in {it.prefix}: all {count} are as recorded"
    must(line in said.splitlines(), f"it said {said!r}, and {line!r} is wanted")
    must(list(it.prefix.rglob("__pycache__")) == [], "a call leaves a folder __pycache__")


class Page(HTMLParser):
    """The links, the anchors and the open elements of a page of the web."""

    ALONE = {"meta", "img"}

    def __init__(self, text):
        super().__init__()
        self.links, self.anchors, self.opened, self.faults = [], [], [], []
        self.feed(text)
        self.faults += [f"<{it}> isn't closed" for it in self.opened]

    def handle_starttag(self, tag, attrs):
        given = dict(attrs)
        self.links += [given[it] for it in ("href", "src") if it in given]
        self.anchors += [given["id"]] if "id" in given else []
        self.opened += [tag] if tag not in self.ALONE else []

    def handle_endtag(self, tag):
        if not self.opened or self.opened.pop() != tag:
            self.faults.append(f"</{tag}> closes nothing")

    def handle_data(self, data):
        if "](" in data and "code" not in self.opened or "```" in data or "**" in data and "code" not in self.opened:
            self.faults.append(f"a mark is left: {data[:60]!r}")


def compare_pages(it):
    """Compares the pages of the web with the docs: each has one, is well formed, and its links lead somewhere."""
    doc = it.prefix / "share/doc/dbp"
    pages = {file: Page(file.read_text(encoding="utf-8")) for file in doc.rglob("*.html")}
    texts = [file for file in doc.rglob("*.md")]
    must({file.with_suffix("") for file in pages} == {file.with_suffix("") for file in texts}, "a text has no page")
    must(len(texts) >= 11, f"there are {len(texts)} pages")
    for file, page in pages.items():
        must(not page.faults, f"{file.name}: {page.faults}")
        for link in page.links:
            path, _, anchor = link.partition("#")
            target = (file.parent / path).resolve() if path else file
            must("://" in link or target.exists(), f"{file.name}: no file is there: {link}")
            must(not path.endswith(".md"), f"{file.name}: it leads to a text: {link}")
            must(not anchor or anchor in pages[target].anchors, f"{file.name}: no heading is there: {link}")


def compare_manual(command, it):
    """Compares what a program makes of each manual page: nothing of its faults, else a text with the command's name."""
    with tempfile.TemporaryDirectory() as place:
        for file in sorted((it.prefix / "share/man/man1").iterdir()):
            page = Path(place) / file.stem
            page.write_bytes(executed(["gzip", "-dc", file])[0])
            out, said = executed([*command, page])
            must(not said, f"{file.name}: {said[-300:]!r}")
            is_text = page.stem in out.decode() and "\\" not in out.decode()
            must(not out if "lint" in command else is_text, f"{file.name}: {out[-300:]!r}")
