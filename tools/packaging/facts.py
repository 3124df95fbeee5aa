"""What a package says of the repository that it is made of: its version, commit and kit, and what the gate said."""

import re
import subprocess
from dataclasses import dataclass
from datetime import datetime, timedelta, timezone
from pathlib import Path
from typing import Tuple

from ending import Ended, Status, reason_of
from verifying.record import NO_GATE

TOP = Path(__file__).resolve().parents[2]
NO_COMMIT = "none: these sources aren't in a repository of git"
NO_MAINTAINER = "nobody <nobody@example.org>"
GATE_LINES = 12  # that close the output of the gate
GATE_PASSED = re.compile(r"[1-9][0-9]* passed, 0 failed(, [1-9][0-9]* skipped)?")
RELEASE = re.compile(r"(?m)^## (\d+\.\d+\.\d+), (\d{4}-\d\d-\d\d)$")
KIT = re.compile(r"(?m)^Proved with `(rattle-kit-\w+ logic [0-9a-f]+)`\.$")


@dataclass(frozen=True)
class Release:
    """A version of the changelog, with its time and its changes."""

    version: str
    time: datetime
    changes: Tuple[str, ...]


@dataclass(frozen=True)
class Facts:
    """What is known of the sources."""

    releases: Tuple[Release, ...]  # the latest first
    commit: str
    maintainer: str
    kit: str
    gate: Tuple[str, ...]

    @property
    def version(self):
        return self.releases[0].version

    @property
    def time(self):
        """Returns the time of all files: the day of the version, since the same sources make the same package."""
        return self.releases[0].time


def releases_of(changelog):
    """Returns the versions of the changelog. Those of one day are a second apart, each later than the one before."""
    parts = RELEASE.split(changelog)[1:]
    found = []
    for number, (version, date, text) in enumerate(zip(parts[::3], parts[1::3], parts[2::3])):
        time = datetime.strptime(date, "%Y-%m-%d").replace(tzinfo=timezone.utc)
        changes = tuple(re.findall(r"(?m)^(?:- |Commands and language: (?=\S))(.*)$", text))
        found.append(Release(version, time + timedelta(seconds=len(parts) // 3 - number), changes))
    return tuple(found)


def asked_git(*words):
    """Returns what git prints, or nothing if it can't say."""
    try:
        ran = subprocess.run(["git", "-C", TOP, *words], capture_output=True, check=False)
    except OSError:
        return None
    return ran.stdout.decode("utf-8", "replace").strip() if ran.returncode == 0 else None


def commit_and_maintainer():
    """Returns the commit, and who wrote it."""
    top = asked_git("rev-parse", "--show-toplevel")
    head = asked_git("log", "-1", "--format=%H%n%an <%ae>") if top and Path(top) == TOP else None
    if head is None:
        return NO_COMMIT, NO_MAINTAINER
    commit, maintainer = head.split("\n")
    is_changed = asked_git("status", "--porcelain") != ""
    return f"{commit} and changes that aren't committed" if is_changed else commit, maintainer


def gate_lines(file):
    """Returns the lines that close the saved output of the gate, which must have passed."""
    if file is None:
        return NO_GATE
    try:
        text = Path(file).read_text(encoding="utf-8", errors="replace")
    except OSError as error:
        raise Ended(Status.READ_FAILED, f"{file}: {reason_of(error)}") from error
    lines = [line.rstrip() for line in text.splitlines() if line.strip()]
    if not lines or not GATE_PASSED.fullmatch(lines[-1]):
        raise Ended(Status.REFUSED, f"{file}: its last line doesn't say that the gate passed, as `100 passed, 0 failed`")
    return tuple(lines[-GATE_LINES:])


def facts(gate):
    """Returns what is known of the sources; `gate` is the file with the saved output of the gate, if there is one."""
    try:
        releases = releases_of((TOP / "CHANGELOG.md").read_text(encoding="utf-8"))
        kit = KIT.search((TOP / "README.md").read_text(encoding="utf-8"))
    except OSError as error:
        raise Ended(Status.READ_FAILED, f"{error.filename}: {reason_of(error)}") from error
    if not releases or kit is None:
        raise Ended(Status.READ_FAILED, "CHANGELOG.md has no version, or README.md no line with the kit")
    return Facts(releases, *commit_and_maintainer(), kit[1], gate_lines(gate))
