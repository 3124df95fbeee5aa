"""The manual page docs/dbp.1: its commands are those that the program lists, its statuses those of docs/LANGUAGE.md, its
version and date the latest of CHANGELOG.md, and its examples run. What lays it out says nothing; a program for that is skipped if
it isn't on the machine."""

import os
import re
import subprocess
import sys
from datetime import datetime
from functools import partial
from pathlib import Path

TOP = Path(__file__).resolve().parents[2]
sys.path.insert(0, str(TOP / ".ci"))

from comparing import lack_of  # noqa: E402

PAGE = TOP / "docs" / "dbp.1"

# Commands that lay the page out, and warn of its faults.
LAID_OUT = (
    ["mandoc", "-T", "lint", "-W", "warning"],
    ["groff", "-ww", "-z", "-m", "mdoc", "-T", "utf8"],
)


def text_of_macros(words):
    """Returns how the words of a line of the page are printed: Fl puts a dash before its word, Ns leaves no space."""
    parts = [it for it in words.split() if it not in ("Cm", "Ar")]
    return re.sub(r"Fl ", "-", " ".join(parts)).replace(" Ns ", "")


def commands_of_page(page):
    """Returns the words of each command that the page has."""
    return [text_of_macros(it) for it in re.findall(r"(?m)^\.It (Cm .*)$", page)]


def fault_of_commands(program):
    """Returns how the commands of the page differ from those that the program lists."""
    ran = subprocess.run([program], stdin=subprocess.DEVNULL, capture_output=True, check=False)
    listed = [line.strip() for line in ran.stderr.decode().splitlines()[1:]]
    found = commands_of_page(PAGE.read_text())
    return None if found == listed else f"the page has {found}, the program lists {listed}"


def fault_of_statuses():
    """Returns how the statuses of the page differ from those of docs/LANGUAGE.md."""
    table = (TOP / "docs" / "LANGUAGE.md").read_text().partition("| Exit status |")[2].partition("\n\n")[0]
    wanted = [number for row in re.findall(r"(?m)^\| ([0-9, ]+) \|", table) for number in row.split(", ")]
    found = re.findall(r"(?m)^\.It (\d+)$", PAGE.read_text())
    return None if found == wanted else f"the page has {found}, docs/LANGUAGE.md has {wanted}"


def fault_of_version():
    """Returns how the version and the date of the page differ from the latest of CHANGELOG.md."""
    page = PAGE.read_text()
    latest = re.search(r"(?m)^## (\S+), (\d+-\d\d-\d\d)$", (TOP / "CHANGELOG.md").read_text())
    date, version = re.search(r"(?m)^\.Dd (.*)$", page), re.search(r"(?m)^\.Os dbp (\S+)$", page)
    if not (latest and date and version):
        return "a version or a date is missing"
    found = (version[1], datetime.strptime(date[1], "%B %d, %Y").strftime("%Y-%m-%d"))
    return None if found == latest.groups() else f"the page has {found}, CHANGELOG.md has {latest.groups()}"


def fault_of_layout(command):
    """Returns what a program says that lays the page out."""
    if skipped := lack_of(command[:1]):
        return skipped
    ran = subprocess.run([*command, PAGE], capture_output=True, check=False)
    return (ran.stdout + ran.stderr).decode() or None


def fault_of_example(program, line):
    """Returns what is wrong with the end of an example of the page."""
    words = ["sh", "-c", f'dbp() {{ "$PROGRAM" "$@"; }}\n{line}']
    ran = subprocess.run(words, cwd=TOP, env={**os.environ, "PROGRAM": str(program)}, capture_output=True, check=False)
    return None if ran.returncode == 0 and ran.stdout else f"the status is {ran.returncode}: {ran.stderr.decode()}"


def trials(program):
    """Yields the trials of the page, each a name and a call that returns what differs, or None."""
    yield "commands", partial(fault_of_commands, program)
    yield "statuses", fault_of_statuses
    yield "version", fault_of_version
    for command in LAID_OUT:
        yield command[0], partial(fault_of_layout, command)
    for line in re.findall(r"(?m)^\.Dl (.*)$", PAGE.read_text()):
        yield line, partial(fault_of_example, program, line)
