"""The record of what was proved, which a package has as lib/dbp/proved.txt.

It begins with the version, its date, the commit and the kit. Then come parts, each with its name in brackets: the closing
lines of the gate, the checksums of the program, those of the sources by crates, and those of all installed files. A
checksum is the SHA-256 in hexadecimal; a link has `-> ` and where it leads.
"""

import hashlib
import os
import re
from dataclasses import dataclass
from pathlib import Path
from typing import Dict, Tuple

FILE = "lib/dbp/proved.txt"  # in the folder in which dbp is installed
NO_GATE = ("no output of the gate was given",)
HEADS = ("version", "date", "commit", "kit")
PARTS = ("gate", "program", "sources", "files")
BUILT, INSTALLED = "built", "installed"
LINK = "-> "
LEFT_OUT = {"out", "__pycache__"}  # folders of a crate that are no sources
ROW = re.compile(rf"([0-9a-f]{{64}}|{LINK}\S+)  (\S.*)")


class Unreadable(Exception):
    """A text isn't a record: why."""


@dataclass(frozen=True)
class Record:
    """What was proved: of which version, commit and kit, and the checksums of what it was proved of."""

    version: str
    date: str
    commit: str
    kit: str
    gate: Tuple[str, ...]
    program: Dict[str, str]
    sources: Dict[str, str]
    files: Dict[str, str]


def checksum(content):
    """Returns the checksum of bytes."""
    return hashlib.sha256(content).hexdigest()


def checksum_of_folder(folder):
    """Returns the checksum of a folder's files: that of the lines that `sha256sum` prints of them, by their paths."""
    files = (it for it in folder.rglob("*") if it.is_file() and not LEFT_OUT & {*it.relative_to(folder).parts})
    by_path = sorted((os.fsencode(it.relative_to(folder)), it) for it in files)
    return checksum(b"".join(b"%s  %s\n" % (checksum(it.read_bytes()).encode(), path) for path, it in by_path))


def checksums_of_sources(top):
    """Returns the checksums of a repository's sources: of each crate, of their list, and of the allowed handles."""
    crates = sorted(it for it in (top / "crates").iterdir() if (it / "src").is_dir())
    found = {f"crates/{it.name}": checksum_of_folder(it) for it in crates}
    return {**found, **{name: checksum((top / name).read_bytes()) for name in ("crates.txt", "HANDLES")}}


def found_at(path):
    """Returns what is at a path: the checksum of the file, or where the link leads."""
    path = Path(path)
    return LINK + os.readlink(path) if path.is_symlink() else checksum(path.read_bytes())


def text_of(record):
    """Returns the text of a record."""
    lines = [f"{name} {getattr(record, name)}" for name in HEADS]
    for part in PARTS:
        given = getattr(record, part)
        rows = given if part == "gate" else [f"{found}  {name}" for name, found in given.items()]
        lines += ["", f"[{part}]", *rows]
    return "".join(f"{line}\n" for line in lines)


def read_record(text):
    """Returns the record that a text has."""
    heads, parts, part = {}, {it: [] for it in PARTS}, None
    for line in text.splitlines():
        if line[:1] == "[" and line[1:-1] in PARTS:
            part = line[1:-1]
        elif part is None and line:
            name, _, heads[name] = line.partition(" ")
        elif line:
            parts[part].append(line)
    if {*heads} != {*HEADS} or not all(parts.values()):
        raise Unreadable("it isn't a record of what was proved")
    rows = {name: rows_of(parts[name]) for name in PARTS[1:]}
    if {*rows["program"]} != {BUILT, INSTALLED}:
        raise Unreadable("it has no checksums of the program")
    return Record(**heads, gate=tuple(parts["gate"]), **rows)


def rows_of(lines):
    """Returns the names of lines with what was found of each."""
    rows = [ROW.fullmatch(line) for line in lines]
    if None in rows:
        raise Unreadable(f"a line isn't of its form: {lines[rows.index(None)][:80]!r}")
    return {row[2]: row[1] for row in rows}
