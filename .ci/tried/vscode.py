"""The extension of VS Code in editors/vscode: `node` runs it as the editor does, with a stand-in for the module `vscode`, and
tools/package makes the file that the editor installs.

What needs `node` is skipped if that isn't on the machine.
"""

import io
import json
import subprocess
import sys
import tempfile
import zipfile
from datetime import datetime, timezone
from functools import partial
from pathlib import Path
from xml.etree import ElementTree

TOP = Path(__file__).resolve().parents[2]
sys.path[:0] = [str(TOP / "tools"), str(TOP / ".ci")]

from comparing import lack_of  # noqa: E402
from language_client import SECONDS  # noqa: E402
from packaging.vsix import NAMESPACE, extension_file  # noqa: E402
from stand_ins import write_program  # noqa: E402

VSCODE = TOP / "editors" / "vscode"
DRIVE = TOP / ".ci" / "tried" / "vscode" / "drive.js"
ALARM = TOP / ".ci" / "tried" / "response" / "alarm.dbp"
TIME = datetime(2026, 11, 30, 12, 0, tzinfo=timezone.utc)
SENSOR, RENAMED_PLACES = [5, 5, 5, 11], [[5, 5, 5, 11], [10, 15, 10, 21], [13, 15, 13, 21]]


def span(it):
    """Returns the four numbers of a range of the editor."""
    return [it["start"]["line"], it["start"]["character"], it["end"]["line"], it["end"]["character"]]


def spans(found):
    """Returns the ranges of what the editor shows."""
    return [span(it["range"]) for it in found]


def edits_of(it):
    """Returns the edits of the one document that a change is about: their ranges and texts."""
    ((_, edits),) = it["edits"]
    return [(span(edit["range"]), edit["newText"]) for edit in edits]


# What the extension must give for the document of an alarm: a name, what is found, and what is wanted.
def wanted(found):
    """Yields the name, the found and the wanted value of each comparison."""
    yield "diagnostics", [(it["code"], it["severity"], it["source"]) for it in found["first"]], [("Late", 1, "dbp")]
    yield "a note's text", found["first"][0]["relatedInformation"][0]["message"], "it is served for 2 ticks"
    said = found["hover"]["contents"]["value"]
    yield "what is said", [it in said for it in ("`sensor` is a task", "rank 0 of 0 to 2", "a period is 25 ms")], [True] * 3
    yield "the range of that", span(found["hover"]["range"]), SENSOR
    yield "definition", span(found["definition"]["range"]), SENSOR
    yield "references", spans(found["references"]), RENAMED_PLACES
    yield "highlights", [it["kind"] for it in found["highlights"]], [2, 1, 1]  # written, and read twice
    yield "what can be renamed", (span(found["prepared"]["range"]), found["prepared"]["placeholder"]), (SENSOR, "sensor")
    yield "what can't be renamed", found["unprepared"], "no name stands here, or its line has a fault"
    yield "renaming", edits_of(found["renamed"]), [(it, "gauge") for it in RENAMED_PLACES]
    yield "a refused name", "keyword" in found["refused"], True
    completed = [(it["label"], it["kind"], it["detail"], span(it["range"])) for it in found["completed"]]
    yield "completion", completed, [("alarm", 22, "event alarm", [9, 15, 9, 15])]
    yield "symbols", [it["name"] for it in found["symbols"]], ["alarm", "sensor", "report", "control", "trace"]
    parts = [(it["name"], it["kind"]) for it in found["symbols"][2]["children"]]
    yield "symbols of a task", parts, [("level", 12), ("line", 6)]
    yield "symbols of all", [(it["name"], it["kind"]) for it in found["all"]], [("control", 4)]
    yield "folds", [(it["start"], it["end"]) for it in found["folds"]], [(5, 8), (9, 11), (12, 14), (15, 18)]
    yield "colours", found["shades"], [0, 0, 95, 8, 0, 1, 0, 3, 0, 0, 0, 4, 1, 6, 0]  # a comment, `dbp` and `1`
    yield "their names", [found["legend"]["tokenTypes"][it] for it in (8, 0, 6)], ["comment", "keyword", "number"]
    laid = (spans(found["laid"])[0], found["laid"][0]["newText"])
    yield "layout", laid, ([5, 0, 5, 33], "task sensor every 5 from 0 prio 4 cost 1")
    yield "lenses", found["lenses"], []
    yield "diagnostics after a change", sorted(it["code"] for it in found["second"]), ["11 Unknown"]
    actions = [(it["title"], edits_of(it["edit"])) for it in found["actions"]]
    yield "fixes", actions, [("Write `sensor`", [([10, 15, 10, 21], "sensor")])]
    yield "the report", found["page"], ["<!DOCTYPE html>"]
    yield "diagnostics of a closed document", found["closed"], []
    yield "what is shown", found["errors"], ["dbp: no document of dbp is shown"]
    yield "whether requests can be cancelled", found["cancels"] >= 15, True


def driven(program, room):
    """Runs the extension, and returns how it ends and what it gives."""
    for tool in ("language_server", "report"):
        write_program(room / tool, f"#!/bin/sh\nexec '{TOP}/tools/{tool}' --program '{program}' \"$@\"\n")
    command = ["node", DRIVE, VSCODE, room, room / "language_server", ALARM]
    return subprocess.run([*map(str, command)], capture_output=True, text=True, timeout=SECONDS, check=False)


def extension(program):
    """Returns how what the extension gives differs, or nothing."""
    if skipped := lack_of(["node"]):
        return skipped
    try:
        with tempfile.TemporaryDirectory() as place:
            ran = driven(program, Path(place))
    except subprocess.TimeoutExpired:
        return f"it hadn't ended after {SECONDS} seconds"
    if ran.returncode or ran.stderr:
        return f"the status is {ran.returncode}; it said {ran.stderr[-500:]!r}"
    compared = wanted(json.loads(ran.stdout))
    return "; ".join(f"{name}: {own}, and {other} is wanted" for name, own, other in compared if own != other) or None


def installed_file(_):
    """Returns how the file that the editor installs differs from the folder of the extension, or nothing."""
    content = extension_file(TIME)
    if content != extension_file(TIME):
        return "the same files make other bytes"
    with zipfile.ZipFile(io.BytesIO(content)) as archive:
        files = {it: archive.read(it) for it in archive.namelist()}
    manifest, types = (ElementTree.fromstring(files.pop(it)) for it in ("extension.vsixmanifest", "[Content_Types].xml"))
    own = {f"extension/{it.name}": it.read_bytes() for it in VSCODE.iterdir()}
    if files != own:
        return f"it has {sorted(files)}"
    package = json.loads((VSCODE / "package.json").read_text())
    identity = manifest.find(f".//{{{NAMESPACE}}}Identity").attrib
    if [identity[it] for it in ("Id", "Version", "Publisher")] != [package[it] for it in ("name", "version", "publisher")]:
        return f"it is {identity}"
    assets = [it.attrib["Path"] for it in manifest.iter(f"{{{NAMESPACE}}}Asset")]
    endings = {it.attrib["Extension"] for it in types}
    missing = [it for it in assets if it not in files] or [it for it in files if f".{it.rsplit('.', 1)[1]}" not in endings]
    return f"{missing} isn't there, or has no type" if missing or f"extension/{package['main'][2:]}" not in files else None


def trials(program):
    """Yields the trials: a name, and a call that returns what differs, or nothing."""
    yield "the extension", partial(extension, program)
    yield "the file that the editor installs", partial(installed_file, program)
