"""tools/check --sarif and --code-quality: what they print has the parts that SARIF 2.1.0 and the code quality report ask
for, the places and texts of the files in .ci/tried/check, and marks that stay the same when lines move."""

import json
import os
import re
import subprocess
import sys
import tempfile
from dataclasses import dataclass
from functools import partial
from pathlib import Path

TOP = Path(__file__).resolve().parents[2]
CHECK = TOP / "tools" / "check"
WRITTEN = Path(__file__).resolve().parent / "check"

sys.path[:0] = [str(TOP / "tools"), str(TOP / ".ci")]

from awaited import SECONDS  # noqa: E402
from checking.command import judged  # noqa: E402
from checking.regions import Checked  # noqa: E402
from checking.services import quality_text, sarif_text  # noqa: E402
from comparing import fault_of, must  # noqa: E402

MESSAGE = re.compile(r"([^:]+):(\d+):(\d+): (error|warning|note): (?:(\d+) )?(\w+)(?: \w+)?: (.*)")
NOTE = re.compile(r"[^:]+:(\d+):(\d+): note: (.*)")
MARK = re.compile(r" +\| \s*(\^~*)")
MOST_SHOWN = 160  # bytes of a line, of which a longer one is shown in part
GRAVITY = {"error": "major", "warning": "minor", "note": "info"}
HEX = re.compile("[0-9a-f]{64}")

# The parts of an object of SARIF: the type of each, and whether it must be there.
PARTS = {
    "log": {"$schema": (str, False), "version": (str, True), "runs": (list, True)},
    "run": {"tool": (dict, True), "invocations": (list, False), "columnKind": (str, False), "results": (list, False)},
    "driver": {"name": (str, True), "rules": (list, False)},
    "rule": {"id": (str, True), "shortDescription": (dict, False), "defaultConfiguration": (dict, False)},
    "invocation": {"executionSuccessful": (bool, True), "exitCode": (int, False)},
    "result": {
        "ruleId": (str, False), "ruleIndex": (int, False), "level": (str, False), "message": (dict, True),
        "locations": (list, False), "relatedLocations": (list, False), "partialFingerprints": (dict, False),
    },
    "location": {"physicalLocation": (dict, True), "message": (dict, False)},
    "physical": {"artifactLocation": (dict, True), "region": (dict, False)},
    "region": {"startLine": (int, True), "startColumn": (int, True), "endColumn": (int, False)},
    "text": {"text": (str, True)},
    "artifact": {"uri": (str, True)},
    "issue": {
        "type": (str, True), "check_name": (str, True), "description": (str, True), "categories": (list, True),
        "severity": (str, True), "fingerprint": (str, True), "location": (dict, True),
    },
    "positioned": {"path": (str, True), "positions": (dict, True)},
    "positions": {"begin": (dict, True), "end": (dict, True)},
    "position": {"line": (int, True), "column": (int, True)},
}

# A document, and the regions of its messages in UTF-16 code units: the line, the first unit, the one after the last.
REGIONS = (
    (b"dbp 1\npolicy fp # \xc3\xa9\xc3\xa9\n", [(2, 13, 14)]),
    (b"dbp 1\npolicy fp # \xf0\x9f\x98\x80\ndone", [(2, 13, 15), (3, 1, 5)]),
    (b"dbp 1\r\npolicy fp #\xff x\r\nuntil 1\r\ndone\r\n", [(2, 12, 13)]),
    (b"\xef\xbb\xbfdbp 1\npolicy fp\nuntil 5\ndone\n", [(1, 1, 1)]),
    (b"\tdbp 1\n\tpolicy fp\n\tuntil 5 6\n", [(3, 10, 11), (3, 11, 11)]),
    (b"dbp 1\npolicy fp\nuntil\ndone\n", [(3, 6, 6)]),
    (b"", [(1, 1, 1)]),
)

# The name of a file, and the URI and the path that are told of it.
NAMES = {
    "a.dbp": ("a.dbp", "a.dbp"),
    "./b.dbp": ("b.dbp", "b.dbp"),
    ".//./c.dbp": ("c.dbp", "c.dbp"),
    "a b%20#?.dbp": ("a%20b%2520%23%3F.dbp", "a b%20#?.dbp"),
    "a:b.dbp": ("a%3Ab.dbp", "a:b.dbp"),
    "caf\u00e9.dbp": ("caf%C3%A9.dbp", "caf\u00e9.dbp"),
    "caf\udce9.dbp": ("caf%E9.dbp", "caf\udce9.dbp"),
}


@dataclass(frozen=True)
class Wanted:
    """A message of a text beside a document: its place, what it says, how many bytes are marked, and its notes."""

    line: int
    column: int
    severity: str
    code: str
    name: str
    text: str
    width: int
    notes: list


def parts_of(kind, found):
    """Returns an object after comparing its parts with those that its kind has."""
    must(isinstance(found, dict), f"{found!r:.80} is no {kind}")
    unknown = set(found) - set(PARTS[kind])
    must(not unknown, f"a {kind} has {unknown}")
    for name, (is_type, is_needed) in PARTS[kind].items():
        must(name in found or not is_needed, f"a {kind} has no {name}")
        must(name not in found or type(found[name]) is is_type, f"{name} of a {kind} is {found.get(name)!r:.80}")
    return found


def region_in(location):
    """Returns the URI of a location of SARIF, and its region as a tuple, if it has one."""
    physical = parts_of("physical", parts_of("location", location)["physicalLocation"])
    uri = parts_of("artifact", physical["artifactLocation"])["uri"]
    must(re.fullmatch(r"[\w.~/%-]+", uri, re.ASCII) or uri.startswith("file:///"), f"{uri!r} is no URI")
    if "region" not in physical:
        return uri, None
    region = parts_of("region", physical["region"])
    place = region["startLine"], region["startColumn"], region.get("endColumn", region["startColumn"])
    must(place[0] >= 1 and 1 <= place[1] <= place[2], f"{region} is no region")
    return uri, place


def is_marked(result):
    """Whether a result has the mark by which GitHub knows it again."""
    marks = result["partialFingerprints"]
    return [*marks] == ["primaryLocationLineHash"] and all(map(HEX.fullmatch, marks.values()))


def results_in(text):
    """Returns the run and the results of a log of SARIF, after comparing its structure."""
    log = parts_of("log", json.loads(text))
    must(log["version"] == "2.1.0" and log["$schema"].endswith("/sarif-2.1.0.json"), f"the version is {log['version']}")
    must(len(log["runs"]) == 1, "there isn't one run")
    run = parts_of("run", log["runs"][0])
    must(run["columnKind"] in ("utf16CodeUnits", "unicodeCodePoints"), f"the columns are {run['columnKind']}")
    rules = [parts_of("rule", it) for it in parts_of("driver", run["tool"]["driver"])["rules"]]
    must(len({it["id"] for it in rules}) == len(rules), "a rule stands twice")
    must({it["ruleId"] for it in run["results"]} == {it["id"] for it in rules}, "the rules aren't those of the results")
    for it in run["invocations"]:
        parts_of("invocation", it)
    for it in run["results"]:
        rule = rules[parts_of("result", it)["ruleIndex"]]
        must(rule["id"] == it["ruleId"], f"{it['ruleId']} isn't the rule {rule['id']}")
        must(rule["defaultConfiguration"] == {"level": it["level"]}, f"{rule} has another level")
        must(it["level"] in GRAVITY and parts_of("text", rule["shortDescription"])["text"], f"{rule} is no rule")
        must(len(it["locations"]) == 1 and is_marked(it), f"{it} is no result")
    return run, run["results"]


def issues_in(text):
    """Returns the issues of a code quality report, after comparing its structure."""
    found = json.loads(text)
    must(isinstance(found, list), f"{text[:80]!r} is no list")
    for it in found:
        parts_of("issue", it)
        positions = parts_of("positions", parts_of("positioned", it["location"])["positions"])
        begin, end = (parts_of("position", positions[name]) for name in ("begin", "end"))
        must(begin["line"] == end["line"] >= 1 and 1 <= begin["column"] <= end["column"], f"{it['location']} is no place")
        must(it["type"] == "issue" and it["severity"] in ("info", "minor", "major", "critical", "blocker"), f"{it!r}")
        must(it["categories"] == ["Bug Risk"] and HEX.fullmatch(it["fingerprint"]), f"{it} is no issue")
    must(len({it["fingerprint"] for it in found}) == len(found), "a fingerprint stands twice")
    return found


def wanted_of(file):
    """Returns the messages that stand beside a document as text."""
    found = []
    for line in Path(f"{file}.stderr").read_text().splitlines():
        message, note, mark = MESSAGE.fullmatch(line), NOTE.fullmatch(line), MARK.fullmatch(line)
        if message and (message[4] != "note" or message[6] == "DelayedDownward"):
            found.append(Wanted(int(message[2]), int(message[3]), *message.group(4, 5, 6, 7), 0, []))
        elif note:
            found[-1].notes.append((int(note[1]), int(note[2]), note[3]))
        elif mark:
            found[-1] = Wanted(**{**vars(found[-1]), "width": len(mark[1])})
    return found


def wanted_region(lines, it):
    """Returns the region of a message in a line of ASCII; past the last line that is its end. It ends with its line."""
    if it.line > len(lines):
        return len(lines), len(lines[-1]) + 1, len(lines[-1]) + 1
    most = len(lines[it.line - 1]) + 1
    return it.line, min(it.column, most), min(it.column + it.width, most)


def compare_written(program, file):
    """Compares both texts of a document with the text beside it."""
    status, lines, messages = judged(program, str(file), None)
    checked = [Checked(file.name, status, lines, messages)]
    (run, results), issues, wanted = results_in(sarif_text(checked)), issues_in(quality_text(checked)), wanted_of(file)
    must(run["invocations"] == [{"executionSuccessful": True, "exitCode": status}], f"it has {run['invocations']}")
    must(len(results) == len(issues) == len(wanted), f"{len(results)} results, {len(issues)} issues of {len(wanted)}")
    texts = [it.rstrip(b"\r") for it in file.read_bytes().split(b"\n")]
    texts = texts if texts[-1] else texts[:-1]
    for result, issue, it in zip(results, issues, wanted):
        found = result["ruleId"], result["level"], result["message"]
        must(found == (it.name, it.severity, {"text": it.text}), f"{found} isn't {it}")
        found = issue["check_name"], issue["severity"], issue["description"]
        must(found == (it.name, GRAVITY[it.severity], it.text), f"{found} isn't {it}")
        place = region_in(result["locations"][0])
        short = it.line > len(texts) or texts[it.line - 1].isascii() and len(texts[it.line - 1]) <= MOST_SHOWN
        must(not short or place == (file.name, wanted_region(texts, it)), f"{place} isn't that of {it}")
        compare_position(issue["location"], file.name, place[1])
        notes = [(*region_in(note)[1][:2], note["message"]["text"]) for note in result.get("relatedLocations", [])]
        must(notes == it.notes, f"the notes are {notes}, and {it.notes} are wanted")
        rule = run["tool"]["driver"]["rules"][result["ruleIndex"]]["shortDescription"]["text"]
        must(f"Refusal {it.code} {it.name}:" in rule if it.code else rule.startswith(f"{it.name}: "), f"the rule is {rule}")


def compare_position(location, path, region):
    """Compares the place of an issue with the region of a result."""
    line, start, end = region
    last = end - 1 if end > start else start
    wanted = {"begin": {"line": line, "column": start}, "end": {"line": line, "column": last}}
    must(location == {"path": path, "positions": wanted}, f"{location} isn't {region} in {path}")


def texts_of(program, words, text=b"", folder=TOP):
    """Returns the status of `tools/check`, and what it prints as SARIF and as a code quality report."""
    found = []
    for option in ("--sarif", "--code-quality"):
        command = [sys.executable, "-B", CHECK, "--program", program, option, *words]
        ran = subprocess.run(command, input=text, capture_output=True, cwd=folder, timeout=SECONDS, check=False)
        must(not ran.stderr, f"it said {ran.stderr[-300:]!r}")
        found.append((ran.returncode, ran.stdout.decode()))
    (status, sarif), (other, quality) = found
    must(status == other, f"the statuses are {status} and {other}")
    return status, results_in(sarif), issues_in(quality)


def compare_regions(program, text, wanted):
    """Compares the regions of a document with those that are wanted."""
    _, (_, results), issues = texts_of(program, ["-"], text)
    found = [region_in(it["locations"][0]) for it in results]
    must(found == [("-", it) for it in wanted], f"the regions are {found}, and {wanted} are wanted")
    for issue, region in zip(issues, wanted):
        compare_position(issue["location"], "-", region)


def compare_names(program):
    """Compares what is told of files by their names."""
    with tempfile.TemporaryDirectory() as room:
        whole = str(Path(room) / "a b.dbp")
        names = [*NAMES, whole]
        for name in names:
            with open(os.path.join(os.fsencode(room), os.fsencode(name)), "wb") as sink:
                sink.write(b"dbp 3\n")
        _, (_, results), issues = texts_of(program, [*map(os.fsencode, names)], folder=room)
    found = [(region_in(it["locations"][0])[0], issue["location"]["path"]) for it, issue in zip(results, issues)]
    must(len(found) == len(names), f"{len(found)} files are told")
    for name, told in zip(names, found):
        wanted = NAMES.get(name, (f"file://{whole.replace(' ', '%20')}", whole))
        must(told == wanted, f"{name!r} is told as {told}")


TWICE = """dbp 1
policy fp
until 9
task a every 3 prio 2 cost 1
  out y = 0 then x
  out x = 0 then 1
task b every 3 prio 1 cost 1
  out y = 0 then x
  out z = 0 then z
done
"""


def marks_of(program, text, name="a.dbp"):
    """Returns the marks of a document's messages, which are the same in both texts, each with its rule."""
    with tempfile.TemporaryDirectory() as room:
        (Path(room) / "a.dbp").write_text(text)
        _, (_, results), issues = texts_of(program, [name], folder=room)
    found = [(it["ruleId"], *it["partialFingerprints"].values()) for it in results]
    must(found == [(it["check_name"], it["fingerprint"]) for it in issues], "the marks of both texts differ")
    return [mark for _, mark in found]


def compare_marks(program):
    """Compares marks: they stay when lines move, or are indented, and are others in other lines."""
    marks = marks_of(program, TWICE)
    must(len(marks) == 3 == len(set(marks)), f"the marks are {marks}")
    must(marks_of(program, TWICE, "./a.dbp") == marks, "./ changes the marks")
    moved = TWICE.replace("policy", "# one\n\n  # two\npolicy").replace("  out y", "\tout  y")
    must(marks_of(program, moved) == marks, "lines that are moved have other marks")
    lines = TWICE.splitlines(True)
    turned = "".join([*lines[:3], *lines[6:9], *lines[3:6], *lines[9:]])
    must(set(marks_of(program, turned)) == set(marks), "tasks that are turned have other marks")
    other = marks_of(program, TWICE.replace("then z", "then w"))
    must(other[:2] == marks[:2] and other[2] not in marks, "another line has the same mark")
    without = marks_of(program, TWICE.replace("  out z = 0 then z\n", ""))
    must(without == marks[:2], "the marks of other lines change with one that goes")


def compare_files(program):
    """Compares what is told of several files with what is told of each, and their statuses."""
    good, refused = "examples/preempted.dbp", "examples/refused/18_undelayed_upward.dbp"
    accepted, warned = ".ci/tried/check/delayed_downward.dbp", ".ci/tried/check/beyond.dbp"
    status, (run, results), issues = texts_of(program, [good])
    must((status, results, issues) == (0, [], []) and run["tool"]["driver"]["rules"] == [], f"it has {results}")
    files = [refused, accepted, warned, good, refused.replace("18_u", "none/18_u")]
    status, (run, results), issues = texts_of(program, files)
    each = [texts_of(program, [it]) for it in files]
    must(status == 4 and [it[0] for it in each] == [1, 0, 0, 0, 4], f"the statuses are {status} and {[it[0] for it in each]}")
    must(issues == [it for one in each for it in one[2]], "the issues differ")
    bare = [{**it, "ruleIndex": 0} for it in results]
    must(bare == [{**it, "ruleIndex": 0} for one in each for it in one[1][1]], "the results differ")
    must(run["invocations"] == [{"executionSuccessful": False, "exitCode": 4}], f"it has {run['invocations']}")
    must("region" not in results[-1]["locations"][0]["physicalLocation"], "a file that isn't there has a region")
    levels = {it["level"] for it in results}
    must(levels == {"error", "warning", "note"}, f"the levels are {levels}")
    _, (_, errors), _ = texts_of(program, ["--no-warnings", *files])
    must({it["level"] for it in errors} == {"error"}, "--no-warnings leaves warnings")
    status, (_, results), _ = texts_of(program, ["-"], b"#" * 2**20 + b"#")
    must((status, results[0]["ruleId"], len(results)) == (7, "TooLarge", 1), f"{status} and {results}")


def compare_words(program):
    """Compares how calls end that print no text: two of the options, and no program."""
    for words, status, said in (
        (["--sarif", "--json", "-"], 2, b"usage: check "),
        (["--code-quality", "--sarif", "-"], 2, b"usage: check "),
        (["--sarif", "--program", "/none", "-"], 70, b"check: /none: No such file or directory\n"),
    ):
        named = [] if "/none" in words else ["--program", program]
        ran = subprocess.run([sys.executable, "-B", CHECK, *named, *words], input=b"", capture_output=True, check=False)
        found = ran.returncode, ran.stdout, ran.stderr[: len(said)]
        must(found == (status, b"", said), f"{words} gives {found}")


def trials(program):
    """Yields the trials of the two texts, each a name and a call that returns what differs, or nothing."""
    for file in sorted(WRITTEN.glob("*.dbp")):
        yield f"the texts of {file.stem}", partial(fault_of, compare_written, program, file)
    for number, (text, wanted) in enumerate(REGIONS, 1):
        yield f"the regions of document {number}", partial(fault_of, compare_regions, program, text, wanted)
    for compare in (compare_names, compare_marks, compare_files, compare_words):
        yield compare.__name__.replace("_", " "), partial(fault_of, compare, program)
