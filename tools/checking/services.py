"""Messages as services of continuous integration read them: SARIF 2.1.0, and the code quality report of GitLab, which is a
part of Code Climate's."""

import json
import os
from urllib.parse import quote

from checking.messages import Severity
from checking.printed import as_json, as_written
from checking.regions import fingerprints_of, path_of, region_of, regions_of, rule_of
from ending import Status, status_of_all

SCHEMA = "https://json.schemastore.org/sarif-2.1.0.json"
FINGERPRINT = "primaryLocationLineHash"  # the one that GitHub knows a result by
GRAVITY = {Severity.ERROR: "major", Severity.WARNING: "minor", Severity.NOTE: "info"}


def uri_of(file):
    """Returns the name of a file as a URI, relative to the folder of the call unless it begins with a slash."""
    path = quote(os.fsencode(path_of(file)))
    return f"file://{path}" if path.startswith("/") else path


def about_rule(message):
    """Returns what a rule is: where the docs tell it."""
    if message.code is not None:
        return f"Refusal {message.code} {rule_of(message)}: docs/LANGUAGE.md says exactly when it comes, and the cure."
    if message.severity is Severity.ERROR:
        return f"{message.name}: the document isn't judged."
    return f"{message.name}: docs/TOOLS.md says what is accepted then."


def rule_object(message):
    """Returns the rule of a message for SARIF."""
    level = message.severity.value
    return {
        "id": rule_of(message),
        "shortDescription": {"text": about_rule(message)},
        "defaultConfiguration": {"level": level},
    }


def location(checked, region=None):
    """Returns a place of a file for SARIF; without a region it is the file."""
    found = {"artifactLocation": {"uri": uri_of(checked.file)}}
    return {"physicalLocation": {**found, "region": region} if region else found}


def is_read(checked):
    """Whether the text of a file was judged, so that its messages have places in it."""
    return checked.status in (Status.DONE, Status.REFUSED)


def note_object(checked, note):
    """Returns a further place of a message for SARIF."""
    region = region_of(checked.lines, note.line, note.column, 0)
    place = location(checked, {"startLine": region.line, "startColumn": region.start})
    return {**place, "message": {"text": note.text}}


def results_of(checked, rules):
    """Yields the messages of a file for SARIF; `rules` has the place of each rule by its name."""
    for message, region, mark in zip(checked.messages, regions_of(checked), fingerprints_of(checked)):
        place = {"startLine": region.line, "startColumn": region.start, "endColumn": region.end}
        found = {
            "ruleId": rule_of(message),
            "ruleIndex": rules[rule_of(message)],
            "level": message.severity.value,
            "message": {"text": message.text},
            "locations": [location(checked, place if is_read(checked) else None)],
            "partialFingerprints": {FINGERPRINT: mark},
        }
        if message.notes:
            found["relatedLocations"] = [note_object(checked, note) for note in message.notes]
        yield found


def sarif_text(files):
    """Returns the messages of files as a log of SARIF."""
    rules = {}
    for it in files:
        for message in it.messages:
            rules.setdefault(rule_of(message), rule_object(message))
    places = {name: place for place, name in enumerate(rules)}
    status = int(status_of_all([it.status for it in files]))
    run = {
        "tool": {"driver": {"name": "dbp check", "rules": [*rules.values()]}},
        "invocations": [{"executionSuccessful": all(map(is_read, files)), "exitCode": status}],
        "columnKind": "utf16CodeUnits",
        "results": [result for it in files for result in results_of(it, places)],
    }
    found = {"$schema": SCHEMA, "version": "2.1.0", "runs": [run]}
    return as_written(json.dumps(found, ensure_ascii=False, indent=2) + "\n")


def quality_object(checked, message, region, mark):
    """Returns a message as a code quality report has it. There the end is the last character."""
    end = max(region.start, region.end - 1)
    positions = {"begin": {"line": region.line, "column": region.start}, "end": {"line": region.line, "column": end}}
    return {
        "type": "issue",
        "check_name": rule_of(message),
        "description": message.text,
        "categories": ["Bug Risk"],
        "severity": GRAVITY[message.severity],
        "fingerprint": mark,
        "location": {"path": path_of(checked.file), "positions": positions},
    }


def quality_text(files):
    """Returns the messages of files as a code quality report."""
    found = []
    for it in files:
        for message, region, mark in zip(it.messages, regions_of(it), fingerprints_of(it)):
            found.append(quality_object(it, message, region, mark))
    return as_json(found)
