"""What a document has, as lists: symbols, parts to be folded, and what the steps of its script hear."""

import os
import re
from itertools import chain
from pathlib import Path
from urllib.parse import unquote, urlsplit

from checking.language import MOST_BYTES
from serving.texts import Text, lines_with_ends

KINDS = {"task": 5, "out": 7, "state": 8, "input": 11, "sense": 13, "read": 13, "let": 14, "event": 24}
SECTION = 3  # a namespace
OUTER = re.compile(r"^[ \t]*(task|input|event)[ \t]+([A-Za-z_][A-Za-z0-9_]*)", re.MULTILINE | re.ASCII)
ENDING = ".dbp"
MOST_FOLDERS, MOST_FILES = 2000, 2000  # that a search looks at
MOST_FOUND = 500  # names that a search gives
MOST_LENSES = 10_000
SEPARATE = ("next",)  # a line of a body that declares nothing


def symbol(version, name, kind, first, last, statement, detail="", children=()):
    """Returns a symbol of a document, over its lines, with the place of its name."""
    text = version.text
    own = version.range_of_name(statement) if statement is not None else text.range_of_line(first)
    whole = {"start": text.position(first, 1), "end": text.range_of_line(last)["end"]}
    return {"name": name, "detail": detail, "kind": kind, "range": whole, "selectionRange": own, "children": [*children]}


def of_statement(version, it):
    """Returns the symbol of a line that declares a name."""
    return symbol(version, it.name.text, KINDS[it.word], it.line, it.line, it, version.source(it.line))


def document_symbols(version):
    """Returns the symbols of a document."""
    document = version.document
    found = [of_statement(version, it) for it in document.declarations]
    for task, last in zip(document.tasks, ends_of_tasks(version)):
        if task.name is not None:
            parts = [of_statement(version, it) for it in task.body if it.word not in SEPARATE]
            line = task.head.line
            found.append(symbol(version, task.name, KINDS["task"], line, last, task.head, version.source(line), parts))
    for word, (first, last) in sections(version).items():
        found.append(symbol(version, word, SECTION, first, last, None))
    return found


def sections(version):
    """Returns the first and the last line of the trace and of the script, if they are there."""
    document, last = version.document, max(1, len(version.document.lines))
    found = {}
    for word, first in (("trace", document.trace_at), ("script", document.script_at)):
        after = [it for it in (document.script_at, document.done_at) if it is not None and first is not None and it > first]
        if first is not None:
            found[word] = (first, min(after) - 1 if after else last)
    return found


def ends_of_tasks(version):
    """Returns the last line of each task: the last one of its lines that is neither blank nor a comment alone."""
    document = version.document
    starts = [it for it in (document.trace_at, document.script_at, document.done_at) if it is not None]
    nexts = [*(task.head.line for task in document.tasks[1:]), min(starts, default=len(document.lines) + 1)]
    return [last_before(version, task.head.line, following) for task, following in zip(document.tasks, nexts)]


def last_before(version, first, following):
    """Returns the last line with code from a line on, before another."""
    lines = version.document.lines
    number = following - 1
    while number > first and not lines[number - 1].text.split(b"#")[0].strip(b" \t"):
        number -= 1
    return number


def flat(symbols, uri, container=""):
    """Yields symbols one after another, for an editor that has no tree of them."""
    for it in symbols:
        yield {
            "name": it["name"],
            "kind": it["kind"],
            "location": {"uri": uri, "range": it["range"]},
            "containerName": container,
        }
        yield from flat(it["children"], uri, it["name"])


def folds(version):
    """Returns the parts to be folded: tasks, the trace, the script, and comments of several lines."""
    document = version.document
    spans = [(task.head.line, last, "region") for task, last in zip(document.tasks, ends_of_tasks(version))]
    spans += [(first, last, "region") for first, last in sections(version).values()]
    spans += comments(document.lines)
    position = version.text.position
    made = ((position(first, 1)["line"], position(last, 1)["line"], kind) for first, last, kind in spans)
    return [{"startLine": first, "endLine": last, "kind": kind} for first, last, kind in sorted(made) if first < last]


def comments(lines):
    """Yields the first and the last line of each block of comments alone."""
    first = None
    for line in lines:
        if line.text.lstrip(b" \t").startswith(b"#"):
            first = first or line.number
        elif first is not None:
            yield first, line.number - 1, "comment"
            first = None
    if first is not None:
        yield first, len(lines), "comment"


def outer_symbols(uri, content, wanted):
    """Yields the inputs, events and tasks of a text whose names have the letters that are wanted, in their order."""
    text = None
    for found in OUTER.finditer(content):
        if is_like(found[2], wanted):
            text = text or Text(lines_with_ends(content))
            line = content.count("\n", 0, found.start(2)) + 1
            column = found.start(2) - content.rfind("\n", 0, found.start(2))
            place = text.range(line, column, len(found[2]))
            yield {"name": found[2], "kind": KINDS[found[1]], "location": {"uri": uri, "range": place}}


def is_like(name, wanted):
    """Whether the letters of a text stand in a name in their order; case doesn't count."""
    left = iter(name.lower())
    return all(letter in left for letter in wanted.lower())


def path_of(uri):
    """Returns the path that a URI of a file names, or nothing."""
    try:
        parts = urlsplit(uri)
    except ValueError:
        return None
    return Path(unquote(parts.path)) if parts.scheme == "file" and parts.path else None


def files_below(folders):
    """Yields the files of documents in folders, but for those in hidden ones; of many folders the first ones."""
    left = MOST_FOLDERS
    for top in folders:
        for place, inner, names in os.walk(top):
            left -= 1
            if left < 0:
                return
            inner[:] = sorted(it for it in inner if not it.startswith("."))
            yield from (Path(place) / name for name in sorted(names) if name.endswith(ENDING))


def documents_below(folders):
    """Yields the documents in folders, with their texts; what can't be read is left out."""
    for path, _ in zip(files_below(folders), range(MOST_FILES)):
        try:
            is_read = path.is_file() and path.stat().st_size <= MOST_BYTES
            content = path.read_bytes() if is_read else None
        except OSError:
            continue
        if content is not None:
            yield path.as_uri(), content.decode("utf-8", "replace")


def workspace_symbols(versions, folders, wanted):
    """Returns the symbols of the documents that are open, and of those in the folders of the editor."""
    texts = {it.uri: it.text.content.decode("utf-8", "replace") for it in versions}
    closed = (it for it in documents_below(folders) if it[0] not in texts)
    found = (it for uri, content in chain(texts.items(), closed) for it in outer_symbols(uri, content, wanted))
    return [it for it, _ in zip(found, range(MOST_FOUND))]


def lenses(version, facts):
    """Returns what each step of the script hears, as a text above it."""
    heard = (it for it in facts.steps if it.heard) if version.document.steps else ()
    found = []
    for it, _ in zip(heard, range(MOST_LENSES)):
        found.append({"range": version.text.range_of_line(it.line), "command": {"title": f"hears {it.heard}", "command": ""}})
    return found
