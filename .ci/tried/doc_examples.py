"""The examples of the docs: each command in a fenced block prints what stands below it.

A block without a word after its fence is one of these, and so is one with the word `diff`:

- its first line is `dbp 1` or `dbp 2`: a document, which is the page's current one from then on;
- its word is `diff`: a change of the current document. Lines that begin with a space or a `-` must stand in it once,
  one after another, and those that begin with a space or a `+` take their place;
- its word is `expect` or `props`: what stands beside the current document, in a file of this ending;
- its first line is `trace` or `script`: the end of the current document, which takes the place of its line `done`;
- its first line begins with `$ `: commands, and below each what it prints. A file that isn't in the repository is the
  current document. A line `..` stands for any lines, and `$ echo $?` has the exit status of the command before.

Any other block is a fault, so a sketch, a setting or a line of usage has a word, as `text` or `sh`.
"""

import os
import re
import shlex
import subprocess
import sys
import tempfile
from dataclasses import dataclass
from functools import partial
from pathlib import Path

TOP = Path(__file__).resolve().parents[2]
sys.path.insert(0, str(TOP / ".ci"))

from awaited import SECONDS  # noqa: E402
from doc_pages import blocks_and_prose, pages  # noqa: E402

PROGRAMS = ("dbp", "./dbp", "./try")
LINKED = ("examples", "cases", "docs", "tools")
HEADERS = ("dbp 1", "dbp 2")
BESIDE = ("expect", "props")
LEFT_OUT = ".."
STATUS = "$ echo $?"
UNKNOWN = "nothing says what this block is: a document, a change or an example, or a word after its fence"
# The exit status that goes with a line of output; without such a line it is 0.
STATUSES = (("refused: ", 1), ("illegal step ", 1), ("overrun: ", 3))


class Fault(Exception):
    """A block isn't as it must be."""


@dataclass
class Example:
    """A command of a page: its line, the current document, the lines that it prints, and its exit status."""

    number: int
    command: str
    document: str
    beside: dict
    lines: list
    status: int


def lines_after(old, change):
    """Returns the lines of a document after a change of it."""
    before = [it[1:] for it in change if it[:1] in (" ", "-", "")]
    after = [it[1:] for it in change if it[:1] in (" ", "+", "")]
    places = [at for at in range(len(old) - len(before) + 1) if old[at : at + len(before)] == before]
    if any(it[:1] not in (" ", "-", "+", "") for it in change):
        raise Fault("a line of a change begins with a space, a `-` or a `+`")
    if len(places) != 1 or not before:
        raise Fault(f"the changed lines stand {len(places)} times in the document")
    return [*old[: places[0]], *after, *old[places[0] + len(before) :]]


def lines_with_end(old, end):
    """Returns the lines of a document with another end in place of its line `done`."""
    if not old or old[-1] != "done" or end[-1] != "done":
        raise Fault("the end of a document takes the place of a line `done`, and ends with one")
    return [*old[:-1], *end]


def text_of(lines):
    """Returns lines as a text."""
    return "".join(f"{it}\n" for it in lines)


def examples_in(block, document, beside):
    """Returns the examples of a block whose first line is a command."""
    found = []
    for number, line in enumerate(block.lines, block.number + 1):
        if line == STATUS:
            found[-1].status = None
        elif line.startswith("$ "):
            found.append(Example(number, line[2:], document, beside, [], 0))
        elif found[-1].status is None:
            found[-1].status = int(line)
        else:
            found[-1].lines.append(line)
    for it in found:
        wanted = [status for start, status in STATUSES if it.lines and it.lines[0].startswith(start)]
        wanted += [1] * any(": error: " in line for line in it.lines)
        it.status = it.status or (wanted[0] if wanted else 0)
    return found


def examples_of(text):
    """Yields the examples of a page. The document before the first one is empty."""
    document, beside = [], {}
    for block in blocks_and_prose(text)[0]:
        first = block.lines[0] if block.lines else ""
        try:
            if block.word == "diff":
                document = lines_after(document, block.lines)
            elif block.word in BESIDE:
                beside = {**beside, block.word: text_of(block.lines)}
            elif block.word:
                continue
            elif first in HEADERS:
                document, beside = block.lines, {}
            elif first in ("trace", "script"):
                document = lines_with_end(document, block.lines)
            elif first.startswith("$ "):
                yield from examples_in(block, text_of(document), beside)
            else:
                raise Fault(UNKNOWN)
        except Fault as fault:
            raise Fault(f"line {block.number}: {fault}") from fault


def words_of(program, example, room):
    """Returns the words of an example's command and the bytes of its input; files that aren't there are written."""
    words, _, name = example.command.partition(" < ")
    words = shlex.split(words)
    if words[0] in PROGRAMS:
        command = [program, *words[1:]]
    elif (TOP / words[0]).parent == TOP / "tools" and (TOP / words[0]).is_file():
        command = [sys.executable, "-B", TOP / words[0], "--program", program, *words[1:]]
    else:
        raise Fault(f"it is no command of this repository: {words[0]}")
    for word in words[1:]:
        if word.endswith(".dbp") and not (room / word).exists():
            (room / word).write_text(example.document)
            for ending, text in example.beside.items():
                (room / word).with_suffix(f".{ending}").write_text(text)
    there = TOP / name.strip() if name else None
    return command, there.read_bytes() if there and there.is_file() else example.document.encode()


def printed_by(program, example):
    """Runs the command of an example, and returns its exit status and what it prints."""
    with tempfile.TemporaryDirectory() as name:
        room = Path(name)
        for folder in LINKED:
            os.symlink(TOP / folder, room / folder)
        words, document = words_of(program, example, room)
        ran = subprocess.run(words, cwd=room, input=document, capture_output=True, timeout=SECONDS, check=False)
    errors = b"" if words[0] == program else ran.stderr
    return ran.returncode, (ran.stdout + errors).decode("utf-8", "replace").splitlines()


def is_as_wanted(found, wanted):
    """Returns whether lines are those that are wanted, where a line `..` stands for any."""
    pattern = "".join(r"(?:.*\n)*" if it == LEFT_OUT else f"{re.escape(it)}\n" for it in wanted)
    return bool(re.fullmatch(pattern, "".join(f"{it}\n" for it in found)))


def fault_of_example(program, example):
    """Returns how an example prints something else than stands below it, or nothing."""
    try:
        status, lines = printed_by(program, example)
    except (Fault, OSError, ValueError, subprocess.TimeoutExpired) as fault:
        return f"line {example.number}: {fault}"
    if not is_as_wanted(lines, example.lines):
        differing = [it for it, wanted in zip([*lines, ""], [*example.lines, ""]) if it != wanted][:1]
        return f"line {example.number}: `{example.command}` prints {differing or lines[-1:]}"
    if status != example.status:
        return f"line {example.number}: `{example.command}` ends with {status}, and {example.status} is wanted"
    return None


def fault_of_text(program, text):
    """Returns the faults of a page's examples, or nothing."""
    try:
        faults = [fault_of_example(program, it) for it in examples_of(text)]
    except Fault as fault:
        return str(fault)
    return "; ".join(filter(None, faults)) or None


def fault_of_page(program, page):
    """Returns the faults of the examples of a page, or nothing."""
    return fault_of_text(program, page.read_text(encoding="utf-8"))


# Pages, and what must be said of them.
DOCUMENT = """```
dbp 1
policy fp
until 4
task a every 2 prio 1 cost 1
  out y = 0 then 7
done
```
"""
GOOD = f"""{DOCUMENT}
```
$ dbp mean < a.dbp
0,a,1,7
..
$ dbp mean < examples/preempted.dbp
..
4,sensor,3,30,3
$ dbp draw
$ echo $?
2
```
```diff
 task a every 2 prio 1 cost 1
-  out y = 0 then 7
+  out y = 0 then b
```
```
$ tools/check a.dbp
..
    5 |   out y = 0 then b
..
$ echo $?
1
```
```text
anything
```
"""
PAGES = {
    f"{DOCUMENT}```\n$ dbp mean\n0,a,1,7\n2,a,2,8\n```\n": "line 10: `dbp mean` prints ['2,a,2,7']",
    f"{DOCUMENT}```\n$ dbp mean\n0,a,1,7\n```\n": "line 10: `dbp mean` prints ['2,a,2,7']",
    f"{DOCUMENT}```\n$ dbp form\n..\n$ echo $?\n1\n```\n": "line 10: `dbp form` ends with 0, and 1 is wanted",
    f"{DOCUMENT}```expect\ntime,a.y\n0,8\n```\n```\n$ tools/test a.dbp\n1 passed, 0 failed\n```\n":
        "line 14: `tools/test a.dbp` prints ['0 passed, 1 failed']",
    f"{DOCUMENT}```diff\n-none\n+one\n```\n": "line 9: the changed lines stand 0 times in the document",
    "```\nscript\ndone\n```\n": "line 1: the end of a document takes the place of a line `done`, and ends with one",
    "```\n$ rm none\n```\n": "line 2: it is no command of this repository: rm",
    "```\n0,a,1,7\n```\n": f"line 1: {UNKNOWN}",
}


def fault_of_pages(program):
    """Returns the page of which something else is said than must be, or nothing."""
    for text, wanted in {GOOD: None, **PAGES}.items():
        found = fault_of_text(program, text)
        if found != wanted:
            return f"{text!r}: {found!r} is said, and {wanted!r} is wanted"
    return None


def trials(program):
    """Yields the trials, each a name and a call that returns what is wrong, or nothing."""
    for page in pages():
        if page.name != "CONTRIBUTING.md":
            yield page.relative_to(TOP).as_posix(), partial(fault_of_page, program, page)
    yield "pages with faults", partial(fault_of_pages, program)
