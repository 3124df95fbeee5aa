"""`upgrade` of each document of the repository: `form` and `upgrade` leave what it writes as it is, and every other command
prints the same for both documents, but for the line of a refusal; `need` and `rank` write the upgraded text. What
`form` refuses `upgrade` refuses with its line."""

import re
import subprocess
import sys
from functools import partial
from pathlib import Path

TOP = Path(__file__).resolve().parents[2]
sys.path.insert(0, str(TOP / ".ci"))

from awaited import SECONDS  # noqa: E402

FOLDERS = ("examples", "cases", "docs", ".ci")
LINE = re.compile(rb"refused: line [0-9]+: ")
TASK = re.compile(rb"^[ \t]*task[ \t]+([A-Za-z_]\w{,23})\b", re.MULTILINE)

OTHERS = (
    ["mean"],
    ["sim"],
    ["sim", "--record"],
    ["cpus"],
    ["cpus", "--record"],
    ["run", "--turns", "1"],
    ["plan"],
    ["rta"],
    ["replay"],
    ["replay", "--ranked"],
)


def answer(program, words, text):
    """Returns the status of the program and what it prints."""
    ran = subprocess.run([program, *words], input=text, capture_output=True, timeout=SECONDS, check=False)
    return ran.returncode, ran.stdout


def answer_but_line(program, words, text):
    """Returns the same, without the line of a refusal: the canonical text has others."""
    status, printed = answer(program, words, text)
    return status, LINE.sub(b"refused: ", printed)


def change_of(program, upgraded):
    """Returns which command changes what `upgrade` has written, if one does: `form` or `upgrade`."""
    for words in (["form"], ["upgrade"]):
        if answer(program, words, upgraded) != (0, upgraded):
            return f"`{words[0]}` changes what `upgrade` has written"
    return None


def difference_of(program, text, upgraded):
    """Returns which command doesn't print the same of a document and of what `upgrade` has written of it, or nothing."""
    for words in OTHERS:
        old, new = answer_but_line(program, words, text), answer_but_line(program, words, upgraded)
        if old != new:
            return f"`{' '.join(words)}` ends with {old[0]}, of what `upgrade` has written with {new[0]}: {new[1][:200]!r}"
    return None


def difference_of_documents(program, text, upgraded):
    """Returns how `need` of a task, or `rank`, writes another document than the upgraded one after `upgrade`, or nothing."""
    task = TASK.search(text)
    for words in (["need", task[1].decode() if task else "none"], ["rank"]):
        old, new = answer_but_line(program, words, text), answer_but_line(program, words, upgraded)
        wanted = old if old[0] else answer(program, ["upgrade"], old[1])
        if new != wanted:
            return f"`{' '.join(words)}` gives {new}, and {wanted} is wanted"
    return None


def fault_of(program, text):
    """Returns what is wrong with the upgrade of a document, or nothing."""
    form, (status, upgraded) = answer(program, ["form"], text), answer(program, ["upgrade"], text)
    if status:
        return None if form == (status, upgraded) else f"`form` gives {form}, and `upgrade` {upgraded!r} with {status}"
    if form[0] or not upgraded.startswith(b"dbp 2\n"):
        return f"`form` ends with {form[0]}, and `upgrade` writes {upgraded[:80]!r}"
    return (
        change_of(program, upgraded)
        or difference_of(program, text, upgraded)
        or difference_of_documents(program, text, upgraded)
    )


def fault_of_folder(program, folder):
    """Returns the faults of the upgrades of a folder's documents, or nothing."""
    found = ((it.name, fault_of(program, it.read_bytes())) for it in sorted(folder.glob("*.dbp")))
    return "; ".join(f"{name}: {fault}" for name, fault in found if fault) or None


def trials(program):
    """Yields the trials of the folders, each a name and a call that returns what differs, or nothing."""
    documents = [it for folder in FOLDERS for it in (TOP / folder).rglob("*.dbp")]
    for folder in sorted({it.parent for it in documents}):
        yield str(folder.relative_to(TOP)), partial(fault_of_folder, program, folder)
