"""`cpus` of documents of version 1 is `sim`, byte for byte and with its status, and its record is that of `sim` but for slots.
On drawn processors each document of the repository has the lines of `mean` or an overrun, and its record as its script is
what `replay` accepts: with each step, and with no look that misses its row. So have drawn and generated documents.
"""

import importlib.util
import itertools
import re
import subprocess
import sys
from functools import partial
from pathlib import Path

TOP = Path(__file__).resolve().parents[2]
MADE = TOP / ".ci" / "made"
sys.path[:0] = [str(TOP / "tools"), str(TOP / ".ci")]

from awaited import SECONDS  # noqa: E402
from canonical import read_document  # noqa: E402
from scripts import with_script  # noqa: E402

FOLDERS = ("examples", "cases", "docs")
VERSION_1 = re.compile(rb"^[ \t]*dbp[ \t]+0*1\b", re.MULTILINE)
SLOT = re.compile(rb"^(aim \w+) \d+$", re.MULTILINE)
CPUS, RECORD = ["cpus"], ["cpus", "--record"]
OK, REFUSED, OVERRUN = 0, 1, 3
GENERATED = ((5, 1), (0, 2), (11, 3), (7, 6))
PARTS = 4  # into which the drawn documents are cut


def made(name):
    """Returns a module of .ci/made."""
    spec = importlib.util.spec_from_file_location(name, MADE / f"{name}.py")
    module = importlib.util.module_from_spec(spec)
    spec.loader.exec_module(module)
    return module


def answer(program, words, text):
    """Returns the status of the program and what it prints."""
    ran = subprocess.run([program, *words], input=text, capture_output=True, timeout=SECONDS, check=False)
    return ran.returncode, ran.stdout


def without_slots(status, record):
    """Returns an answer without the slots that its aims name."""
    return status, SLOT.sub(rb"\1", record)


def version_1_fault(program, text):
    """Returns how `cpus` of a document of version 1 differs from `sim`, or its record but for slots."""
    sim, cpus = answer(program, ["sim"], text), answer(program, CPUS, text)
    if sim != cpus:
        return f"`sim` ends with {sim[0]}, and `cpus` with {cpus[0]}: {cpus[1][:200]!r}"
    if cpus[0] == REFUSED:
        return None
    records = [without_slots(*answer(program, words, text)) for words in (["sim", "--record"], RECORD)]
    return None if records[0] == records[1] else "the records have other steps"


def lines_fault(mean, cpus, record):
    """Returns what is wrong with the answers of `cpus` and `cpus --record`, by that of `mean`, if they are no record."""
    is_overrun = cpus[0] == OVERRUN and mean[0] == OK and re.fullmatch(rb"overrun: \w+ \d+ at \d+\n", cpus[1])
    is_wanted = (is_overrun or cpus == mean) and (cpus[0] == record[0]) and (cpus[0] == OK or cpus == record)
    return None if is_wanted else f"`mean` gives {mean[0]}, `cpus` {cpus[0]}, `cpus --record` {record[0]}: {record[1][:200]!r}"


def replayed_fault(program, text):
    """Returns what is wrong with what `cpus` says of a document on its processors, or nothing."""
    mean, cpus, record = (answer(program, words, text) for words in (["mean"], CPUS, RECORD))
    fault = lines_fault(mean, cpus, record)
    if fault or cpus[0] != OK:
        return fault
    form, lines = answer(program, ["form"], text)[1], record[1].decode().splitlines()
    status, heard = answer(program, ["replay"], with_script(form, read_document(form), lines))
    steps = [line.split(" -> ") for line in heard.decode().splitlines()]
    missed = [step for step, *said in steps if said in (["closed"], ["notyet"])]
    is_wanted = status == OK and [step for step, *_ in steps] == lines and not missed
    return None if is_wanted else f"`replay` ends with {status} after {len(steps)} steps of {len(lines)}: {missed[:3]}"


def on_processors(program, text):
    """Returns a document with the processors 0 to 7 in turn, or nothing if it isn't accepted."""
    if answer(program, ["plan"], text)[0]:
        return None
    upgraded = answer(program, ["upgrade"], text)[1]
    diagram, script, rest = upgraded.decode().partition("\nscript\n")
    numbers = itertools.cycle(range(8))
    changed = re.sub(r"(?m)^(task .* cpu) \d$", lambda it: f"{it[1]} {next(numbers)}", diagram)
    return (changed + script + rest).encode()


def document_fault(program, text):
    """Returns what is wrong with `cpus` of a document, as it is and on eight processors."""
    if VERSION_1.search(text):
        changed = on_processors(program, text)
        return version_1_fault(program, text) or (changed and replayed_fault(program, changed))
    return replayed_fault(program, text)


def fault_of_all(program, documents):
    """Returns the faults of documents by their names, or nothing."""
    found = ((name, document_fault(program, text)) for name, text in documents)
    return "; ".join(f"{name}: {fault}" for name, fault in found if fault) or None


def trials(program):
    """Yields the trials of folders, of generated documents and of drawn ones, each a name and a call that returns what
    differs, or nothing."""
    files = [it for folder in FOLDERS for it in (TOP / folder).rglob("*.dbp")]
    for folder in sorted({it.parent for it in files}):
        documents = [(it.name, it.read_bytes()) for it in sorted(folder.glob("*.dbp"))]
        yield str(folder.relative_to(TOP)), partial(fault_of_all, program, documents)
    model, generated = made("drawn_processors"), made("generated")
    for seed, size in GENERATED:
        text = generated.document(generated.tasks_of(seed, size), size)
        yield f"gen {seed} {size}", partial(fault_of_all, program, [(f"gen {seed} {size}", text)])
    drawn = [(f"document {seed}", it.text()) for seed, it in model.drawn_documents()]
    for part in range(PARTS):
        yield f"drawn documents, part {part}", partial(fault_of_all, program, drawn[part::PARTS])
