"""`rank` of each document of the repository, and of drawn and generated ones (.ci/made). What is accepted has a text; else
`rank` refuses what `plan` refuses, by the same line, but for the faults of ranks. Its text is accepted and stays as it is under
`form` and `rank`, and means what the document means. If `sim` of it has no overrun, its record is replayed by ranks, unless
the document with its record is too large.
"""

import importlib.util
import re
import subprocess
import sys
from functools import partial
from pathlib import Path

TOP = Path(__file__).resolve().parents[2]
sys.path[:0] = [str(TOP / "tools"), str(TOP / ".ci")]

from awaited import SECONDS  # noqa: E402
from canonical import split_sections  # noqa: E402

FOLDERS = ("examples", "cases", "docs", ".ci")
MADE = ("drawn_ranks", "generated")
OK, REFUSED = 0, 1
MOST_BYTES = 1_048_576
OF_RANKS = re.compile(rb"refused: line \d+: (14|15|18) ")
UNRANKED = re.compile(rb"refused: (37 Cycle( \w+){2,}|line \d+: 2[0-6] \w+)\n")
RECORD, RANKED = ["sim", "--record"], ["replay", "--ranked"]


def answer(program, words, text):
    """Returns the status of the program and what it prints."""
    ran = subprocess.run([program, *words], input=text, capture_output=True, timeout=SECONDS, check=False)
    return ran.returncode, ran.stdout


def with_script(text, steps):
    """Returns a canonical text with these steps for a script."""
    diagram, trace, _ = split_sections(text.decode().splitlines())
    kept = [] if trace is None else ["trace", *trace]
    return "\n".join([*diagram, *kept, "script", *steps.decode().splitlines(), "done", ""]).encode()


def is_refused_so(plan, refusal):
    """Whether `rank` may refuse a document so, by what `plan` answers to it."""
    if plan[0] == REFUSED and OF_RANKS.match(plan[1]):
        return refusal[0] == REFUSED and UNRANKED.fullmatch(refusal[1]) is not None
    return plan[0] == REFUSED and plan == refusal


def fault_of_text(program, text, plan, written):
    """Returns what is wrong with the document that `rank` wrote of one, or nothing."""
    for words in (["form"], ["rank"]):
        if answer(program, words, written) != (OK, written):
            return f"`{words[0]}` changes what `rank` has written"
    if answer(program, ["plan"], written)[0] != OK:
        return f"what `rank` has written is refused: {written[:300]!r}"
    if plan[0] == OK and answer(program, ["mean"], text) != answer(program, ["mean"], written):
        return "what `rank` has written has another meaning"
    if answer(program, ["sim"], written)[0] != OK:
        return None
    recorded = with_script(written, answer(program, RECORD, written)[1])
    replayed = answer(program, RANKED, recorded) if len(recorded) <= MOST_BYTES else (OK, b"")
    return None if replayed[0] == OK else f"the record isn't replayed: {replayed[1][:200]!r}"


def fault_of(program, text):
    """Returns what is wrong with the answer of `rank` to a document, or nothing."""
    plan, (status, written) = answer(program, ["plan"], text), answer(program, ["rank"], text)
    if status == OK:
        is_accepted = plan[0] == OK or OF_RANKS.match(plan[1])
        return fault_of_text(program, text, plan, written) if is_accepted else f"`plan` gives {plan}"
    return None if is_refused_so(plan, (status, written)) else f"it gives {written[:200]!r}, and `plan` gives {plan}"


def faults_of(program, documents):
    """Returns the faults of several documents, each with its name, or nothing."""
    found = ((name, fault_of(program, text)) for name, text in documents)
    return "; ".join(f"{name}: {fault}" for name, fault in found if fault) or None


def fault_of_folder(program, folder):
    """Returns the faults of a folder's documents, or nothing."""
    return faults_of(program, ((it.name, it.read_bytes()) for it in sorted(folder.glob("*.dbp"))))


def fault_of_made(program, module):
    """Returns the faults of the documents that a module makes cases of `rank` of, or nothing."""
    spec = importlib.util.spec_from_file_location(module, TOP / ".ci" / "made" / f"{module}.py")
    made = importlib.util.module_from_spec(spec)
    spec.loader.exec_module(made)
    texts = {}
    for name, words, text, _, printed in made.cases():
        if words == ["rank"]:
            texts.setdefault(printed, (name, text))
    return faults_of(program, texts.values())


def trials(program):
    """Yields the trials, each a name and a call that returns what differs, or nothing."""
    documents = [it for folder in FOLDERS for it in (TOP / folder).rglob("*.dbp")]
    for folder in sorted({it.parent for it in documents}):
        yield str(folder.relative_to(TOP)), partial(fault_of_folder, program, folder)
    for module in MADE:
        yield f"documents of {module}", partial(fault_of_made, program, module)
