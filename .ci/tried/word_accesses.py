"""Each call on the shared words makes one access to their table. Contracts count its steps, and would let a `peek`, a
`park` or a wake through besides, so this reads the text of crates/word_rule: the table is reached by `load`, `store` and
`split_seat` alone, once in each function that reaches it, and each public call of the steps does."""

import re
from functools import partial
from pathlib import Path

SOURCES = Path(__file__).resolve().parents[2] / "crates" / "word_rule" / "src"
STEPS = {"releaser_calls.rt", "task_calls.rt", "work_calls.rt"}
ALLOWED = {"load", "store", "split_seat"}
ACCESS = re.compile(r"\bself\s*\.\s*table\s*\.\s*shared\s*\.\s*(\w+)")
# How often a file names the table or its shared part otherwise: its field, and where it is made.
OTHERWISE = {"seats.rt": 1, "begin.rt": 2}
# A pattern that gives the table no name, as where it is dropped.
NAMELESS = re.compile(r"\btable: _")


def code_of(text):
    """Returns the text without its comments, ghost lines and uses."""
    return re.sub(r"(?m)//.*$|^\s*(?:ghost|use)\b.*$", "", text)


def access_fault(name, text):
    """Returns what a file of the crate does to the table besides its steps, or nothing."""
    code = code_of(text)
    strange = sorted({it for it in ACCESS.findall(code)} - ALLOWED)
    if strange:
        return f"{name} reaches the table by {', '.join(strange)}"
    if len(re.findall(r"\b(?:table|shared)\b", NAMELESS.sub("", ACCESS.sub("", code)))) != OTHERWISE.get(name, 0):
        return f"{name} hands the table on, or reaches it under another name"
    for function in re.split(r"\bfn\b", code)[1:]:
        called = re.match(r"\s*(\w+)", function).group(1)
        count = len(ACCESS.findall(function))
        is_step = name in STEPS and "&self, seat: &mut" in function
        if count > 1 or (is_step and count == 0):
            return f"{called} of {name} makes {count} accesses"
    return None


def crate_fault():
    """Returns the first fault of the crate's files, or nothing."""
    faults = (access_fault(file.name, file.read_text("utf-8")) for file in sorted(SOURCES.glob("*.rt")))
    return next(filter(None, faults), None)


def let_through(old, new):
    """Returns whether a file is taken in which the one text stands for the other: that is a fault."""
    text = (SOURCES / "task_calls.rt").read_text("utf-8")
    if old not in text:
        return f"{old!r} isn't in task_calls.rt"
    return None if access_fault("task_calls.rt", text.replace(old, new)) else f"{new!r} is taken"


def trials(program):
    """Yields the trials, each a name and a call that returns what differs, or nothing; the program isn't asked."""
    at = "let address = self.layout.gate(seat.task);"
    yield "accesses of word_rule", crate_fault
    yield "a second look at a word", partial(let_through, at, at + " let _seen = self.table.shared.peek(address as usize);")
    yield "a wake beside a step", partial(let_through, at, at + " self\n.table\n.shared\n.wake_all(address as usize);")
    yield "the table under another name", partial(let_through, at, at + " let words = &self.table.shared; words.peek(0);")
    yield "a step less", partial(let_through, ".load::<StartPlay>", ".load_nothing")
    yield "a step more", partial(let_through, at, at + " self.table.shared.load::<StartPlay>(&mut seat.seat, 0);")
