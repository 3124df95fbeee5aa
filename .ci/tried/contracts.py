"""tools/contracts: docs/CONTRACTS.md is the page that it makes, and sources are read as they should be. Each crate has
its row in docs/LAYERS.md, and each library a paragraph at its head."""

import subprocess
import sys
import tempfile
from functools import partial
from pathlib import Path

TOP = Path(__file__).resolve().parents[2]
sys.path.insert(0, str(TOP / "tools"))

from clauses.crates import crates_of, from_the_lowest, is_library, listed_crates  # noqa: E402
from clauses.items import Export, Unreadable, read_source  # noqa: E402
from clauses.page import FILE, contracts_page, first_sentence  # noqa: E402

# A source with each form that the reader tells apart.
SOURCE = """//! The head. It has two sentences.
#![tactic(auto)]

pub use deep::{inner::one, two};

/// A type
/// of two lines. And more.
#[derive(Drop)]
pub struct Kept {
    pub count: u32,
    ghost few: { count < 9 },
}

impl Model for Kept {
    ghost invariant = { λ k. k.count < 9 };
}

impl<T: Drop> Kept {
    /// Adds it | once.
    // (a plain comment between)
    #[inline]
    pub fn add(&mut self, item: [T; 2]) -> Result<(), NoMemory>
        requires { 1 < 2 }
        ensures* ok { "a brace } in a text" ≡ 'x' }
        ensures err { self.new ≡ { self.old } }
    {
        if item == '{' { return Err(NoMemory); }
        Ok(())
    }

    fn hidden(&self) {}
}

/// A law.
pub fn law()
    ensures { 1 ≡ 1 }
{
    other::lemma();
    two();
}

/// It does something.
pub fn call()
    ensures done { 1 ≡ 1 }
{
    let a = 1;
}

pub(crate) fn inside() {}

pub trait Source {
    ghost left: { Self → ℕ };

    /// Reads.
    fn read(&mut self) -> Got
        ensures bytes { 1 ≡ 1 };
}
"""

# What is read of it: the owner, the name, the clauses, and whether it is public and a law.
CALLS = [
    ("Kept", "add", [("requires", ""), ("ensures", "ok"), ("ensures", "err")], True, False),
    ("Kept", "hidden", [], False, False),
    ("", "law", [("ensures", "")], True, True),
    ("", "call", [("ensures", "done")], True, False),
    ("", "inside", [], False, True),
    ("Source", "read", [("ensures", "bytes")], True, False),
]

CRATES = """# the program
app may_wait=2: top low
top: low kit
low: kit
top_tests tests_may=Wait: inputs top
inputs: low
"""


def difference(found, wanted):
    """Returns the first of two lists' items that differ, or nothing."""
    for number, (one, other) in enumerate(zip(found, wanted), 1):
        if one != other:
            return f"item {number} is {one!r}, and {other!r} is wanted"
    return None if len(found) == len(wanted) else f"it has {len(found)} items, and {len(wanted)} are wanted"


def page_fault():
    """Returns how docs/CONTRACTS.md differs from the page that is made of the sources, or nothing."""
    fault = difference(FILE.read_text(encoding="utf-8").split("\n"), contracts_page().split("\n"))
    return fault and f"{fault}; `tools/contracts` makes it anew"


def rows_fault():
    """Returns the crates that have no row, or more than one, in the table of docs/LAYERS.md, or nothing."""
    page = (TOP / "docs" / "LAYERS.md").read_text(encoding="utf-8").partition("\n## Crate by crate\n")[2]
    first_cells = [it.split("|")[1] for it in page.splitlines() if it.startswith("|")]
    named = [name for cell in first_cells for name in cell.replace("`", " ").replace(",", " ").split()]
    crates = [it.name for it in listed_crates()]
    strange = [it for it in crates if named.count(it) != 1] + [it for it in named[2:] if it not in crates]
    return f"these crates have no row, or a row has no such crate: {', '.join(strange)}" if strange else None


def heads_fault():
    """Returns the libraries whose head has no paragraph after its first one, or nothing."""
    crates = listed_crates()
    heads = {it.name: read_source(it.root.read_text(encoding="utf-8")).head for it in crates if is_library(it, crates)}
    bare = [name for name, head in heads.items() if len(head.partition("\n\n")[2].split()) < 20]
    return f"these have no paragraph at their heads: {', '.join(bare)}" if bare else None


def calls_fault():
    """Returns how the calls of a source are read otherwise than wanted, or nothing."""
    read = read_source(SOURCE)
    found = [(it.owner, it.name, [(c.kind, c.name) for c in it.clauses], it.is_public, it.is_law) for it in read.calls]
    return difference(found, CALLS)


def types_fault():
    """Returns how the types, the names and the head of a source are read otherwise than wanted, or nothing."""
    read = read_source(SOURCE)
    found = [(it.kind, it.name, first_sentence(it.doc), it.facts, it.is_public) for it in read.types]
    wanted = [("struct", "Kept", "A type of two lines.", ("few",), True), ("trait", "Source", "", (), True)]
    names = [Export(("deep", "inner"), "one"), Export(("deep",), "two")]
    others = (first_sentence(read.head), read.ruled)
    return difference([*found, *read.exports, others], [*wanted, *names, ("The head.", {"Kept"})])


def sentence_fault():
    """Returns how the first sentence of a comment is taken otherwise than wanted, or nothing."""
    wanted = {
        "One\nline. Two.": "One line.",
        "It is 2.5 wide, e.g. so. `x` follows.": "It is 2.5 wide, e.g. so.",
        "A text. docs/LANGUAGE.md has it.": "A text.",
        "First\n\nNo end": "First",
    }
    return difference([first_sentence(doc) for doc in wanted], list(wanted.values()))


def crates_fault():
    """Returns how the list of crates is read otherwise than wanted, or nothing."""
    crates = crates_of(CRATES)
    libraries = [it.name for it in crates if is_library(it, crates)]
    order = [it.name for it in from_the_lowest(crates)]
    return difference([libraries, order], [["top", "low"], ["low", "inputs", "top", "top_tests", "app"]])


def broken_fault():
    """Returns which source that isn't whole is taken, or nothing."""
    for text in ("pub fn f() {", "pub fn f(]) {}", "/// A comment.\npub", "impl A { fn b() }"):
        try:
            read_source(text)
        except Unreadable:
            continue
        return f"{text!r} is taken"
    return None


def status_fault(words, status, said):
    """Returns how a call of the tool ends otherwise than wanted, or nothing; no such call writes the page."""
    ran = subprocess.run([TOP / "tools" / "contracts", *words], capture_output=True, check=False)
    return None if ran.returncode == status and said in ran.stderr else f"it is {ran.returncode}: {ran.stderr!r}"


def copied_fault():
    """Returns how the tool ends otherwise than wanted in a folder with no sources, or nothing."""
    with tempfile.TemporaryDirectory() as room:
        copy = ["cp", "-r", TOP / "tools", room]
        subprocess.run(copy, check=True)
        ran = subprocess.run([Path(room) / "tools" / "contracts"], capture_output=True, check=False)
    is_right = ran.returncode == 4 and b"crates.txt" in ran.stderr and b"Traceback" not in ran.stderr
    return None if is_right else f"the status is {ran.returncode}: {ran.stderr!r}"


def trials(program):
    """Yields the trials, each a name and a call that returns what differs, or nothing; the program isn't asked."""
    yield "docs/CONTRACTS.md", page_fault
    yield "rows of docs/LAYERS.md", rows_fault
    yield "heads of libraries", heads_fault
    yield "the calls of a source", calls_fault
    yield "the types of a source", types_fault
    yield "first sentences", sentence_fault
    yield "crates", crates_fault
    yield "sources that aren't whole", broken_fault
    yield "another word", partial(status_fault, ["more"], 2, b"usage: contracts")
    yield "no sources", copied_fault

