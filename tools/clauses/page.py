"""The page docs/CONTRACTS.md: of each library crate its types, its calls and its laws."""

import re
from collections import defaultdict

from clauses.crates import TOP, from_the_lowest, is_library, is_of_tests, listed_crates
from clauses.items import Unreadable, read_source

FILE = TOP / "docs" / "CONTRACTS.md"

TITLE = "# The contracts, crate by crate"
HEAD = (
    "`tools/contracts` makes this page from the sources, and the gate compares it. So change the source, never this page.",
    "For each library crate it lists the public types, calls and laws, the lowest crate first. Beside each stands the "
    "first sentence of its comment; the link leads to the file, which has the whole comment and the clauses.",
    "- A call meets its `ensures` clauses if its `requires` clauses hold. A name after one of these words is that of a "
    "clause.\n"
    "- A law is a function that does nothing: its clauses are a theorem.\n"
    "- A type keeps its facts wherever one of its values is. *invariant* stands for the facts of a type that contracts "
    "see as a value of another type.",
    "docs/PROVED.md says what all this comes to.",
)


def first_sentence(doc):
    """Returns the first sentence of a doc comment, as one line."""
    text = " ".join(doc.split("\n\n")[0].split())
    return re.split(r"(?<=[.!?])\s+(?=[A-Z`\"(]|docs/)", text, maxsplit=1)[0]


def cell(text):
    """Returns a text as a cell of a table."""
    return text.replace("|", "\\|") or "-"


def names_of(clauses, kind):
    """Returns the clauses of a kind as text: the kind, and the names of those that have one."""
    names = [f"`{it.name}`" for it in clauses if it.kind == kind and it.name]
    if not any(it.kind == kind for it in clauses):
        return ""
    return f"{kind} {', '.join(names)}" if names else kind


def clause_cell(clauses):
    """Returns the clauses of a call as a cell."""
    return "; ".join(filter(None, (names_of(clauses, kind) for kind in ("requires", "ensures"))))


def code_link(name, crate, source):
    """Returns a name as a link to the file that declares it."""
    return f"[`{name}`](../crates/{crate.name}/{source.relative_to(crate.root.parents[1]).as_posix()})"


def list_of(names):
    """Returns names as a list in a sentence."""
    return ", ".join(f"`{name}`" for name in names)


class Section:
    """What a library crate makes public."""

    def __init__(self, crate):
        self.crate = crate
        self.read = {source: read_source(source.read_text(encoding="utf-8")) for source in crate.sources}
        root = self.read[crate.root]
        self.title = first_sentence(root.head)
        self.handed_on = defaultdict(list)
        self.modules = defaultdict(set)
        for export in root.exports:
            if export.path and export.path[0] in crate.libraries:
                self.handed_on[export.path[0]].append(export.name)
            else:
                self.modules[export.name].update(export.path)

    def is_named(self, name, source):
        """Returns whether a public item of a file is one of the crate's public names."""
        return source == self.crate.root or source.stem in self.modules[name]

    def types(self):
        """Yields the rows of the public types, traits and constants."""
        ruled = set().union(*(it.ruled for it in self.read.values()))
        for source, read in self.read.items():
            for it in read.types:
                if it.is_public and self.is_named(it.name, source):
                    facts = [f"`{fact}`" for fact in it.facts] + ["*invariant*"] * (it.name in ruled)
                    yield code_link(it.name, self.crate, source), cell(first_sentence(it.doc)), cell(", ".join(facts))

    def calls(self, laws):
        """Yields the rows of the public laws, or of all other public calls."""
        types = {it.name for read in self.read.values() for it in read.types if it.is_public}
        types = {name for name in types if self.modules[name]}
        for source, read in self.read.items():
            for it in read.calls:
                if it.is_law == laws and self.is_callable(it, source, types):
                    name = f"{it.owner}::{it.name}" if it.owner else it.name
                    yield code_link(name, self.crate, source), cell(says_of(it)), cell(clause_cell(it.clauses))

    def is_callable(self, call, source, types):
        """Returns whether a function is listed: it can be called from outside, and in a trait's impl has clauses."""
        if call.trait:
            return call.owner in types and bool(call.clauses)
        if call.owner:
            return call.is_public and call.owner in types
        return call.is_public and self.is_named(call.name, source)

    def text(self, users):
        """Returns the section of the page; `users` are the names of the crates that use this one."""
        lines = [f"## {self.crate.name}", "", self.title, ""]
        used = f"It uses {list_of(self.crate.libraries)}." if self.crate.libraries else "It uses no other crate."
        using = f"{list_of(users)} {'use' if len(users) > 1 else 'uses'} it." if users else "No crate uses it yet."
        lines += [f"{used} {using}", ""]
        for library, names in sorted(self.handed_on.items()):
            lines += [f"It hands on of `{library}`: {list_of(sorted(names))}.", ""]
        lines += table_of("Type", "Keeps", self.types())
        lines += table_of("Call", "Clauses", self.calls(laws=False))
        lines += table_of("Law", "Clauses", self.calls(laws=True))
        return "\n".join(lines)


def table_of(title, last, rows):
    """Returns the lines of a table, or none if it has no rows."""
    lines = [f"| {' | '.join(row)} |" for row in rows]
    return [f"| {title} | Says | {last} |", "|---|---|---|", *lines, ""] if lines else []


def says_of(call):
    """Returns what a call says of itself; a method of a trait's impl without a comment does what the trait says."""
    return first_sentence(call.doc) or (f"As `{call.trait}::{call.name}`." if call.trait else "")


def contracts_page():
    """Returns the text of the page."""
    crates = listed_crates()
    ordered = from_the_lowest(crates)
    programs = [it for it in ordered if not is_of_tests(it, crates)]
    parts = [f"{it}\n" for it in (TITLE, *HEAD)]
    for crate in ordered:
        if is_library(crate, crates):
            users = [it.name for it in programs if crate.name in it.libraries]
            parts.append(section_text(crate, users))
    return "\n".join(parts).rstrip("\n") + "\n"


def section_text(crate, users):
    """Returns the section of a crate; a source that can't be read is told with the crate's name."""
    try:
        return Section(crate).text(users)
    except Unreadable as error:
        raise Unreadable(f"crates/{crate.name}: {error}") from error
