"""The items of a source file: its types and its calls, with their doc comments and their clauses."""

import re
from dataclasses import dataclass
from typing import Tuple

from clauses.tokens import tokens_of

CLAUSES = ("requires", "ensures")
TYPES = ("struct", "enum", "trait", "const")
CLOSING = {"(": ")", "[": "]", "{": "}"}
CLOSED = frozenset(CLOSING.values())
# the body of a law: nothing, or calls of other laws
ONLY_CALLS = re.compile(r"(\w+(::\w+)*\(\);)*")


class Unreadable(Exception):
    """A source file isn't as this reader expects."""


@dataclass(frozen=True)
class Clause:
    """A clause of a contract: its kind and its name, which may be empty."""

    kind: str
    name: str


@dataclass(frozen=True)
class Call:
    """A function: the type or the trait that it belongs to, its name, its doc comment and its clauses."""

    owner: str
    name: str
    doc: str
    clauses: Tuple[Clause, ...]
    is_public: bool
    is_law: bool
    # the trait whose method it is, in an impl of that trait
    trait: str = ""


@dataclass(frozen=True)
class Type:
    """A type, a trait or a constant: its name, its doc comment, and the names of the facts that it keeps."""

    kind: str
    name: str
    doc: str
    facts: Tuple[str, ...]
    is_public: bool


@dataclass(frozen=True)
class Export:
    """A public name of a crate: the path of its module, and the name."""

    path: Tuple[str, ...]
    name: str


@dataclass(frozen=True)
class Owner:
    """What an impl or a trait gives its methods: its type, and the trait if it is an impl of one."""

    name: str
    trait: str = ""
    is_trait: bool = False


class Reader:
    """Goes over the tokens of a file once, and collects what it declares."""

    def __init__(self, text):
        self.kinds, self.texts = tokens_of(text)
        self.at = 0
        self.head = ""
        self.calls = []
        self.types = []
        self.exports = []
        # the types that have a rule of their own beside their fields
        self.ruled = set()

    def peek(self, after=0):
        """Returns the text of a token further on, without taking it."""
        return self.texts[min(self.at + after, len(self.texts) - 1)]

    def take(self):
        """Takes a token, and returns its text."""
        text = self.texts[self.at]
        if not text:
            raise Unreadable("the file ends inside of an item")
        self.at += 1
        return text

    def skip_group(self):
        """Takes a bracket and all up to the one that closes it; returns the texts between."""
        start, open_ones = self.at, []
        while True:
            text = self.take()
            if text in CLOSING:
                open_ones.append(CLOSING[text])
            elif text in CLOSED and text != open_ones.pop():
                raise Unreadable(f"`{text}` closes another bracket")
            if not open_ones:
                return self.texts[start + 1 : self.at - 1]

    def skip_item(self):
        """Takes all up to the end of an item: its `;`, or its braces."""
        while True:
            if self.peek() == "{":
                self.skip_group()
                # `use a::{b};` has a `;` after its braces
                if self.peek() == ";":
                    self.take()
                return
            if self.peek() in ("(", "["):
                self.skip_group()
            elif self.take() == ";":
                return

    def read_file(self):
        """Reads all items of the file."""
        heads = []
        while self.kinds[self.at] == "head":
            heads.append(self.take()[3:].strip())
        self.head = "\n".join(heads)
        while self.peek():
            self.read_item(None)
        return self

    def read_doc(self):
        """Takes doc comments and attributes, and returns the text of the comments."""
        lines = []
        while self.kinds[self.at] == "doc" or self.peek() == "#":
            if self.peek() == "#":
                self.take()
                if self.peek() == "!":
                    self.take()
                self.skip_group()
            else:
                lines.append(self.take()[3:].strip())
        return "\n".join(lines)

    def read_item(self, owner):
        """Reads an item of the file, or of the impl or trait that is given."""
        doc = self.read_doc()
        is_public = self.read_visibility() or (owner is not None and owner.is_trait)
        while self.peek() in ("const", "unsafe") and self.peek(1) == "fn":
            self.take()
        word = self.peek()
        if word == "fn":
            self.read_call(owner, doc, is_public)
        elif word == "trait" and owner is None:
            self.read_trait(doc, is_public)
        elif word in TYPES and owner is None:
            self.read_type(doc, is_public)
        elif word == "impl":
            self.read_impl()
        elif word == "use" and is_public:
            self.read_exports()
        else:
            self.skip_item()

    def read_visibility(self):
        """Takes `pub` or `pub(crate)`, if it stands here, and returns whether it is `pub`."""
        if self.peek() != "pub":
            return False
        self.take()
        if self.peek() == "(":
            self.skip_group()
            return False
        return True

    def read_call(self, owner, doc, is_public):
        """Reads a function."""
        self.take()
        name = self.take()
        start = self.at
        found = []
        while self.peek() not in ("{", ";"):
            if self.peek() in CLAUSES and self.at > start:
                found.append(self.read_clause())
            elif self.peek() in CLOSING:
                self.skip_group()
            else:
                self.take()
        has_no_values = self.signature(start) == "()"
        body = self.skip_group() if self.peek() == "{" else [self.take()]
        is_law = has_no_values and bool(ONLY_CALLS.fullmatch("".join(body)))
        of = owner or Owner("")
        self.calls.append(Call(of.name, name, doc, tuple(found), is_public, is_law, of.trait))

    def signature(self, start):
        """Returns what stands between the name of a function and its first clause or its body."""
        texts = self.texts[start : self.at]
        ends = [index for index, text in enumerate(texts) if text in CLAUSES]
        return "".join(texts[: ends[0]] if ends else texts)

    def read_clause(self):
        """Reads a clause, and returns it without what it says."""
        kind = self.take()
        if self.peek() == "*":
            self.take()
        name = "" if self.peek() == "{" else self.take()
        self.skip_group()
        return Clause(kind, name)

    def read_trait(self, doc, is_public):
        """Reads a trait with its methods."""
        self.take()
        name = self.peek()
        self.types.append(Type("trait", name, doc, (), is_public))
        self.read_members(Owner(name, is_trait=is_public))

    def read_impl(self):
        """Reads an impl with its methods, which are those of its type; a rule that it states is the type's."""
        self.take()
        words, depth = [[]], 0
        while self.peek() != "{":
            text = self.take()
            depth += {"<": 1, ">": -1}.get(text, 0)
            if text == "for" and depth == 0:
                words.append([])
            elif text.isidentifier() and depth == 0:
                words[-1].append(text)
        names = [it[-1] if it else "" for it in words]
        self.read_members(Owner(names[-1], trait=names[0] if len(names) > 1 else ""))

    def read_members(self, owner):
        """Reads the braces of an impl or a trait."""
        while self.peek() != "{":
            self.take()
        self.take()
        while self.peek() != "}":
            if owner.trait == "Model" and self.peek() == "ghost" and self.peek(1) == "invariant":
                self.ruled.add(owner.name)
            self.read_item(owner)
        self.take()

    def read_type(self, doc, is_public):
        """Reads a struct, an enum or a constant."""
        kind, name = self.take(), self.take()
        start = self.at
        self.skip_item()
        texts = self.texts[start : self.at]
        facts = tuple(texts[at + 1] for at in range(len(texts) - 2) if texts[at] == "ghost" and texts[at + 2] == ":")
        self.types.append(Type(kind, name, doc, facts if kind == "struct" else (), is_public))

    def read_exports(self):
        """Reads a `pub use`, whose names are public names of the crate."""
        self.take()
        self.read_paths(())
        self.take()

    def read_paths(self, path):
        """Reads the paths of a `use`, which begin with the given one."""
        while True:
            if self.peek() == "{":
                self.take()
                while self.peek() != "}":
                    self.read_paths(path)
                    if self.peek() == ",":
                        self.take()
                self.take()
                return
            name = self.take()
            if self.peek() != ":":
                self.exports.append(Export(path, name))
                return
            self.take()
            self.take()
            path = (*path, name)


def read_source(text):
    """Returns a reader that has read the text of a source file."""
    return Reader(text).read_file()
