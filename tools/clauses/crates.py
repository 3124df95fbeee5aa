"""The crates of crates.txt, which of them are libraries, and which stand on which."""

from dataclasses import dataclass
from pathlib import Path
from typing import Tuple

from clauses.items import Unreadable

TOP = Path(__file__).resolve().parents[2]
FOLDER = TOP / "crates"
TESTS = "_tests"


@dataclass(frozen=True)
class Crate:
    """A crate, and the libraries that it uses, of the kit too."""

    name: str
    libraries: Tuple[str, ...]

    @property
    def sources(self):
        """Returns the files of its code, in order of their names."""
        return sorted((FOLDER / self.name / "src").rglob("*.rt"))

    @property
    def root(self):
        """Returns the file that lists the public names."""
        return FOLDER / self.name / "src" / "lib.rt"

    @property
    def has_wrong_bodies(self):
        """Returns whether the crate has bodies that the prover must refuse, as a crate of the program has."""
        return (FOLDER / self.name / "must-fail").is_dir()


def crates_of(text):
    """Returns the crates that the text of crates.txt lists, in its order."""
    crates = []
    for line in text.splitlines():
        head, colon, libraries = line.partition("#")[0].partition(":")
        if colon:
            crates.append(Crate(head.split()[0], tuple(libraries.split())))
    return crates


def listed_crates():
    """Returns the crates of this repository."""
    return crates_of((TOP / "crates.txt").read_text(encoding="utf-8"))


def is_library(crate, crates):
    """Returns whether a crate is a library that isn't for tests: crates of the program use it, or it has a `lib.rt`."""
    is_used = any(crate.name in it.libraries for it in crates if not is_of_tests(it, crates))
    return is_used or crate.root.is_file() and not is_of_tests(crate, crates)


def is_of_tests(crate, crates):
    """Returns whether a crate is for tests: it has tests, or only those use it and it has no wrong bodies."""
    users = [it for it in crates if crate.name in it.libraries]
    is_alone = bool(users) and not crate.has_wrong_bodies
    return crate.name.endswith(TESTS) or is_alone and all(is_of_tests(it, crates) for it in users)


def from_the_lowest(crates):
    """Returns the crates, each after those that it uses."""
    left, found = list(reversed(crates)), []
    own = {it.name for it in crates}
    while left:
        placed = {it.name for it in found}
        ready = [it for it in left if all(name in placed for name in it.libraries if name in own)]
        if not ready:
            raise Unreadable(f"crates.txt has crates that use each other: {', '.join(it.name for it in left)}")
        found.append(ready[0])
        left.remove(ready[0])
    return found
