#!/usr/bin/env python3
"""Plants a wrong body in each of many functions of a crate at once, and says which of them are still proved.

  bench/wrong_bodies.py [--form N] [--most N] [--from N] [--keep FOLDER] CRATE ..

bench/wrong_bodies/CRATE.txt has a line for each wrong body: the file and the function (`codes.rt::name#2` is the second
`name` of that file), a text that its body has once, what is put in its place, and what is wrong with that, with tabs between.
The first wrong body (or the one that --form tells) of at most so many functions (12, from the N-th) is planted in a copy of
what is committed, and `rt check --allow-holes` proves that copy. Each function is proved against the contracts of those that it calls, so it doesn't matter
that these are wrong too. Of each wrong body a line says

  refused    its contract, or that it is safe, isn't proved by a search any more
  answer     what was written of its proof doesn't prove it any more
  form       its proof names what is gone: try another text
  no place   the text isn't there once
  PROVED     nothing refuses it: a contract to strengthen, unless no user can tell

The exit status is 1 if one is PROVED. It needs `rt`, and begins with what checks on this machine have kept.
"""

import argparse
import re
import subprocess
import sys
import tempfile
from collections import Counter
from dataclasses import dataclass
from pathlib import Path

TOP = Path(__file__).resolve().parent.parent
LISTS = TOP / "bench" / "wrong_bodies"
FUNCTION = re.compile(r"^(\s*)(?:pub(?:\([a-z]+\))? )?(?:const )?fn (\w+)")
IMPL = re.compile(r"impl(?P<params><[^{]*?>)? (?:(?P<trait>[\w:]+)(?:<(?P<from>\w+)>)? for )?(?P<type>\w+)(?:<(?P<of>\w+)>)?")
NOT_PROVED = re.compile(r"did not prove")
NAME_IS_GONE = re.compile(r"that can be named|is not in scope|has no field|is no name|was not admitted|were not admitted")


@dataclass(frozen=True)
class Wrong:
    """A wrong body: where it is, the text, what takes its place, and what is wrong."""

    place: str
    old: str
    new: str
    about: str

    def file(self):
        return self.place.partition("::")[0]

    def function(self):
        """Returns the name of the function, and which of that name it is."""
        name, _, number = self.place.partition("::")[2].partition("#")
        return name, int(number or 1)


@dataclass(frozen=True)
class Body:
    """A function of a file: its name in the check's output, and where its body begins and ends."""

    path: str
    start: int
    end: int


def listed(crate, form):
    """Returns the wrong bodies of a crate: of each function the one with this number, if it has so many."""
    lines = (LISTS / f"{crate}.txt").read_text(encoding="utf-8").splitlines()
    bodies = {}
    for line in lines:
        wrong = Wrong(*line.split("\t")[:4])
        bodies.setdefault(wrong.place, []).append(wrong)
    return [it[form - 1] for it in bodies.values() if len(it) >= form]


def type_of(head):
    """Returns how the check names the type of an `impl`, with the trait if there is one."""
    found = IMPL.match(head)
    trait = (found["trait"] or "").rpartition("::")[2] if found else ""
    if not found:
        return ""
    of = "" if found["params"] else found["of"] or ""
    return found["type"] + of + trait + (found["from"] or "" if trait == "From" else "")


def bodies_of(text, module):
    """Yields the functions of a file with their names, in their order."""
    head, offset, name, start = "", 0, None, None
    for line in text.splitlines(keepends=True):
        begun, bare = FUNCTION.match(line), line.strip()
        if line.startswith(("impl", "pub trait", "trait")):
            head = line
        if begun:
            (indent, name), start = begun.groups(), None
        offset += len(line)
        if not name:
            continue
        # what a contract has stands deeper, or begins with its word
        ends_head = bool(begun) or line.startswith((f"{indent}) ", f"{indent}{{"))
        if start is None and ends_head and bare.endswith((";", "}")):
            name = None  # without a body, or of one line
        elif start is None and ends_head and bare.endswith("{"):
            start = offset
        elif start is not None and line.rstrip("\n") == f"{indent}}}":
            path = "::".join(it for it in (*module, type_of(head) if indent else "", name) if it)
            yield name, Body(path, start, offset)
            name = None


def body_of(wrong, text, crate):
    """Returns the function that a wrong body belongs to, or nothing."""
    file = wrong.file()
    module = [crate] if file == "lib.rt" else [crate, *Path(file).with_suffix("").parts]
    name, number = wrong.function()
    found = [body for other, body in bodies_of(text, module) if other == name]
    return found[number - 1] if len(found) >= number else None


def planted(wrong, text, crate):
    """Returns the text with the wrong body in it and the function's name, or nothing."""
    body = body_of(wrong, text, crate)
    if not body:
        return None
    # a backslash with an n is one in a literal, or stands for an end of line
    for old, new in ((wrong.old, wrong.new), tuple(it.replace("\\n", "\n") for it in (wrong.old, wrong.new))):
        if text.count(old, body.start, body.end) == 1:
            at = text.index(old, body.start)
            return text[:at] + new + text[at + len(old) :], body.path
    return None


def plant(folder, crate, wrongs):
    """Plants the wrong bodies in a copy; returns the name of each one's function, or nothing where it has no place."""
    names = {}
    for wrong in wrongs:
        file = folder / "crates" / crate / "src" / wrong.file()
        made = planted(wrong, file.read_text(encoding="utf-8"), crate) if file.is_file() else None
        if made:
            file.write_text(made[0], encoding="utf-8")
        names[wrong] = made and made[1]
    return names


def checked(folder, crate):
    """Returns what a check of the crate prints."""
    command = ["rt", "check", "--allow-holes", "--jobs", "1"]
    ran = subprocess.run(command, cwd=folder / "crates" / crate, stdout=subprocess.PIPE, stderr=subprocess.STDOUT, check=False)
    return ran.stdout.decode(errors="replace")


def named_in(path, lines):
    """Returns the name under which a check speaks of a function: a method stands in its type's module, wherever its `impl` is."""
    crate, *module, name = path.split("::")
    if not module or not module[-1][0].isupper():
        return path
    method = re.compile(rf"fn ({crate}::(?:\w+::)+{re.escape(module[-1])}::{name}): ")
    others = {it[1] for it in map(method.match, lines) if it}
    return others.pop() if len(others) == 1 else path


def answers_of(path):
    """Returns a pattern of the errors in what is written of a function's proof. Functions that call each other share a file, where
    each answer begins with its function's name."""
    *module, name = map(re.escape, path.split("::")[1:])
    place = "".join(f"{it}/" for it in module)
    return re.compile(rf"(\./)?proofs/{place}({name}/.*: error|\+\w+/.*: error: `{name}-)")


def closures_of(path):
    """Returns how the lines of a function's closures begin."""
    module, _, name = path.rpartition("::")
    return f"fn {module}::fn::{name}::"


def verdict_of(path, said):
    """Returns what a check said of a function."""
    if not path:
        return "no place"
    # an error goes on in lines that are indented
    lines = re.sub("\n {2,}", " ", said).splitlines()
    path = named_in(path, lines)
    own = [it for it in lines if it.startswith((f"fn {path}: ", closures_of(path)))]
    errors = [it for it in lines if answers_of(path).match(it)]
    if any(NOT_PROVED.search(it) for it in own):
        return "refused"
    if errors:
        return "form" if all(NAME_IS_GONE.search(it) for it in errors) else "answer"
    return "PROVED" if own else "no verdict"


def tried(crate, options):
    """Yields the wrong bodies of a crate with their verdicts."""
    wrongs = listed(crate, options.form)[options.first : options.first + options.most]
    with tempfile.TemporaryDirectory() as room:
        folder = Path(room, "copy")
        subprocess.run(["git", "clone", "--quiet", TOP, folder], check=True)
        names = plant(folder, crate, wrongs)
        said = checked(folder, crate)
    if options.keep:
        options.keep.mkdir(parents=True, exist_ok=True)
        (options.keep / f"{crate}.{options.first}.txt").write_text(said, encoding="utf-8")
    yield from ((wrong, verdict_of(names[wrong], said)) for wrong in wrongs)


def positive(text):
    """Returns the number from 1 on that the text is."""
    if not re.fullmatch("[1-9][0-9]*", text):
        raise argparse.ArgumentTypeError(f"{text} is no number from 1 on")
    return int(text)


def read_options():
    parser = argparse.ArgumentParser(description=__doc__, formatter_class=argparse.RawDescriptionHelpFormatter)
    parser.add_argument("crates", nargs="+", metavar="CRATE", choices=sorted(it.stem for it in LISTS.glob("*.txt")))
    parser.add_argument("--form", type=positive, default=1, metavar="N", help="the N-th wrong body of each function (1)")
    parser.add_argument("--most", type=int, default=12, help="so many functions of each crate (12)")
    parser.add_argument("--from", dest="first", type=int, default=0, metavar="N", help="from this one on (0)")
    parser.add_argument("--keep", type=Path, help="a folder for what the checks print")
    return parser.parse_args()


def main():
    options, counts = read_options(), Counter()
    for crate in options.crates:
        for wrong, verdict in tried(crate, options):
            counts[verdict] += 1
            print(f"{verdict:<11}{crate} {wrong.place}: {wrong.about}", flush=True)
    print(", ".join(f"{verdict}: {count}" for verdict, count in sorted(counts.items())))
    return 1 if counts["PROVED"] else 0


if __name__ == "__main__":
    sys.exit(main())
