"""docs/CERTIFYING.md lists what is trusted: the foreign calls of the built program, all and no others, the kit's crates by
whether they have unsafe code, and the versions. No crate of this repository has unsafe or foreign code.

The foreign calls are skipped if neither nm nor readelf is on the machine, and the kit's sources if the kit isn't."""

import os
import re
import shutil
import subprocess
import sys
import tempfile
from functools import partial
from pathlib import Path

TOP = Path(__file__).resolve().parents[2]
sys.path[:0] = [str(TOP / ".ci"), str(TOP / "tools")]

from clauses.crates import FOLDER, listed_crates  # noqa: E402
from clauses.tokens import tokens_of  # noqa: E402
from comparing import Skipped  # noqa: E402
from doc_pages import spans  # noqa: E402

PAGE = (TOP / "docs" / "CERTIFYING.md").read_text(encoding="utf-8")
README = (TOP / "README.md").read_text(encoding="utf-8")
HEADER = "| Calls | For | Assumed |"  # of the page's table of foreign calls
UNSAFE = "**Unsafe code.**"  # begins the page's paragraph on the kit's crates
WITHOUT = re.compile(r"([^.]*) have none\.")  # its sentence on those without unsafe code
BELOW_RUST = {"unsafe", "extern", "asm"}
FOREIGN = {".a", ".c", ".h", ".o", ".s", ".so"}
NM = ["nm", "-D", "--undefined-only"]
READELF = ["readelf", "--wide", "--dyn-syms"]


KIT_IS_GONE = Skipped("the kit isn't there")


def difference(found, listed):
    """Returns how names differ from those that the page lists, or nothing."""
    new, gone = sorted({*found} - {*listed}), sorted({*listed} - {*found})
    faults = [f"not on the page: {', '.join(new)}"] * bool(new) + [f"on the page alone: {', '.join(gone)}"] * bool(gone)
    return "; ".join(faults) or None


def listed_calls(page):
    """Returns the foreign calls that a page lists: the names in the first column of its table."""
    rows = page.partition(HEADER)[2].partition("\n\n")[0].splitlines()
    return {name for row in rows for name in spans(row[1:].partition("|")[0])}


def names_of_nm(text):
    """Returns the names that nm prints, without their versions: the last word of each line."""
    return {line.split()[-1].partition("@")[0] for line in text.splitlines() if line.strip()}


def names_of_readelf(text):
    """Returns the undefined names that readelf prints, without their versions."""
    rows = [line.split() for line in text.splitlines()]
    return {row[7].partition("@")[0] for row in rows if len(row) > 7 and row[6] == "UND"}


# What lists the foreign calls of a program, and how it is read.
LISTERS = ((NM, names_of_nm), (READELF, names_of_readelf))


def printed(*command):
    """Returns what a command prints."""
    return subprocess.run(command, capture_output=True, check=False).stdout.decode()


def calls_fault(program):
    """Returns how the program's foreign calls differ from those of the page, or nothing."""
    listers = [it for it in LISTERS if shutil.which(it[0][0])]
    if not listers:
        return Skipped("neither nm nor readelf is there")
    faults = [difference(names_of(printed(*command, program)), listed_calls(PAGE)) for command, names_of in listers]
    return next(filter(None, faults), None)


def words_below_rust(source):
    """Returns the words by which a source leaves safe Rattle; those in comments and literals don't count."""
    tokens = tokens_of(source)
    return {it for kind, it in zip(tokens.kinds, tokens.texts) if kind == "word" and it in BELOW_RUST}


def files_of(folder):
    """Yields the files of a folder, without what rt keeps."""
    for place, folders, names in os.walk(folder):
        folders[:] = sorted(it for it in folders if it != "out")
        yield from (Path(place, it) for it in sorted(names))


def below_rust(folder):
    """Yields what a folder has of unsafe and of foreign code."""
    for file in files_of(folder):
        name = file.relative_to(folder)
        if file.suffix in FOREIGN:
            yield f"{name} is foreign code"
        if file.suffix == ".rt":
            yield from (f"{name} has `{it}`" for it in sorted(words_below_rust(file.read_text(encoding="utf-8"))))


def own_fault():
    """Returns what this repository's crates have of unsafe and of foreign code, or nothing."""
    return "; ".join(below_rust(FOLDER)) or None


def listed_crates_of_kit(page):
    """Returns the kit's crates that a page names, and those of them without unsafe code."""
    paragraph = page.partition(UNSAFE)[2].partition("\n")[0]
    return {*spans(paragraph)}, {*spans("".join(WITHOUT.findall(paragraph)))}


def used_fault():
    """Returns how the kit's crates of crates.txt differ from those of the page, or nothing."""
    crates = listed_crates()
    used = {name for it in crates for name in it.libraries} - {it.name for it in crates}
    return difference(used, listed_crates_of_kit(PAGE)[0])


def kit():
    """Returns the folder of the kit, or None if it isn't on the machine."""
    rt = shutil.which("rt")
    folder = Path(rt).resolve().parents[1] if rt else None
    return folder if folder and (folder / "rattle").is_dir() else None


def unsafe_fault():
    """Returns how the kit's crates without unsafe code differ from those of the page, or nothing."""
    folder = kit()
    if folder is None:
        return KIT_IS_GONE
    named, without = listed_crates_of_kit(PAGE)
    return difference({it for it in named if not [*below_rust(folder / "rattle" / it / "src")]}, without)


def versions_fault():
    """Returns a version of the page that isn't that of README.md or of the kit, or nothing. Kits of several names have one
    logic, so the name is compared with none."""
    logic, clang = re.findall(r"sum=(\w+)", PAGE), re.findall(r"clang (\d[\d.]*\d)", PAGE)
    if logic != re.findall(r"(?m)^Proved with `.* logic (\w+)`\.$", README):
        return f"README.md has another logic than {logic}"
    if kit() is None:
        return KIT_IS_GONE
    if re.findall(r"logic (\w+)", printed("rt", "version")) != logic:
        return f"the kit has another logic than {logic}"
    said = printed(kit() / "toolchain" / "bin" / "clang", "--version")
    return None if re.findall(r"clang version (\S+)", said) == clang else f"the kit has another clang than {clang}"


# What nm and readelf print of a program, and its foreign calls.
OF_NM = "                 U malloc@GLIBC_2.2.5\n                 w __gmon_start__\n"
OF_READELF = """
Symbol table '.dynsym' contains 4 entries:
   Num:    Value          Size Type    Bind   Vis      Ndx Name
     0: 0000000000000000     0 NOTYPE  LOCAL  DEFAULT  UND
     1: 0000000000000000     0 FUNC    GLOBAL DEFAULT  UND malloc@GLIBC_2.2.5 (2)
     2: 0000000000000000     0 NOTYPE  WEAK   DEFAULT  UND __gmon_start__
     3: 0000000000001210    12 FUNC    GLOBAL DEFAULT   13 main
"""
CALLS = {"malloc", "__gmon_start__"}
PLANTED = "// unsafe\nfn f() { \"extern\"; unsafe { f() } }\n"


def reading_fault():
    """Returns what is read otherwise than wanted, or nothing."""
    rows = f"{HEADER}\n|---|---|---|\n| `malloc`, `free` | memory | `none` |\n\n| `read` | | |\n"
    found = (names_of_nm(OF_NM), names_of_readelf(OF_READELF), listed_calls(rows), words_below_rust(PLANTED))
    wanted = (CALLS, CALLS, {"malloc", "free"}, {"unsafe"})
    return None if found == wanted else f"{found} is read, and {wanted} is wanted"


def planted_fault():
    """Returns that planted unsafe and foreign code isn't found, or nothing."""
    with tempfile.TemporaryDirectory() as name:
        (Path(name) / "lib.rt").write_text(PLANTED)
        (Path(name) / "more.c").write_text("")
        found = [*below_rust(Path(name))]
    return None if found == ["lib.rt has `unsafe`", "more.c is foreign code"] else f"{found} is found"


def differing_fault():
    """Returns that a call which is on the page alone, or isn't there, passes, or nothing."""
    found = difference({"read", "open"}, {"read", "write"})
    return None if found == "not on the page: open; on the page alone: write" else f"{found!r} is said"


def trials(program):
    """Yields the trials, each a name and a call that returns what differs, or nothing."""
    yield "foreign calls", partial(calls_fault, program)
    yield "unsafe and foreign code here", own_fault
    yield "crates of the kit", used_fault
    yield "unsafe code of the kit's crates", unsafe_fault
    yield "versions", versions_fault
    yield "lists that are read", reading_fault
    yield "planted code", planted_fault
    yield "lists that differ", differing_fault
