"""tools/emit_c: the C of documents is compiled and run, and its lines and its records are compared with the program's.

A record has each step that was made and what it heard, and `dbp replay` must print the same. .ci/tried/emit_c/ has
documents and C that goes with some. What needs a C compiler is skipped if there is none.
"""

import random
import subprocess
import sys
import tempfile
import threading
from functools import partial
from pathlib import Path

TOP = Path(__file__).resolve().parents[2]
HERE = Path(__file__).resolve().parent / "emit_c"
sys.path.insert(0, str(TOP / ".ci"))

import compiled  # noqa: E402
from comparing import fault_of, if_there, must  # noqa: E402
from compiled import SECONDS, SOURCES, Toolchain  # noqa: E402
from doc_pages import blocks_and_prose  # noqa: E402
from protocol_text import diagram_fault, text_fault  # noqa: E402
from stand_ins import write_program  # noqa: E402

GENERATED = ((1, 1), (2, 2), (3, 3), (4, 4), (5, 6), (6, 8), (7, 10), (8, 12), (9, 14), (10, 20))
MARK = "/* Written by tools/emit_c of dbp: it writes this file anew at each call. */\n"
GOOD, REFUSED = "examples/preempted.dbp", "examples/refused/18_undelayed_upward.dbp"
EVENTS, BY_DEADLINE = "examples/logger.dbp", ("--target", "posix", "--policy", "deadline", "--tick")
SHORT_FILES = ("sh", "-c", 'ulimit -f 6; exec "$@"', "sh")  # no file may have more than 6 blocks of 512 bytes
OWN = ("dbp_protocol.c", "dbp_protocol.h", "it.c", "it.h")

# In the C of docs/DEPLOYING.md `set_motor` and `pend` are the reader's own, and rtos/ has what it uses of FreeRTOS.
RTOS = HERE / "rtos"

# Calls that write nothing: their words, their status, and what stands on standard error.
ENDED = (
    ([REFUSED], 1, "emit_c: 18_undelayed_upward.dbp: refused: line 7: 18 UndelayedUpward\n"),
    (["examples/none.dbp"], 4, "emit_c: examples/none.dbp: No such file or directory\n"),
    (["-o", "README.md", GOOD], 5, "emit_c: README.md: File exists\n"),
    (["-o", "/dev/null/none", GOOD], 5, "emit_c: /dev/null"),
    (["--name", "atomic", GOOD], 2, "usage: emit_c "),
    (["--name", "dbp_task", GOOD], 2, "usage: emit_c "),
    (["--name", "a" * 41, GOOD], 2, "usage: emit_c "),
    (["--name", "two words", GOOD], 2, "usage: emit_c "),
    (["--name", "_it", GOOD], 2, "usage: emit_c "),
    (["--target", "other", GOOD], 2, "usage: emit_c "),
    (["--calls", "-1", GOOD], 2, "usage: emit_c "),
    (["--calls", "1000000", GOOD], 2, "usage: emit_c "),
    (["--words", "16", GOOD], 2, "usage: emit_c "),
    (["--target", "posix", GOOD], 2, "usage: emit_c "),
    (["--target", "posix", "--tick", "1", GOOD], 2, "usage: emit_c "),
    (["--target", "posix", "--tick", "999ns", GOOD], 2, "usage: emit_c "),
    (["--target", "posix", "--tick", "3601s", GOOD], 2, "usage: emit_c "),
    (["--tick", "1ms", GOOD], 2, "usage: emit_c "),
    (["--log", GOOD], 2, "usage: emit_c "),
    (["--policy", "deadline", GOOD], 2, "usage: emit_c "),
    ([*BY_DEADLINE, "1ms", GOOD], 2, "emit_c: --policy deadline: the document's policy isn't `edf`\n"),
    ([*BY_DEADLINE, "1ms", EVENTS], 2, "emit_c: --policy deadline: the task `doors` is on an event\n"),
    ([*BY_DEADLINE, "99us", EVENTS], 2, "emit_c: --policy deadline: a tick is shorter than 100us"),
    (["--program", "/none", GOOD], 70, "emit_c: /none: No such file or directory\n"),
    (["--program", "/bin/echo", GOOD], 70, "emit_c: "),
    ([], 2, "usage: emit_c "),
)
# The name of a document, and that of its files.
FILES = {
    "two rates.dbp": "two_rates",
    "int.dbp": "int",
    "7.dbp": "d_7",
    "sem.dbp": "d_sem",
    "DBP.dbp": "d_DBP",
    "it's * \"one\" ??.dbp": "it_s____one____",
    "caf\u00e9.dbp": "caf_",
    "two\nlines.dbp": "two_lines",
}


BESIDE = {
    "all operators": compiled.compare_operators,
    "tables": compiled.compare_tables,
    "the largest task without a table": compiled.compare_largest,
    "the last instances": compiled.compare_last_instances,
    "releases": compiled.compare_releases,
    "the shared words": compiled.compare_words,
}


class Shared:
    """The files that all diagrams share, compiled once for all trials, which run in threads."""

    def __init__(self):
        self.lock = threading.Lock()
        self.room = tempfile.TemporaryDirectory(prefix="dbp-c-")
        self.made = None

    def toolchain(self):
        """Returns the compiler with these files."""
        with self.lock:
            if self.made is None:
                self.made = Toolchain(self.room.name)
            return self.made


def compare_example(program, shared, file):
    """Compares the lines and a record of an example, if `mean` accepts it."""
    document = file.read_bytes()
    if compiled.run_program(str(program), ["mean"], document).status == 0:
        compiled.compare_document(program, shared.toolchain(), document)


def compare_generated(program, shared, seed, size):
    """Compares the lines and a record of a generated document."""
    document = compiled.answered(program, ["gen", str(seed), str(size)], b"")
    compiled.compare_document(program, shared.toolchain(), document, seeds=(seed,))


def compare_conditions(program, shared):
    """Compares documents with drawn conditions."""
    sys.path.insert(0, str(TOP / ".ci" / "made"))
    from drawn_conditions import cases

    drawn = [document for _, words, document, _, _ in cases() if words == ["mean"]]
    for document in random.Random(5).sample(drawn, 6):
        compiled.compare_document(program, shared.toolchain(), document)


def compare_beside(compare, program, shared):
    """Makes a comparison of C that stands beside a document, or of operators."""
    compare(program, shared.toolchain())


def compare_statuses(program, shared):
    """Compares the exit statuses of a trace: wrong words, and output or a record that can't be written."""
    with compiled.folder() as place:
        executable = compiled.trace_of(program, shared.toolchain(), (TOP / GOOD).read_bytes(), place)
        for words in (["--seed"], ["--seed", "x"], ["--seed", "-1"], ["other"], ["--record"]):
            compiled.executed([executable, *words], SECONDS, status=2)
        for file in ("/dev/full", "/none/record"):
            compiled.executed([executable, "--record", file], SECONDS, status=5)
        command = ["sh", "-c", f"exec {executable} >/dev/full"]
        compiled.executed(command, SECONDS, status=5)


def fault_of_text():
    """Returns what the text of the protocol has that it mustn't, or nothing."""
    return text_fault(*((SOURCES / f"dbp_protocol.{end}").read_text() for end in "ch"))


def compare_texts(program):
    """Compares how the files of examples name their shared words."""
    for name in ("cascade", "logger", "two_rates"):
        with compiled.folder() as place:
            must_end(call(program, ["-o", place, "--name", "it", f"examples/{name}.dbp"]), 0)
            fault = diagram_fault((Path(place) / "it.c").read_text(), "it")
            must(fault is None, f"{name}: {fault}")


def call(program, words, before=()):
    """Runs the tool at the top of the repository; `before` are words of a command that runs it."""
    named = [] if "--program" in words else ["--program", str(program)]
    command = [*before, sys.executable, TOP / "tools" / "emit_c", *named, *words]
    return subprocess.run(command, cwd=TOP, stdin=subprocess.DEVNULL, capture_output=True, check=False)


def must_end(ran, status, text=""):
    """Ends with a fault if a call ended otherwise, or said something else first."""
    said = ran.stderr.decode(errors="replace")
    is_right = ran.returncode == status and not ran.stdout and said.startswith(text) and "Traceback" not in said
    must(is_right, f"the status is {ran.returncode}, and {status} is wanted; it said {said[-300:]!r}")


def compare_ended(program, words, status, text):
    """Compares the end of a call that writes nothing."""
    with compiled.folder() as place:
        folder = Path(place) / "made"
        has_folder = "-o" in words or not words
        must_end(call(program, [*([] if has_folder else ["-o", str(folder)]), *words]), status, text)
        must(not folder.exists(), f"the folder has {list(folder.iterdir()) if folder.exists() else []}")


def files_in(folder):
    """Returns the bytes of all files of a folder, by their names."""
    return {it.name: it.read_bytes() if it.is_file() else None for it in Path(folder).iterdir()}


def compare_overwriting(program):
    """Compares what is overwritten: files of the tool's own, and others with --force alone."""
    with compiled.folder() as place:
        words = ["-o", place, "--name", "it", GOOD]
        must_end(call(program, words), 0)
        first = files_in(place)
        must(sorted(first) == sorted(OWN) and all(it.startswith(MARK.encode()) for it in first.values()), str(sorted(first)))
        (Path(place) / "it.h").write_text(f"{MARK}old")
        must_end(call(program, words), 0)
        must(files_in(place) == first, "the files aren't those of the first call")
        for content in (b"", b"int x;\n", b"//" + MARK.encode(), MARK.encode()[:-2]):
            (Path(place) / "it.c").write_bytes(content)
            must_end(call(program, words), 5, f"emit_c: {place}/it.c: emit_c didn't write this file")
            must(files_in(place) == {**first, "it.c": content}, "a file has changed")
        must_end(call(program, [*words, "--force"]), 0)
        must(files_in(place) == first, "--force wrote something else")


def compare_failed_writes(program):
    """Compares what a failed write leaves: a folder among the files, a full disk, an interrupt."""
    for force in ([], ["--force"]):
        with compiled.folder() as place:
            words = ["-o", place, "--name", "it", *force]
            must_end(call(program, [*words, GOOD]), 0)
            before = files_in(place)
            must_end(call(program, [*words, "examples/cascade.dbp"], SHORT_FILES), 5, f"emit_c: {place}")
            must(files_in(place) == before, f"a full disk leaves {sorted(files_in(place))}")
            (Path(place) / "it.h").unlink()
            (Path(place) / "it.h").mkdir()
            before = files_in(place)
            must_end(call(program, [*words, "examples/cascade.dbp"]), 5, f"emit_c: {place}/it.h")
            must(files_in(place) == before, f"a folder leaves {sorted(files_in(place))}")


def compare_interrupt(program):
    """Compares what an interrupt while the program runs leaves."""
    with compiled.folder() as place:
        between = Path(place) / "program"
        write_program(between, f"#!/bin/sh\nkill -INT $PPID\nexec '{program}' \"$@\"\n")
        must_end(call(program, ["--program", str(between), "-o", f"{place}/made", GOOD]), 130)
        must(sorted(files_in(place)) == ["program"], f"the folder has {sorted(files_in(place))}")


def compare_names(program):
    """Compares the names that files get from those of documents."""
    for name, own in FILES.items():
        with compiled.folder() as place:
            file = Path(place) / name
            file.write_bytes((TOP / GOOD).read_bytes())
            must_end(call(program, ["-o", f"{place}/made", str(file)]), 0)
            found = sorted(files_in(f"{place}/made"))
            must(found == sorted([*OWN[:2], f"{own}.c", f"{own}.h"]), f"{name!r} has the files {found}")
            if compiled.has_compiler():
                command = ["cc", *compiled.FLAGS, "-c", f"{place}/made/{own}.c", "-o", f"{place}/o"]
                compiled.executed(command, compiled.COMPILE_SECONDS)


def compare_docs(program):
    """Compares the C of the docs with what is written of the example that they speak of: it compiles, or it is there."""
    page = (TOP / "docs" / "DEPLOYING.md").read_text()
    blocks = {it: [block.lines for block in blocks_and_prose(page)[0] if block.word == it] for it in ("c", "text")}
    with compiled.folder() as place:
        must_end(call(program, ["-o", place, GOOD]), 0)
        written = (Path(place) / "preempted.c").read_text()
        must("\n".join(blocks["text"][0]) in written, "the block of the docs isn't in preempted.c")
        must_end(call(program, ["-o", place, *compiled.TABLES, GOOD]), 0)
        written = (Path(place) / "preempted.c").read_text()
        must("\n".join(blocks["text"][1]) in written, "the table of the docs isn't in preempted.c")
        must(len(blocks["c"]) == 2, f"the docs have {len(blocks['c'])} blocks of C")
        for block in blocks["c"]:
            source = Path(place) / "system.c"
            source.write_text("\n".join(block))
            if compiled.has_compiler():
                flags = [it for it in compiled.FLAGS if it != "-Wconversion"]
                command = ["cc", *flags, "-Wno-missing-prototypes", "-I", RTOS, "-c", source, "-o", f"{place}/o"]
                compiled.executed(command, compiled.COMPILE_SECONDS)


def trials(program):
    """Yields the trials: a name, and a call that returns what differs, or nothing."""
    shared = Shared()
    documents = [*sorted((TOP / "examples").rglob("*.dbp")), HERE / "names.dbp", HERE / "words.dbp"]
    for name, compare, *given in (
        *((str(file.relative_to(TOP)), compare_example, file) for file in documents),
        *((f"gen {seed} {size}", compare_generated, seed, size) for seed, size in GENERATED),
        ("drawn conditions", compare_conditions),
        ("statuses of a trace", compare_statuses),
    ):
        yield name, partial(if_there, ["cc"], compare, program, shared, *given)
    for name, compare in BESIDE.items():
        yield name, partial(if_there, ["cc"], compare_beside, compare, program, shared)
    yield "the text of the protocol", fault_of_text
    for words, status, text in ENDED:
        yield f"emit_c {' '.join(words)}", partial(fault_of, compare_ended, program, words, status, text)
    for compare in (compare_docs, compare_texts, compare_overwriting, compare_failed_writes, compare_interrupt, compare_names):
        yield compare.__name__.replace("_", " "), partial(fault_of, compare, program)
