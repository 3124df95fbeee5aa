"""tools/format on all documents that `dbp form` accepts: without comments and blank lines it gives what the program
prints, each comment stays at its line of code, and laid out again nothing changes. And its calls."""

import subprocess
import sys
import tempfile
from functools import partial
from pathlib import Path

TOP = Path(__file__).resolve().parents[2]
WRITTEN = Path(__file__).resolve().parent / "layout"
sys.path[:0] = [str(TOP / "tools"), str(TOP / ".ci")]

from awaited import SECONDS  # noqa: E402
from layout import laid_out  # noqa: E402
from program import run_program  # noqa: E402

PARTS, LEAST_ACCEPTED = 8, 30
CANONICAL = b"dbp 1\npolicy fp\nuntil 1  # the end\ndone\n"
SPREAD = CANONICAL.replace(b"until 1", b"until  1")
REFUSED = b"dbp 1\npolicy fp\n"
# A document that isn't too large, until it is laid out.
GROWING = b"dbp 1\npolicy fp\nuntil 1\ntask a every 1 prio 1 cost 1\nout y=0 then 1" + b"#" * 1_048_500 + b"\ndone\n"

# The name of a call, its words after the documents, the documents by their names, the status, what is said, and which
# documents have changed then.
CALLS = (
    ("a document", [], {"a": SPREAD}, 0, [], {"a": CANONICAL}),
    ("one that is laid out", [], {"a": CANONICAL}, 0, [], {}),
    ("two documents, one refused", [], {"a": REFUSED, "b": SPREAD}, 1, ["a: refused: line 3: 7 MissingDone"], {"b": CANONICAL}),
    ("a check", ["--check"], {"a": SPREAD}, 1, ["a: line 3 isn't laid out: it would be `until 1  # the end`"], {}),
    ("a check of one that is laid out", ["--check"], {"a": CANONICAL}, 0, [], {}),
    ("a last line without its end", ["--check"], {"a": CANONICAL[:-1]}, 1, ["a: line 4 isn't laid out: it would be `done`"], {}),
    ("a file that isn't there", ["none"], {"a": SPREAD}, 4, ["none: No such file or directory"], {"a": CANONICAL}),
    ("one that is too large", [], {"a": b"#" * 1_048_577}, 7, ["a: the document has more than 1,048,576 bytes"], {}),
    ("one that would be", [], {"a": GROWING}, 7, ["a: laid out it would have more than 1,048,576 bytes"], {}),
    ("a name with blanks", [], {"it's \"a\" & b": SPREAD}, 0, [], {"it's \"a\" & b": CANONICAL}),
    ("no program", ["--program", "/none"], {"a": SPREAD, "b": SPREAD}, 70, ["/none: No such file or directory"], {}),
)


def parts_of(text):
    """Returns the codes of a document's lines that have some, its comments, each with how many codes stand before it,
    and how many lines have neither."""
    codes, comments, blank, is_trace, is_script = [], [], 0, False, False
    for line in text.decode().replace("\r\n", "\n").removesuffix("\n").split("\n"):
        code, sign, comment = (line, "", "") if is_trace else line.partition("#")
        if code.strip():
            codes.append(code.rstrip(" \t") if sign else code)
            is_script = is_script or code.strip() == "script"
            is_trace = not is_script and code.strip() != "done" and (is_trace or code.strip() == "trace")
        if sign:
            comments.append((len(codes), bool(code.strip()), sign + comment.rstrip()))
        elif not code.strip():
            blank += 1
    return codes, comments, blank


def documents():
    """Returns all documents whose layout is tried."""
    folders = (TOP / "examples", TOP / "cases", WRITTEN, WRITTEN.parent / "check", TOP / "docs")
    return sorted(it for folder in folders for it in folder.rglob("*.dbp"))


def part_fault(program, part):
    """Returns what is wrong with the layout of every eighth document, from one on; those that are refused are left out."""
    accepted = 0
    for document in documents()[part::PARTS]:
        text = document.read_bytes()
        ran = run_program(program, ["form"], text)
        if ran.status == 0:
            accepted += 1
            fault = document_fault(program, text, ran.stdout.decode().split("\n")[:-1])
            if fault:
                return f"{document.relative_to(TOP)}: {fault}"
    return None if accepted > LEAST_ACCEPTED else f"only {accepted} documents are accepted"


def document_fault(program, text, form):
    """Returns what is wrong with the layout of a document whose canonical lines the program prints."""
    made = laid_out(program, text)
    codes, *others = parts_of(made)
    if codes != form:
        return f"its codes are {codes[:9]}, and {form[:9]} are wanted"
    if others != [*parts_of(text)[1:]]:
        return f"its comments and blank lines are {others}"
    return None if laid_out(program, made) == made else "laid out again it is another one"


def written_fault(program, document):
    """Returns how a document that is laid out differs from the text beside it."""
    found, wanted = laid_out(program, document.read_bytes()), Path(f"{document}.laid").read_bytes()
    differing = [pair for pair in zip(found.split(b"\n"), wanted.split(b"\n")) if pair[0] != pair[1]]
    return None if found == wanted else f"{differing[:1] or 'its end'} differs"


def call_fault(program, words, documents, status, said, changed):
    """Returns how a call differs from what is wanted, or nothing."""
    named = [] if "--program" in words else ["--program", str(program)]
    with tempfile.TemporaryDirectory() as place:
        for name, text in documents.items():
            (Path(place) / name).write_bytes(text)
        command = [sys.executable, TOP / "tools" / "format", *named, *words, *documents]
        ran = subprocess.run(command, cwd=place, capture_output=True, timeout=SECONDS, check=False)
        left = {it.name: it.read_bytes() for it in Path(place).iterdir()}
    if ran.returncode != status or ran.stdout or ran.stderr.decode().splitlines() != [f"format: {it}" for it in said]:
        return f"the status is {ran.returncode}; it said {ran.stderr[-300:]!r}"
    return None if left == {**documents, **changed} else f"the files are {left}"


def streams_fault(program):
    """Returns how a document differs that goes from standard input to standard output."""
    command = [sys.executable, TOP / "tools" / "format", "--program", str(program), "-"]
    ran = subprocess.run(command, input=SPREAD, capture_output=True, timeout=SECONDS, check=False)
    return None if (ran.returncode, ran.stdout, ran.stderr) == (0, CANONICAL, b"") else f"it gives {ran}"


def trials(program):
    """Yields the trials: a name, and a call that returns what differs, or nothing."""
    for part in range(PARTS):
        yield f"documents {part}, {part + PARTS}, .. laid out", partial(part_fault, program, part)
    for document in sorted(WRITTEN.glob("*.dbp")):
        yield f"exact {document.name}", partial(written_fault, program, document)
    for name, *wanted in CALLS:
        yield f"format: {name}", partial(call_fault, program, *wanted)
    yield "format: streams", partial(streams_fault, program)
