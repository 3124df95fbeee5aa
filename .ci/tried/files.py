"""Files that no tool expects: empty ones, large ones, folders, files that can't be read, and names of every kind. Each
tool ends with the status that docs/TOOLS.md names, and never with a traceback."""

import os
import subprocess
import sys
import tempfile
from functools import partial
from pathlib import Path

TOP = Path(__file__).resolve().parents[2]
sys.path.insert(0, str(TOP / ".ci"))

from awaited import SECONDS  # noqa: E402

EXAMPLE = (TOP / "examples" / "preempted.dbp").read_bytes()
NOBODY = 65534

# The tools with their words; each writes to standard output, to standard error as `check`, or into a folder.
EMIT_C = ["emit_c", "-o", "made"]
CSV = ["--format", "csv"]
DRAWN = (["report"], ["response"], ["timeline"], ["diagram"], ["waves"], ["waves", *CSV])
TOOLS = (["check"], *DRAWN, ["format", "--check"], EMIT_C)

# A file's content, or None for a folder, and the status of each tool with it.
CONTENTS = {
    "an empty file": (b"", 1),
    "a file with a line feed": (b"\n", 1),
    "two MiB of comments": (b"#" * 2**21, 7),
    "two MiB of line feeds": (b"\n" * 2**21, 7),
    "one MiB of bytes of all kinds": (bytes(range(256)) * 4096, 1),
    "a byte order mark before an example": (b"\xef\xbb\xbf" + EXAMPLE, 1),
    "an example in UTF-16": (EXAMPLE.decode().encode("utf-16"), 1),
    "a folder": (None, 4),
}

NAMES = (
    b"a name.dbp",
    b"it's \"one\" & <two>.dbp",
    b"caf\xe9.dbp",
    "café.dbp".encode(),
    b"two\nlines.dbp",
    b"a\x1b[31m.dbp",
    b"%s %d {0}.dbp",
    b"a:1:1: error.dbp",
    b"x" * 250 + b".dbp",
)


def fault_of(ran, status):
    """Returns how the end of a tool differs from what is wanted, or nothing."""
    if ran.returncode != status:
        return f"the status is {ran.returncode}, and {status} is wanted; it said {ran.stderr[-300:]!r}"
    if b"Traceback" in ran.stderr or b"Exception" in ran.stderr:
        return f"it said {ran.stderr[-300:]!r}"
    return None


def run_tool(program, tool, words, **how):
    """Runs a tool on words that are bytes, in a folder that is removed then unless another is named."""
    command = [sys.executable, TOP / "tools" / tool[0], *tool[1:], "--program", program, *words]
    with tempfile.TemporaryDirectory() as place:
        how = {"cwd": place, "stdin": subprocess.DEVNULL, "capture_output": True, "timeout": SECONDS, **how}
        return subprocess.run(command, check=False, **how)


def content_fault(program, tool, content, status):
    """Returns how a tool ends with a file of this content, if that isn't as wanted."""
    with tempfile.TemporaryDirectory() as place:
        file = Path(place) / "a.dbp"
        if content is None:
            file.mkdir()
        else:
            file.write_bytes(content)
        return fault_of(run_tool(program, tool, [file]), status)


def name_fault(program, tool, name):
    """Returns how a tool ends with an example of this name and a file of -o, if not with status 0 and both."""
    with tempfile.TemporaryDirectory() as place:
        room = os.fsencode(place)
        file, out = os.path.join(room, name), os.path.join(room, b"out " + name[:200])
        with open(file, "wb") as sink:
            sink.write(EXAMPLE)
        has_out = tool[0] in ("timeline", "diagram") or tool == ["waves"]
        laid_out = 1 if tool[0] == "format" else 0
        fault = fault_of(run_tool(program, tool, [file, *([b"-o", out] if has_out else [])]), laid_out)
        return fault or ("-o wrote nothing" if has_out and not os.path.getsize(out) else None)


def dash_fault(program, tool):
    """Returns how a tool ends with a name that begins with a dash: it is a word that isn't known, and a file after --."""
    with tempfile.TemporaryDirectory() as place:
        (Path(place) / "-a.dbp").write_bytes(EXAMPLE)
        laid_out = 1 if tool[0] == "format" else 0
        without = fault_of(run_tool(program, tool, ["-a.dbp"], cwd=place), 2)
        return without or fault_of(run_tool(program, tool, ["--", "-a.dbp"], cwd=place), laid_out)


def is_for_all(file):
    """Whether everybody may run a file, and reach it and the tools."""
    return all(it.stat().st_mode & 1 for it in (file, *file.parents, TOP, *TOP.parents))


def right_fault(program, tool, words, file_right, folder_right, status):
    """Returns how a tool ends with a file and a folder of these rights, and what it makes of the file. Who may do
    anything runs it as nobody, by the Python of the system, if nobody may run that and the program."""
    is_root = os.geteuid() == 0
    python = "/usr/bin/python3" if is_root else sys.executable
    if not os.access(python, os.X_OK) or is_root and not is_for_all(Path(program).resolve()):
        return None
    with tempfile.TemporaryDirectory() as place:
        file = Path(place) / "a.dbp"
        file.write_bytes(EXAMPLE)
        file.chmod(file_right)
        os.chmod(place, folder_right)
        command = [python, "-B", TOP / "tools" / tool[0], *tool[1:], "--program", program, *words, "a.dbp"]
        who = {"user": NOBODY, "group": NOBODY, "extra_groups": []} if is_root else {}
        how = {"cwd": place, "stdin": subprocess.DEVNULL, "capture_output": True, "timeout": SECONDS, **who}
        ran = subprocess.run(command, check=False, **how)
        os.chmod(place, 0o700)
        file.chmod(0o600)
        left = {it.name: it.read_bytes() for it in Path(place).iterdir()}
    if left != {"a.dbp": EXAMPLE}:
        return f"the folder has {left}"
    return fault_of(ran, status) or (None if b"Permission denied" in ran.stderr else f"it said {ran.stderr[-300:]!r}")


def many_fault(program):
    """Returns how tools/check ends with several files, of which one can't be read and one is refused."""
    files = ["examples/preempted.dbp", "examples/none.dbp", "examples/refused/10_duplicate.dbp"]
    ran = run_tool(program, ["check"], files, cwd=TOP)
    is_told = b"none.dbp:1:1: error: CannotRead" in ran.stderr and b"error: 10 Duplicate" in ran.stderr
    return fault_of(ran, 4) or (None if is_told else f"it said {ran.stderr[-300:]!r}")


def trials(program):
    """Yields the trials: a name, and a call that returns what differs, or nothing."""
    for tool in TOOLS:
        called = " ".join(tool)
        for name, (content, status) in CONTENTS.items():
            yield f"{called}: {name}", partial(content_fault, program, tool, content, status)
        for name in NAMES:
            yield f"{called}: the name {name[:40]}", partial(name_fault, program, tool, name)
        yield f"{called}: a dash before a name", partial(dash_fault, program, tool)
        yield f"{called}: a file that can't be read", partial(right_fault, program, tool, [], 0, 0o755, 4)
    for tool in (["timeline"], ["diagram"], ["waves"]):
        out = ["-o", "out"]
        yield f"{tool[0]}: a folder for reading alone", partial(right_fault, program, tool, out, 0o444, 0o555, 5)
    yield "emit_c: a folder for reading alone", partial(right_fault, program, EMIT_C, [], 0o444, 0o555, 5)
    for right, folder in ((0o444, 0o777), (0o666, 0o555)):
        name = f"format: the rights {right:o} in {folder:o}"
        yield name, partial(right_fault, program, ["format"], [], right, folder, 5)
    yield "check: several files", partial(many_fault, program)
