"""How the tools end if a standard stream is closed, full or a closed pipe, at an interrupt, and without `rt`: with the
status that docs/TOOLS.md names and no traceback, and the file of `-o` is the old one or the new one, whole."""

import os
import shutil
import signal
import subprocess
import sys
import tempfile
from functools import partial
from pathlib import Path

TOP = Path(__file__).resolve().parents[2]
sys.path.insert(0, str(TOP / ".ci"))

from awaited import SECONDS  # noqa: E402
from stand_ins import write_program  # noqa: E402

GOOD, REFUSED = "examples/preempted.dbp", "examples/refused/18_undelayed_upward.dbp"
TESTED = "examples/cruise_control/cruise_control.dbp"
LATE = ".ci/tried/response/alarm.dbp"
LOGGED = ["--tick", "500ms", "examples/greenhouse.csv", "examples/greenhouse.dbp"]
TABLE = ["--format", "csv", "--task", "control"]
NOWHERE = ["-o", "/dev/null/none"]  # a folder that can't be made

# What the shell does to a stream so that its use fails. (Python itself gives up if its input is a folder.)
FAILING = {
    0: {"closed": "<&-"},
    1: {"closed": ">&-", "full": ">/dev/full"},
    2: {"closed": "2>&-", "full": "2>/dev/full"},
}

# A tool with its words, and its statuses with each failing stream: input, output, errors.
STREAMS = (
    ("check", [GOOD], (0, 0, 0)),
    ("check", [REFUSED], (1, 1, 5)),
    ("check", ["-"], (4, 1, 5)),
    ("check", ["--json", GOOD], (0, 5, 0)),
    ("check", ["--json", REFUSED], (1, 5, 1)),
    ("check", ["--sarif", REFUSED], (1, 5, 1)),
    ("check", ["--code-quality", GOOD], (0, 5, 0)),
    ("check", [], (2, 2, 2)),
    ("check", ["--help"], (0, 5, 0)),
    ("check", ["--program", "/none", GOOD], (70, 70, 70)),
    ("timeline", [GOOD], (0, 5, 0)),
    ("timeline", ["-"], (4, 1, 1)),
    ("timeline", [REFUSED], (1, 1, 1)),
    ("timeline", ["--from", "1", "--to", "1", GOOD], (2, 2, 2)),
    ("diagram", [GOOD], (0, 5, 0)),
    ("diagram", ["none.dbp"], (4, 4, 4)),
    ("diagram", ["-o", "none/none.svg", GOOD], (5, 5, 5)),
    ("test", [TESTED], (0, 5, 0)),
    ("test", ["--tap", TESTED], (0, 5, 0)),
    ("test", [REFUSED], (1, 5, 5)),
    ("test", ["--junit", "none/none.xml", TESTED], (5, 5, 5)),
    ("test", ["none.dbp"], (4, 4, 4)),
    ("test", ["--turns", "1", TESTED], (2, 2, 2)),
    ("test", ["--help"], (0, 5, 0)),
    ("waves", [GOOD], (0, 5, 0)),
    ("waves", ["-"], (4, 1, 1)),
    ("waves", [*TABLE, GOOD], (0, 5, 0)),
    ("waves", [REFUSED], (1, 1, 1)),
    ("waves", ["--tick", "1", GOOD], (2, 2, 2)),
    ("trace", LOGGED, (0, 5, 5)),
    ("trace", ["--tick", "500ms", "-", LOGGED[-1]], (4, 1, 1)),
    ("trace", ["--tick", "500ms", LOGGED[-2], GOOD], (1, 1, 1)),
    ("response", [GOOD], (0, 5, 0)),
    ("response", ["--json", "-"], (4, 1, 1)),
    ("response", [LATE], (1, 5, 1)),
    ("response", ["--csv", REFUSED], (1, 1, 1)),
    ("response", ["--chain", "a", GOOD], (2, 2, 2)),
    ("report", [GOOD], (0, 5, 0)),
    ("report", ["-"], (4, 5, 1)),
    ("report", [REFUSED], (1, 5, 1)),
    ("report", [GOOD, "none.dbp"], (4, 4, 4)),
    ("studio", ["--port", "70000", GOOD], (2, 2, 2)),
    ("studio", ["none/none.dbp"], (4, 4, 4)),
    ("studio", ["--help"], (0, 5, 0)),
    ("emit_c", [*NOWHERE, GOOD], (5, 5, 5)),
    ("emit_c", [*NOWHERE, REFUSED], (1, 1, 1)),
    ("emit_c", [*NOWHERE, "-"], (4, 1, 1)),
    ("emit_c", ["--help"], (0, 5, 0)),
    ("emit_c", [GOOD], (2, 2, 2)),
    ("language_server", [], (1, 1, 1)),
    ("language_server", ["--help"], (0, 5, 0)),
    ("language_server", ["--tick", "5"], (2, 2, 2)),
)

# The tools with words that ask the program, and write a file.
PICTURES = (("timeline", []), ("diagram", []), ("diagram", ["--dot"]), ("response", ["--histogram", "control"]))
WRITERS = (*PICTURES, ("waves", []), ("waves", TABLE), ("response", []), ("report", []))

# A program that isn't dbp, and the status of each tool with it.
OTHERS = {"/bin/true": (70, 70), "/bin/false": (70, 1), "/bin/echo": (70, 70), "/etc/passwd": (70, 70), "/etc": (70, 70)}

# Writes half of a file, and then gets a signal: the number of the signal and the file are its words.
HALF = """
import os, sys
from command_line import write_text
from ending import catch_stops
def pieces():
    yield "half"
    os.kill(os.getpid(), int(sys.argv[1]))
    yield "whole"
catch_stops()
write_text(pieces(), sys.argv[2])
"""


def said_traceback(stderr):
    """Returns what a tool said, if that is a traceback."""
    return f"it said {stderr[-300:]!r}" if b"Traceback" in stderr or b"Exception" in stderr else None


def call(program, tool, words):
    """Returns the words of a call of a tool, with this program unless the words name another."""
    named = [] if "--program" in words else ["--program", str(program)]
    return [sys.executable, f"tools/{tool}", *named, *words]


def stream_fault(program, tool, words, stream, way, status):
    """Returns how a call with a failing stream differs from what is wanted, or nothing."""
    quiet = {0: "</dev/null", 1: ">/dev/null", 2: ""}
    given = " ".join(FAILING[stream][way] if it == stream else quiet[it] for it in quiet)
    command = ["sh", "-c", f'exec "$@" {given}', "sh", *call(program, tool, words)]
    ran = subprocess.run(command, cwd=TOP, stderr=subprocess.PIPE, timeout=SECONDS, check=False)
    if ran.returncode != status:
        return f"the status is {ran.returncode}, and {status} is wanted; it said {ran.stderr[-300:]!r}"
    return said_traceback(ran.stderr)


def pipe_fault(program, tool, words):
    """Returns how a call whose output nobody reads differs from what is wanted, or nothing."""
    source, sink = os.pipe()
    os.close(source)
    try:
        ran = subprocess.run(call(program, tool, words), cwd=TOP, stdout=sink, stderr=subprocess.PIPE, check=False)
    finally:
        os.close(sink)
    said = f"{tool}: standard output: Broken pipe\n".encode()
    is_wanted = ran.returncode == 5 and ran.stderr == said
    return None if is_wanted else f"the status is {ran.returncode}; it said {ran.stderr[-300:]!r}"


def interrupting(program, room):
    """Returns a program that interrupts the tool that runs it, and answers only then."""
    between = room / "program"
    write_program(between, f"#!/bin/sh\nkill -INT $PPID\nexec '{program}' \"$@\"\n")
    return str(between)


def interrupt_fault(program, tool, words):
    """Returns how a tool ends that is interrupted while the program runs, and whether its file is the old one."""
    with tempfile.TemporaryDirectory() as place:
        room = Path(place)
        (room / "out").write_text("old")
        wanted = {"out", "program"}
        words = ["--program", interrupting(program, room), *words, GOOD] + ["-o", str(room / "out")] * (tool != "check")
        ran = subprocess.run(call(program, tool, words), cwd=TOP, capture_output=True, timeout=SECONDS, check=False)
        if ran.returncode != 130 or ran.stdout or ran.stderr:
            return f"the status is {ran.returncode}; it said {ran.stderr[-300:]!r}"
        is_kept = (room / "out").read_text() == "old" and {it.name for it in room.iterdir()} == wanted
        return None if is_kept else f"the folder has {sorted(room.iterdir())}"


def half_fault(number):
    """Returns what a signal leaves of a file that is half written, if that isn't the old file."""
    with tempfile.TemporaryDirectory() as place:
        out = Path(place) / "out"
        out.write_text("old")
        command = [sys.executable, "-B", "-c", HALF, str(int(number)), str(out)]
        # whoever runs the gate may ignore the signal
        how = {"capture_output": True, "preexec_fn": partial(signal.signal, number, signal.SIG_DFL)}
        ran = subprocess.run(command, cwd=TOP / "tools", timeout=SECONDS, check=False, **how)
        left = {it.name: it.read_text() for it in Path(place).iterdir()}
    if ran.returncode != 130 or ran.stderr or left != {"out": "old"}:
        return f"the status is {ran.returncode}; the files are {left}; it said {ran.stderr[-300:]!r}"
    return None


def written_fault(program, tool, words):
    """Returns how a file that is written again differs from what standard output gets, or from its rights, or nothing."""
    with tempfile.TemporaryDirectory() as place:
        out, other = Path(place) / "it's \udce9 & \"b\"", Path(place) / "link"
        out.write_text("old")
        out.chmod(0o640)
        other.symlink_to(out.name)
        printed = subprocess.run(call(program, tool, [*words, GOOD]), cwd=TOP, capture_output=True, check=False).stdout
        command = call(program, tool, [*words, "-o", str(other), GOOD])
        ran = subprocess.run(command, cwd=TOP, capture_output=True, check=False)
        if ran.returncode or ran.stdout or ran.stderr or not printed or out.read_bytes() != printed:
            return f"the status is {ran.returncode}; it said {ran.stderr[-300:]!r}"
        left = {it.name for it in Path(place).iterdir() if it.suffix != ".gtkw"}
        is_kept = other.is_symlink() and out.stat().st_mode & 0o777 == 0o640 and left == {out.name, other.name}
        return None if is_kept else f"the folder has {sorted(Path(place).iterdir())}"


def other_fault(tool, program, status):
    """Returns how a tool ends with a program that isn't dbp, if that isn't as wanted."""
    ran = subprocess.run(call(program, tool, [GOOD]), cwd=TOP, capture_output=True, timeout=SECONDS, check=False)
    if ran.returncode != status:
        return f"the status is {ran.returncode}, and {status} is wanted; it said {ran.stderr[-300:]!r}"
    is_place = status == 70 and f"{GOOD}:1:1".encode() in ran.stderr
    return "it is told as a place of the document" if is_place else said_traceback(ran.stderr)


def path_without_rt(room):
    """Returns the places of commands, without `rt`: a folder that has it gives its other commands by links."""
    found = []
    for number, folder in enumerate(map(Path, os.environ["PATH"].split(os.pathsep))):
        if (folder / "rt").exists():
            links = room / f"commands{number}"
            links.mkdir()
            for it in folder.iterdir():
                if it.name != "rt":
                    (links / it.name).symlink_to(it)
            folder = links
        found.append(str(folder))
    return os.pathsep.join(found)


def fresh_clone(room):
    """Makes what a fresh clone has of the launcher and the tools, without a program, and returns its folder."""
    clone = room / "clone"
    (clone / "crates").mkdir(parents=True)
    for name in ("dbp", "try", "crates.txt", "HANDLES", GOOD):
        (clone / name).parent.mkdir(exist_ok=True)
        shutil.copy2(TOP / name, clone / name)
    shutil.copytree(TOP / "tools", clone / "tools", ignore=shutil.ignore_patterns("__pycache__"))
    return clone


def no_rt_fault(words, start):
    """Returns how a call in a fresh clone without `rt` on the path differs: one line says what is missing."""
    with tempfile.TemporaryDirectory() as place:
        room = Path(place)
        how = {"cwd": fresh_clone(room), "env": {**os.environ, "PATH": path_without_rt(room)}}
        ran = subprocess.run(words, stdin=subprocess.DEVNULL, capture_output=True, timeout=SECONDS, check=False, **how)
    lines = ran.stderr.decode().splitlines()
    is_wanted = len(lines) == 1 and lines[0].startswith(f"{start}rt isn't on the path: the command of the Rattle kit ")
    if ran.returncode != 70 or ran.stdout or not is_wanted:
        return f"the status is {ran.returncode}; it said {ran.stderr[-300:]!r}"
    return None


def trials(program):
    """Yields the trials: a name, and a call that returns what differs, or nothing."""
    for tool, words, statuses in STREAMS:
        for stream, status in enumerate(statuses):
            for way in FAILING[stream]:
                name = f"{tool} {' '.join(words)}, stream {stream} is {way}"
                yield name, partial(stream_fault, program, tool, words, stream, way, status)
    for tool, words in WRITERS:
        yield f"{tool} {' '.join(words)}, nobody reads", partial(pipe_fault, program, tool, [*words, GOOD])
        yield f"{tool} {' '.join(words)}, interrupted", partial(interrupt_fault, program, tool, words)
        yield f"{tool} {' '.join(words)}, written again", partial(written_fault, program, tool, words)
    yield "check, interrupted", partial(interrupt_fault, program, "check", [])
    for number in (signal.SIGINT, signal.SIGTERM, signal.SIGHUP):
        yield f"a file is half written at {number.name}", partial(half_fault, number)
    for other, (of_check, of_others) in OTHERS.items():
        for tool in ("check", "report", "response", "timeline", "diagram", "waves"):
            status = of_check if tool in ("check", "report") else of_others
            yield f"{tool} with {other}", partial(other_fault, tool, other, status)
    for words, start in ((["./dbp", "mean"], "dbp: "), (["./try", "mean"], "try: no answer: ")):
        yield f"{words[0]} without rt", partial(no_rt_fault, words, start)
    emit_c = ["tools/emit_c", "-o", "made", GOOD]
    trace = ["tools/trace", "--tick", "1ms", "none.csv", GOOD]
    checks = ["tools/check", GOOD], ["tools/check", "--json", GOOD]
    for words in (*checks, ["tools/waves", GOOD], ["tools/diagram", GOOD], emit_c, trace):
        yield f"{' '.join(words)} without rt", partial(no_rt_fault, words, f"{Path(words[0]).name}: dbp: ")
