#!/usr/bin/env python3
"""Makes mutants of the examples, and gives each to all tools of tools/, in this one process.

  bench/mutants.py [--program PROGRAM] [--mutants N] [--seed N] [--interrupts N] [FILE ..]

A tool must end with a status that docs/TOOLS.md names, and raise nothing; the first error of `tools/check` must be the
line and the code of the program. Without FILE each document of examples/ has N mutants (10). With --interrupts each
tool is also stopped so many times, after a time that is drawn. Prints each fault with its mutant, and last the counts;
the exit status is 1 if there are faults.
"""

import os
import random
import re
import signal
import subprocess
import sys
import tempfile
import time
import traceback
from contextlib import contextmanager
from functools import partial
from pathlib import Path

TOP = Path(__file__).resolve().parent.parent
sys.path.insert(0, str(TOP / "tools"))
sys.dont_write_bytecode = True

import layout  # noqa: E402
from checking import command as checking  # noqa: E402
from checking.verdicts import NOT_FOUND, refusal_of  # noqa: E402
from emitting import command as emitting  # noqa: E402
from pictures import commands as pictures  # noqa: E402
from program import run_program  # noqa: E402
from reports import command as reporting  # noqa: E402
from responses import command as responses  # noqa: E402
from running import parser_of  # noqa: E402
from testing import command as testing  # noqa: E402
from tracing import command as tracing  # noqa: E402
from waveforms import command as waveforms  # noqa: E402

STATUSES = (0, 1, 2, 3, 4, 5, 6, 7, 70)
WORDS = "task every on when cpu prio deadline cost state sense read let next out pre at then if else trace script " \
        "done 0 -1 1 3 9223372036854775807 9223372036854775808 1000000001 ( ) , . = == + - * / % # < x y a.y min max " \
        "not é \t \r \0".split(" ")

CALLS = {
    "check": (checking.main, []),
    "check --json": (checking.main, ["--json"]),
    "check --sarif": (checking.main, ["--sarif"]),
    "check --code-quality": (checking.main, ["--code-quality"]),
    "response": (responses.main, ["-o", "OUT"]),
    "response --json": (responses.main, ["--json", "-o", "OUT"]),
    "timeline": (pictures.timeline, ["-o", "OUT"]),
    "timeline --command cpus": (pictures.timeline, ["--command", "cpus", "-o", "OUT"]),
    "diagram": (pictures.diagram, ["-o", "OUT"]),
    "diagram --dot": (pictures.diagram, ["--dot", "-o", "OUT"]),
    "waves": (waveforms.main, ["-o", "OUT"]),
    "waves --format csv": (waveforms.main, ["--format", "csv", "--wide", "-o", "OUT"]),
    "trace": (tracing.main, ["--tick", "500ms", "-o", "OUT", str(TOP / "examples" / "greenhouse.csv")]),
    "format": (layout.main, []),
    "report": (reporting.main, ["-o", "OUT"]),
    "test": (testing.main, ["--coverage", "--html", "OUT"]),
    "emit_c": (emitting.main, ["--target", "trace", "-o", "FOLDER"]),
}


def changed_line(draw, lines):
    """Changes the words of a line: one is put in, taken out, or replaced."""
    at = draw.randrange(len(lines))
    words = re.findall(rb"\w+|\s+|.", lines[at]) or [b""]
    place = draw.randrange(len(words))
    word = draw.choice(WORDS).encode()
    words[place : place + draw.randrange(2)] = draw.choice(([word], [word, b" "], [b" ", word], []))
    lines[at] = b"".join(words)


def moved_line(draw, lines):
    """Moves a line, doubles it, or takes it out."""
    line = lines.pop(draw.randrange(len(lines)))
    for _ in range(draw.randrange(3)):
        lines.insert(draw.randrange(len(lines) + 1), line)


def joined_lines(draw, lines):
    """Joins a line with the next one, or cuts it."""
    at = draw.randrange(len(lines))
    if draw.randrange(2):
        lines[at : at + 2] = [b"".join(lines[at : at + 2])]
    else:
        cut = draw.randrange(len(lines[at]) + 1)
        lines[at : at + 1] = [lines[at][:cut], lines[at][cut:]]


def changed_byte(draw, lines):
    """Changes a byte of a line to any other."""
    at = draw.randrange(len(lines))
    line = bytearray(lines[at] or b" ")
    line[draw.randrange(len(line))] = draw.randrange(256)
    lines[at] = bytes(line)


def cut_text(draw, lines):
    """Leaves out all lines from one on."""
    del lines[draw.randrange(len(lines)) + 1 :]


CHANGES = (changed_line, changed_line, changed_line, moved_line, joined_lines, changed_byte, cut_text)


def mutant_of(draw, text):
    """Returns a document with one to three changes."""
    lines = text.split(b"\n")
    for _ in range(draw.randint(1, 3)):
        draw.choice(CHANGES)(draw, lines)
        lines[:] = lines or [b""]
    return b"\n".join(lines)


@contextmanager
def kept_errors():
    """Leads what is said on standard error and standard output into a file, which is lent."""
    with tempfile.TemporaryFile() as kept:
        saved = [os.dup(stream) for stream in (1, 2)]
        try:
            for stream in (1, 2):
                os.dup2(kept.fileno(), stream)
            yield kept
        finally:
            for stream, number in zip((1, 2), saved):
                os.dup2(number, stream)
                os.close(number)


def fault_of_call(call, words):
    """Returns what is wrong with the end of a tool's call, or nothing, and what it said."""
    with kept_errors() as kept:
        try:
            status = call(words)
            fault = None if status in STATUSES else f"the status is {status}"
        except BaseException:
            fault = traceback.format_exc()
        kept.seek(0)
        return fault, kept.read()


def fault_of_first(program, text, said):
    """Returns how the first error that `tools/check` tells of a document differs from the program's refusal."""
    refusal = refusal_of(run_program(program, ["plan"], text).stdout)
    if refusal is None or b"\nscript" in text:
        return None
    found = re.search(rb":([0-9]+):[0-9]+: error: ([0-9]+) ", said)
    is_same = found and (int(found[1]), int(found[2])) == (refusal.line, refusal.code)
    return None if is_same else f"the first error is {found and found[0]!r}, and {refusal} is the program's"


def faults_of(program, text, room):
    """Yields the faults of all tools on a document, each with the tool."""
    document, places = room / "mutant.dbp", {"OUT": str(room / "out"), "FOLDER": str(room / "made")}
    for name, (call, words) in CALLS.items():
        document.write_bytes(text)
        words = [places.get(word, word) for word in words]
        fault, said = fault_of_call(call, ["--program", str(program), *words, str(document)])
        yield name, fault or (fault_of_first(program, text, said) if name == "check" else None), said


def interrupted(program, draw, tool, words):
    """Stops a call of a tool after a time that is drawn, and returns what is wrong with its end, or nothing.

    Until a script has begun, Python itself says what stopped it; that isn't the tool's.
    """
    command = [sys.executable, "-S", TOP / "tools" / tool, "--program", program, *words]
    started = subprocess.Popen(command, cwd=TOP, stdout=subprocess.DEVNULL, stderr=subprocess.PIPE)
    time.sleep(draw.uniform(0, 0.4))
    started.send_signal(draw.choice((signal.SIGINT, signal.SIGTERM, signal.SIGHUP)))
    said = started.communicate()[1].decode(errors="replace")
    if "Traceback" in said and re.search(r'File "[^"]*/tools/', said):
        return said
    return None if started.returncode in (0, 130, 1, -1, -2, -15) else f"the status is {started.returncode}: {said}"


def try_interrupts(program, draw, count):
    """Prints the faults of tools that are stopped, and returns their number."""
    faults = 0
    calls = [("check", []), ("response", []), ("timeline", []), ("diagram", []), ("waves", []), ("format", ["--check"])]
    for number in range(count * len(calls)):
        tool, words = calls[number % len(calls)]
        fault = interrupted(program, draw, tool, [*words, "examples/speed_control.dbp"])
        if fault:
            faults += 1
            print(f"{tool}, stopped: {fault}")
    return faults


def main():
    """Tries all mutants, and returns the exit status."""
    parser = parser_of(__doc__)
    parser.add_argument("--mutants", type=int, default=10, help="of each document (10)")
    parser.add_argument("--seed", type=int, default=1, help="what the changes are drawn from (1)")
    parser.add_argument("--interrupts", type=int, default=0, help="stops of each tool (0)")
    parser.add_argument("files", nargs="*", type=Path, metavar="FILE", help="documents (those of examples/)")
    options = parser.parse_args()
    draw, faults, mutants, calls, unplaced = random.Random(options.seed), 0, 0, 0, 0
    with tempfile.TemporaryDirectory() as place:
        for file in options.files or sorted((TOP / "examples").rglob("*.dbp")):
            for text in [file.read_bytes(), *map(partial(mutant_of, draw), [file.read_bytes()] * options.mutants)]:
                mutants += 1
                for name, fault, said in faults_of(options.program, text, Path(place)):
                    calls += 1
                    unplaced += NOT_FOUND.encode() in said
                    if fault:
                        faults += 1
                        print(f"{name} of a mutant of {file}: {fault}\n{text!r}")
    faults += try_interrupts(options.program, draw, options.interrupts)
    print(f"{mutants} documents, {calls} calls, {unplaced} refusals without a place, {faults} faults")
    return 1 if faults else 0


if __name__ == "__main__":
    sys.exit(main())
