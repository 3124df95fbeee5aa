"""tools/waves: what it writes is read again by readers of its formats that know nothing of the tool, and must be what
the program prints and the document says. A few files are compared byte by byte, and so are its statuses."""

import csv
import io
import itertools
import re
import subprocess
import sys
import tempfile
from dataclasses import dataclass, field
from functools import partial
from pathlib import Path

TOP = Path(__file__).resolve().parents[2]
WAVES = TOP / "tools" / "waves"
WANTED = Path(__file__).resolve().parent / "waves"

sys.path.insert(0, str(TOP / "tools"))

from canonical import read_document  # noqa: E402
from program import run_program  # noqa: E402
from waveforms.signals import occurrences_of, waves_of  # noqa: E402
from waveforms.tables import rows_of_task, wide_rows, write_rows  # noqa: E402
from waveforms.vcd import ONE_NANOSECOND, vcd_lines  # noqa: E402
from waveforms.viewer import save_lines  # noqa: E402

# The documents whose lines are read again, if `mean` accepts them.
FOLDERS = (
    "examples",
    "cases/mean/documents",
    "cases/mean/conditions",
    "cases/sim/documents",
    "cases/cpus/documents",
    "cases/run/documents",
    ".ci/tried/waves",
)

# What is compared byte by byte: the words of the call, a document, and the file with what is wanted.
WRITTEN = (
    ([], "examples/speed_control.dbp", "speed_control.vcd"),
    (["--command", "sim", "--tick", "10 us"], "examples/preempted.dbp", "preempted.vcd"),
    (["--tick", "250us"], "examples/preempted.dbp", "preempted.250us.vcd"),
    (["--format", "csv"], "examples/preempted.dbp", "preempted.lines.csv"),
    (["--command", "run", "--format", "csv", "--task", "filter"], "examples/speed_control.dbp", "filter.csv"),
    (["--format", "csv", "--wide"], "examples/speed_control.dbp", "speed_control.csv"),
    (["--tick", "1s"], "examples/heater.dbp", "heater.vcd"),
    (["--format", "csv", "--wide"], "examples/heater.dbp", "heater.csv"),
    (["--command", "sim", "--format", "csv", "--task", "stay_warm"], "examples/heater.dbp", "stay_warm.csv"),
    (["--command", "cpus"], "examples/cpus/pipeline.dbp", "pipeline.vcd"),
    (["--command", "cpus", "--format", "csv", "--wide"], "examples/cpus/pipeline.dbp", "pipeline.csv"),
    ([], ".ci/tried/waves/edges.dbp", "edges.vcd"),
    (["--format", "csv", "--wide"], ".ci/tried/waves/edges.dbp", "edges.csv"),
    ([], ".ci/tried/waves/nothing.dbp", "nothing.vcd"),
    (["--format", "csv", "--task", "a"], ".ci/tried/waves/named.dbp", "named.csv"),
    (["--format", "csv", "--wide"], ".ci/tried/waves/nothing.dbp", "nothing.csv"),
)

# Calls that write nothing: their words, their status, and what stands on standard error.
ENDED = (
    (["--command", "sim", "examples/sim/late.dbp"], 3, "overrun: log 2 at 8\n"),
    (["--command", "cpus", "examples/cpus/one_processor.dbp"], 3, "overrun: steer 2 at 8\n"),
    (["--command", "plan", "examples/two_rates.dbp"], 2, "usage: waves "),
    (["examples/refused/18_undelayed_upward.dbp"], 1, "refused: line 7: 18 UndelayedUpward\n"),
    (["examples/none.dbp"], 4, "waves: examples/none.dbp: No such file or directory\n"),
    (["-o", "examples/none/a.vcd", "examples/two_rates.dbp"], 5, "waves: examples/none/a.vcd: No such file"),
    (["--format", "csv", "-o", "README.md", "examples/two_rates.dbp"], 5, "waves: README.md: File exists\n"),
    (["--format", "csv", "--task", "c", "examples/two_rates.dbp"], 2, "waves: the document has no task c\n"),
    (["--wide", "examples/two_rates.dbp"], 2, "usage: waves "),
    (["--tick", "2", "examples/two_rates.dbp"], 2, "usage: waves "),
    (["--tick", "0ms", "examples/two_rates.dbp"], 2, "usage: waves "),
    (["--tick", "0.1fs", "examples/two_rates.dbp"], 2, "usage: waves "),
    (["--tick", "-5ms", "examples/two_rates.dbp"], 2, "usage: waves "),
    (["--tick", "100000000001s", "examples/two_rates.dbp"], 2, "usage: waves "),
    ([], 2, "usage: waves "),
)


@dataclass
class Dump:
    """What a VCD file says: names by code, then by name the kind, the bits and the first value; and the changes."""

    names: dict = field(default_factory=dict)
    kinds: dict = field(default_factory=dict)
    first: dict = field(default_factory=dict)
    changes: list = field(default_factory=list)
    end: int = 0


def read_declarations(words, dump):
    """Reads the words of a VCD file up to the end of its declarations."""
    scopes = []
    for word in words:
        parts = []
        for part in words:
            if part == "$end":
                break
            parts.append(part)
        if word == "$scope":
            scopes.append(parts[1])
        elif word == "$upscope":
            scopes.pop()
        elif word == "$var":
            kind, bits, code, name = parts
            dump.names[code] = ".".join([*scopes, name])
            dump.kinds[dump.names[code]] = kind, int(bits)
        elif word == "$enddefinitions":
            break


def read_dump(text):
    """Returns what a VCD file says."""
    dump = Dump()
    words = iter(text.split())
    read_declarations(words, dump)
    is_first = False
    for word in words:
        if word.startswith("#"):
            dump.end = int(word[1:])
        elif word.startswith("$"):
            is_first = word == "$dumpvars"
        else:
            name = dump.names[next(words) if word[0] == "b" else word[1:]]
            value = number_of(word[1:], *dump.kinds[name]) if word[0] == "b" else int(word[0])
            if is_first:
                dump.first[name] = value
            else:
                dump.changes.append((dump.end, name, value))
    return dump


def number_of(digits, kind, bits):
    """Returns the number that binary digits make, in two's complement if its kind has a sign."""
    value = int(digits, 2)
    return value - (1 << bits) if kind == "integer" and value >> (bits - 1) else value


def instance_row(names, scope, task):
    """Returns the name of the row of a task's instances, among the names of a scope: with `_` after it if an out is
    named so."""
    own = f"{scope}{task}_instance"
    return f"{own}_" if f"{own}_" in names else own


def lines_of_dump(dump):
    """Returns the lines of the tasks that a VCD file has: one for each change of a number of instances."""
    values, lines = dict(dump.first), []
    order = list(dict.fromkeys(name.split(".")[0] for name in values))
    for tick in dict.fromkeys(tick for tick, _, _ in dump.changes):
        now = {name: value for at, name, value in dump.changes if at == tick}
        values.update(now)
        for task in order:
            if instance_row(dump.first, f"{task}.", task) in now:
                lines.append(line_of(tick, task, values))
    return lines


def line_of(tick, task, values):
    """Returns the line of a task that `mean` prints, of the values of all signals."""
    own = [value for name, value in values.items() if re.match(rf"{task}(\.|_instance_?$)", name)]
    return ",".join(map(str, (tick, task, *own)))


@dataclass(frozen=True)
class Outside:
    """What a canonical text says of first values, and of the samples and the times of events of its trace."""

    first: dict
    samples: dict
    times: dict


def trace_rows(section):
    """Returns the rows of cells of what stands after the line `trace` of a canonical text."""
    kept = itertools.takewhile(lambda line: line.strip() not in ("script", "done"), section.splitlines())
    return [[cell.strip() for cell in line.split(",")] for line in kept]


def outside_of(form):
    """Returns what a canonical text says of values that come from outside, read without the tools' own reader."""
    diagram, _, section = form.partition("\ntrace\n")
    events = {f"trace.{name}": set() for name in re.findall(r"(?m)^event (\w+)$", diagram)}
    first, task = {}, "trace"
    for line in diagram.splitlines():
        task = line.split()[1] if line.startswith("task ") else task
        declared = re.match(r"(?:input|  out) (\w+) = (-?\d+)", line)
        if declared:
            first[f"{task}.{declared[1]}"] = int(declared[2])
    samples = {name: {} for name in first if name.startswith("trace.")}
    header, *rows = trace_rows(section) or [[]]
    for row in rows:
        for name, cell in zip(header[1:], row[1:]):
            if cell and f"trace.{name}" in samples:
                samples[f"trace.{name}"][int(row[0])] = int(cell)
            elif cell == "1":
                events[f"trace.{name}"].add(int(row[0]))
    return Outside(first, samples, events)


def ticks_at_one(dump, name):
    """Returns the ticks at which a signal of one bit is 1."""
    ticks, since = set(), None
    for tick, other, value in dump.changes:
        if other == name:
            ticks |= set(range(since, tick)) if since is not None else set()
            since = tick if value else None
    return ticks if since is None else ticks | set(range(since, dump.end))


def fault_of_dump(waves, lines, outside, until):
    """Returns what a VCD file says differently than the program and the document."""
    dump = read_dump("".join(vcd_lines(waves, "mean")))
    if len(dump.names) != len(dump.kinds) or not re.fullmatch("[!-~]+", "".join(dump.names) or "!"):
        return f"the codes of the VCD file are {list(dump.names)}"
    if lines_of_dump(dump) != lines:
        return f"the lines of the VCD file are {lines_of_dump(dump)[:9]}"
    if dump.end != until or set(dump.first) != set(dump.kinds):
        return f"the VCD file ends at {dump.end} and has the first values {dump.first}"
    if {name: value for name, value in outside.first.items() if dump.first[name] != value}:
        return f"the first values of the VCD file are {dump.first}"
    for name, samples in outside.samples.items():
        if {tick: value for tick, other, value in dump.changes if other == name} != samples:
            return f"the VCD file has other samples of {name}"
    for name, times in outside.times.items():
        if ticks_at_one(dump, name) != times or dump.kinds[name] != ("wire", 1):
            return f"the VCD file has other times of {name}"
    return None


def fault_of_save(waves):
    """Returns the rows of a save file, if one isn't in its VCD file, or it has neither all nor 48 of them at most."""
    dump = read_dump("".join(vcd_lines(waves, "mean")))
    bits = {name: f"{name}[63:0]" if kind == "integer" else name for name, (kind, _) in dump.kinds.items()}
    rows = [line.strip() for line in save_lines(waves, "a.vcd", ONE_NANOSECOND) if line[0] not in "@*-["]
    is_all = sorted(rows) == sorted(bits.values())
    is_part = len(bits) > 48 >= len(rows) > 0 and set(rows) <= set(bits.values())
    return None if is_all or is_part else f"the save file has {rows}"


def read_table(rows):
    """Returns the rows of a table that is written and read again, each a dictionary by column."""
    sink = io.StringIO()
    write_rows(rows, sink)
    return list(csv.DictReader(io.StringIO(sink.getvalue())))


def fault_of_task_tables(document, occurrences, lines):
    """Returns what the tables of the tasks say differently than the program."""
    found = []
    for place, task in enumerate(document.tasks):
        for row in read_table(rows_of_task(task, occurrences)):
            tick, *values = row.values()
            found.append((int(tick), place, ",".join((tick, task.name, *values))))
            own = instance_row(row, "", task.name)
            if list(row) != ["tick", own, *(f"{task.name}.{out.name}" for out in task.outs)]:
                return f"the columns are {list(row)}"
    again = [line for _, _, line in sorted(found)]
    return None if again == lines else f"the lines of the tables are {again[:9]}"


def fault_of_wide_table(waves, lines, outside):
    """Returns what the wide table says differently than the program and the document."""
    last, found = {signal.full_name: str(signal.first) for signal in waves.signals}, []
    tasks = dict.fromkeys(signal.scope for signal in waves.signals if signal.scope != "trace")
    rows = {task: instance_row(last, "", task) for task in tasks}
    samples = {name: outside.first[name] for name in outside.samples}
    for row in read_table(wide_rows(waves)):
        tick = int(row.pop("tick"))
        found += [line_of(tick, task, row) for task in tasks if row[rows[task]] != last[rows[task]]]
        samples.update({name: rows[tick] for name, rows in outside.samples.items() if tick in rows})
        wanted = {**samples, **{name: int(tick in times) for name, times in outside.times.items()}}
        if {name: row[name] for name in wanted} != {name: str(value) for name, value in wanted.items()}:
            return f"the wide table has at {tick} {row}"
        last = row
    return None if found == lines else f"the lines of the wide table are {found[:9]}"


def fault_of_document(program, text):
    """Returns what the files of a document say differently than the program and the document."""
    printed, form = run_program(program, ["mean"], text).stdout, run_program(program, ["form"], text).stdout
    lines, outside = printed.decode().splitlines(), outside_of(form.decode())
    diagram, occurrences = read_document(form), occurrences_of(printed)
    waves = waves_of(diagram, occurrences)
    return (
        fault_of_dump(waves, lines, outside, diagram.until)
        or fault_of_save(waves)
        or fault_of_task_tables(diagram, occurrences, lines)
        or fault_of_wide_table(waves, lines, outside)
    )


def call(program, words):
    """Runs the tool at the top of the repository."""
    command = [sys.executable, WAVES, "--program", program, *words]
    return subprocess.run(command, cwd=TOP, stdin=subprocess.DEVNULL, capture_output=True, check=False)


def fault_of_written(program, words, document, wanted):
    """Returns how what the tool writes differs from a file, or nothing."""
    ran = call(program, [*words, document])
    if ran.returncode or ran.stderr:
        return f"the status is {ran.returncode}; it said {ran.stderr.decode()[:300]!r}"
    return None if ran.stdout == (WANTED / wanted).read_bytes() else f"it wrote {ran.stdout.decode()[:300]!r}"


def fault_of_ended(program, words, status, text):
    """Returns how the end of a call that writes nothing differs from what is wanted, or nothing."""
    ran = call(program, words)
    is_wanted = ran.returncode == status and ran.stdout == b"" and ran.stderr.decode().startswith(text)
    return None if is_wanted else f"the status is {ran.returncode}; it said {ran.stderr.decode()[:300]!r}"


def fault_of_folder(program):
    """Returns what differs in the files that the tool writes for all tasks, or nothing."""
    with tempfile.TemporaryDirectory() as place:
        folder = Path(place) / "new" / "tables"
        ran = call(program, ["--format", "csv", "-o", str(folder), "examples/speed_control.dbp"])
        names = sorted(it.name for it in folder.iterdir()) if folder.is_dir() else []
        if ran.returncode or ran.stdout or names != ["brake.csv", "control.csv", "filter.csv"]:
            return f"the status is {ran.returncode}; the files are {names}"
        is_wanted = (folder / "filter.csv").read_bytes() == (WANTED / "filter.csv").read_bytes()
        return None if is_wanted else "filter.csv differs from that of --task filter"


def fault_of_saved(program):
    """Returns what differs in the save file beside a VCD file, or nothing: a user's own one stays."""
    with tempfile.TemporaryDirectory() as place:
        out, saved = Path(place) / "a name.vcd", Path(place) / "a name.gtkw"
        command = ["--tick", "20us", "-o", str(out), "examples/speed_control.dbp"]
        for before, is_kept in ((None, False), ("[*] GTKWave Analyzer\n", True), ("[*] written by tools/waves\n", False)):
            if before is not None:
                saved.write_text(before)
            ran = call(program, command)
            if ran.returncode or ran.stdout or ran.stderr:
                return f"the status is {ran.returncode}; it said {ran.stderr.decode()[:300]!r}"
            found = saved.read_text()
            if found != (before if is_kept else (WANTED / "speed_control.gtkw").read_text()):
                return f"the save file is {found[:600]!r} after {before!r}"
    return None


def most_signals():
    """Returns a document with as many signals as there can be."""
    heads = [f"input i{number} = {number}\nevent e{number}\n" for number in range(16)]
    outs = "".join(f"  out y{number} = -{number} then n * {number} - 9\n" for number in range(8))
    body = f"  state n = 0\n  next n = n + 1\n{outs}"
    tasks = [f"task t{number} every {number + 3} from 1 prio 1 cost 1\n{body}" for number in range(32)]
    return "".join(["dbp 1\npolicy fp\nuntil 40\n", *heads, *tasks, "done\n"]).encode()


def accepted_documents(program):
    """Yields the name and the text of each document that `mean` accepts, and of one more."""
    for folder in FOLDERS:
        for document in sorted((TOP / folder).rglob("*.dbp")):
            text = document.read_bytes()
            if run_program(program, ["mean"], text).status == 0:
                yield document.relative_to(TOP), text
    yield "as many signals as there can be", most_signals()


def trials(program):
    """Yields the trials of the tool, each a name and a call that returns what differs, or None."""
    for name, text in accepted_documents(program):
        yield f"{name}, read again", partial(fault_of_document, program, text)
    for words, document, wanted in WRITTEN:
        yield " ".join([*words, document]), partial(fault_of_written, program, words, document, wanted)
    for words, status, text in ENDED:
        yield f"{status}: {' '.join(words)}", partial(fault_of_ended, program, words, status, text)
    missing = ["--program", "examples/none", "examples/two_rates.dbp"]
    yield "70: no program", partial(fault_of_ended, program, missing, 70, "waves: examples/none: No such file")
    yield "a table of each task", partial(fault_of_folder, program)
    yield "a save file", partial(fault_of_saved, program)
