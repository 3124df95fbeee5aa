"""tools/trace: what it writes of drawn logs is what a second computation by fractions gives, with the same lines told; the
program accepts it; a table of tools/waves gives the trace back; and hostile logs end it as docs/TOOLS.md says."""

import csv
import io
import math
import random
import re
import subprocess
import sys
import tempfile
from dataclasses import dataclass
from fractions import Fraction
from functools import partial
from pathlib import Path

TOP = Path(__file__).resolve().parents[2]
sys.path[:0] = [str(TOP / "tools"), str(TOP / ".ci")]

from awaited import SECONDS  # noqa: E402
from canonical import read_document  # noqa: E402
from ending import Ended, Status  # noqa: E402
from program import run_program  # noqa: E402
from tracing.command import options_of, section_of  # noqa: E402
from tracing.placing import with_section  # noqa: E402

GREATEST = 2**63 - 1
LOGS, HOSTILE = 200, 200  # that are drawn
EXAMPLE, LOG = "examples/greenhouse.dbp", "examples/greenhouse.csv"
EXAMPLE_WORDS = ["--tick", "500ms", "--scale", "temperature=10", LOG, EXAMPLE]
LAST_LINE = re.compile(rb"(?m)^([ \t]*(?:script|done))[ \t]*(#.*?)?(\r?)$")

# The lengths of a tick, and its seconds.
TICKS = {"1ms": Fraction(1, 1000), "2.5 ms": Fraction(5, 2000), "3s": Fraction(3), "7us": Fraction(7, 10**6),
         "0.3s": Fraction(3, 10), "1s": Fraction(1), "125fs": Fraction(125, 10**15)}
FACTORS = {"10": Fraction(10), "0.1": Fraction(1, 10), "-2.5": Fraction(-5, 2), "1e3": Fraction(1000), "3": Fraction(3)}
SEPARATORS = {",": ",", ";": ";", "tab": "\t", "|": "|", " ": " ", ":": ":"}
FOUND = ",;\t| "  # which the tool finds by itself
ENDLESS = object()  # what no fraction is, above all numbers
WORDS = {"": None, "NaN": None, "n/a": None, "1_0": None, "0x10": None, "--5": None, "1e99999": None, "\u0663": None,
         "true": Fraction(1), "FALSE": Fraction(0), "inf": ENDLESS, "1e999": Fraction(10) ** 999,
         "-1e999": -(Fraction(10) ** 999), "9223372036854775807.4": GREATEST + Fraction(2, 5),
         "9223372036854775807.5": GREATEST + Fraction(1, 2), "-9223372036854775808.49": -GREATEST - Fraction(149, 100),
         "-9223372036854775808.5": -GREATEST - Fraction(3, 2), "1e-999": Fraction(1, 10**999)}

# What is told of a line, by a part of its text.
KINDS = {" is rounded to ": "rounded", " is outside of 64 bits": "saturated", " is no number": "no number",
         "isn't 0: the event occurs": "occurs", " is dropped for ": "outdone", " is no time": "no time",
         "no time stands here": "no time", " is before tick 0": "before", "isn't before the end": "past",
         ", and the header ": "cells"}


@dataclass(frozen=True)
class Cell:
    """What stands in a log: its text, and the number that it is, if any."""

    text: str
    number: object


@dataclass(frozen=True)
class Row:
    """A row of a log: the line at which it begins, its time, and a cell for each name; it may have other cells."""

    line: int
    time: Cell
    cells: dict
    has_other_cells: bool


@dataclass(frozen=True)
class Drawn:
    """A drawn log: its bytes, the words of the call, the document, and what the log says."""

    log: bytes
    words: list
    document: str
    until: int
    inputs: dict
    events: list
    factors: dict
    tick: Fraction
    start: Fraction
    rows: list


def away(number):
    """Returns the nearest whole number, halves away from 0."""
    size = math.floor(abs(number) + Fraction(1, 2))
    return size if number >= 0 else -size


def place(row, it, told):
    """Returns the tick of a row, or nothing if it is dropped, and keeps what must be told."""
    if row.has_other_cells:
        told.add((row.line, "row", "cells"))
        return None
    if row.time.number is None or row.time.number is ENDLESS:
        told.add((row.line, "time", "no time"))
        return None
    ticks = (row.time.number - it.start) / it.tick
    tick = away(ticks)
    if not 0 <= tick < it.until:
        told.add((row.line, "time", "before" if tick < 0 else "past"))
        return None
    if tick != ticks:
        told.add((row.line, "time", "rounded", tick))
    return tick


def value_of(number, factor, line, name, told):
    """Returns the whole number of 64 bits that stands for a number times a factor, and keeps what must be told."""
    if number is ENDLESS:
        value = GREATEST if factor > 0 else -GREATEST - 1
        told.add((line, name, "saturated", value))
        return value
    nearest = away(number * factor)
    value = min(GREATEST, max(-GREATEST - 1, nearest))
    if value != nearest:
        told.add((line, name, "saturated", value))
    if abs(number * factor) < 10**20 and nearest != number * factor:
        told.add((line, name, "rounded", value))
    return value


def samples_of(it, name, ticks, told):
    """Returns the last value of an input at each tick that has one."""
    found = {}
    for row, tick in ticks:
        cell = row.cells[name]
        if cell.number is None:
            told.update({(row.line, name, "no number")} if cell.text else ())
            continue
        value = value_of(cell.number, it.factors.get(name, Fraction(1)), row.line, name, told)
        line, before = found.get(tick, (row.line, value))
        if before != value:
            told.add((line, name, "outdone"))
        found[tick] = row.line, value
    return {tick: value for tick, (_, value) in found.items()}


def occurrences_of(name, ticks, told):
    """Returns the ticks at which an event occurs."""
    found = set()
    for row, tick in ticks:
        cell = row.cells[name]
        if cell.number is None and cell.text:
            told.add((row.line, name, "no number"))
        if cell.number is None or cell.number == 0:
            continue
        if cell.number != 1:
            told.add((row.line, name, "occurs"))
        if tick in found:
            told.add((row.line, name, "outdone"))
        found.add(tick)
    return found


def wanted_of(it):
    """Returns the lines of the section that a log must give, and what must be told of its lines."""
    told = set()
    ticks = [(row, tick) for row in it.rows for tick in [place(row, it, told)] if tick is not None]
    columns = {}
    for name, first in it.inputs.items():
        columns[name], last = {}, first
        for tick, value in sorted(samples_of(it, name, ticks, told).items()):
            if value != last:
                columns[name][tick] = last = value
    for name in it.events:
        columns[name] = {tick: 1 for tick in occurrences_of(name, ticks, told)}
    rows = sorted({tick for column in columns.values() for tick in column})
    cells = [[tick, *(column.get(tick, "") for column in columns.values())] for tick in rows]
    return ["trace", ",".join(["time", *columns]), *(",".join(map(str, row)) for row in cells)], told


def told_in(lines):
    """Returns what lines of the tool tell of lines of the log."""
    found = set()
    for line in lines:
        place = re.match(r"[^:\n]*:(\d+): (\w+): ", line)
        if place:
            kind = next((kind for part, kind in KINDS.items() if part in line), line)
            value = [int(re.findall(r"-?\d+$", line.strip())[0])] if kind in ("rounded", "saturated") else []
            found.add((int(place[1]), place[2], kind, *value))
    return found


def spelled(draw, digits, power):
    """Returns a number, digits times a power of ten, as one of the ways in which logs write it."""
    number = digits * Fraction(10) ** power
    sign, size = "-" if digits < 0 else draw.choice(("", "", "", "+")), abs(digits)
    if draw.random() < 0.2:
        return Cell(f"{sign}{size}{draw.choice('eE')}{draw.choice(('', '+')) if power >= 0 else ''}{power}", number)
    if power >= 0:
        return Cell(f"{sign}{size * 10**power}{draw.choice(('', '', '.', '.0'))}", number)
    text = f"{size:0{1 - power}}"
    whole, part = text[:power], text[power:]
    return Cell(f"{sign}{'' if whole == '0' and draw.random() < 0.2 else whole}.{part}", number)


def drawn_cell(draw):
    """Returns what may stand under an input or an event."""
    if draw.random() < 0.25:
        return Cell(*draw.choice([*WORDS.items()]))
    if draw.random() < 0.5:
        return spelled(draw, draw.randint(-3, 3), 0)
    return spelled(draw, draw.randint(-5000, 5000), draw.randint(-4, 2))


def drawn_times(draw, tick, start, until, count):
    """Returns times that rise, some of them before tick 0, some past the end, each a decimal number."""
    tenth = Fraction(1, 10**17)
    found = []
    for _ in range(count):
        near = start + tick * Fraction(draw.randint(-4, 2 * until + 6), 2) + draw.choice((0, 0, 0, tick / 10, -tick / 5))
        found.append(near - near % tenth)
    return sorted(found)


def time_cell(draw, time):
    """Returns the cell of a time."""
    digits, power = time.numerator * 10**17 // time.denominator, -17
    while power < 0 and digits % 10 == 0:
        digits, power = digits // 10, power + 1
    return spelled(draw, digits, power)


def cell_text(draw, text, separator):
    """Returns the text of a cell with blanks or quotes around it, or with a comma for its point."""
    if separator != "," and draw.random() < 0.5 and text.count(".") == 1:
        text = text.replace(".", ",")
    if separator in text or "\n" in text or draw.random() < 0.2 or text[:1] == '"' or (separator == " " and not text):
        text = '"' + text.replace('"', '""') + '"'
        return text
    return text if separator == " " else draw.choice(("", "", " ")) + text + draw.choice(("", "", "  "))


def drawn_rows(draw, names, times, separator):
    """Yields the cells of the rows of a log, in the order of the columns, and what they say but for their lines."""
    for time in times:
        shown = Cell(*draw.choice([*WORDS.items()][1:8])) if draw.random() < 0.05 else time
        cells = {name: drawn_cell(draw) for name in names}
        if separator == " ":
            cells = {name: it if it.text else Cell("NaN", None) for name, it in cells.items()}
        more = draw.choice(("9", "x", "two\nlines", 'a "b"'))
        has_other = draw.random() < 0.05
        yield [shown, *cells.values(), Cell(more, None)] + [Cell("1", 1)] * has_other, shown, cells, has_other


def log_text(draw, names, times, separator):
    """Returns the text of a log with these columns and one more, and its rows."""
    end = draw.choice(("\n", "\r\n"))
    header = [Cell(name, None) for name in ["time", *names, draw.choice(("other", 'the; "rest", of|it'))]]
    lines, rows, line, at = [], [], 1, draw.randint(0, len(names))  # where the time stands
    parts = [(header, None, None, None), *drawn_rows(draw, names, times, separator)]
    for cells, time, found, has_other in parts:
        cells[0], cells[at] = cells[at], cells[0]
        text = separator.join(cell_text(draw, it.text, separator) for it in cells).replace("\n", end)
        if time is not None:
            rows.append(Row(line, time, found, has_other))
        lines.append(text + end * draw.choice((1, 1, 1, 2)))
        line += lines[-1].count("\n")
    return "".join(lines), rows


def drawn(seed):
    """Returns a log that is drawn from a number, and a document for it."""
    draw = random.Random(seed)
    until, count = draw.randint(1, 40), draw.randint(0, 60)
    inputs = {f"i{number}": draw.randint(-3, 3) for number in range(draw.randint(0, 4))}
    events = [f"e{number}" for number in range(draw.randint(0 if inputs else 1, 3))]
    length, tick = draw.choice([*TICKS.items()])
    start = draw.choice(("0", "0", "-12.25", "1e3"))
    name, separator = draw.choice([*SEPARATORS.items()])
    given = {it: draw.choice([*FACTORS]) for it in inputs if draw.random() < 0.4}
    names = [*inputs, *events]
    draw.shuffle(names)
    times = [time_cell(draw, it) for it in drawn_times(draw, tick, Fraction(start), until, count)]
    text, rows = log_text(draw, names, times, separator)
    encoding = draw.choice(("utf-8", "utf-8", "utf-8-sig", "utf-16"))
    words = ["--all", "--tick", length, "--start", start, *(f"--scale={it}={factor}" for it, factor in given.items())]
    if separator not in FOUND or draw.random() < 0.2:
        words += ["--separator", name]
    declared = [*(f"input {it} = {first}" for it, first in inputs.items()), *(f"event {it}" for it in events)]
    task = ["task a every 50 prio 1 cost 1", "  out y = 0 then 1", "done", ""]
    document = "\n".join(["dbp 1", "policy fp", f"until {until}", *declared, *task])
    factors = {it: FACTORS[factor] for it, factor in given.items()}
    return Drawn(text.encode(encoding), words, document, until, inputs, events, factors, tick, Fraction(start), rows)


def made_of(program, log, words, document):
    """Returns the lines of the section that the tool makes of a log, and what it tells."""
    with tempfile.TemporaryDirectory() as folder:
        file = Path(folder) / "log.csv"
        file.write_bytes(log)
        options = options_of(["--program", str(program), *words, str(file), "none.dbp"])
        section, told = section_of(options, read_document(run_program(program, ["form"], document).stdout))
        return section.lines(), told


def fault_of_drawn(program, seeds):
    """Returns the first drawn log of which something else is made or told than the second computation says."""
    for seed in seeds:
        it = drawn(seed)
        document = it.document.encode()
        lines, told = made_of(program, it.log, it.words, document)
        wanted, wanted_told = wanted_of(it)
        if lines != wanted:
            pair = next((pair for pair in zip([*lines, ""], [*wanted, ""]) if pair[0] != pair[1]), None)
            return f"log {seed}: {pair} are a line and the one that is wanted"
        if told_in(told) != wanted_told:
            return f"log {seed}: told or wanted alone is {sorted(told_in(told) ^ wanted_told, key=str)[:4]}"
        ran = run_program(program, ["plan"], with_section(document, lines))
        if ran.status:
            return f"log {seed}: the program ends with {ran.status}: {ran.stdout[:200]!r}"
    return None


def fault_of_hostile(program, seeds):
    """Returns a log of drawn bytes that ends the tool by anything but a refusal with its line."""
    document = (TOP / EXAMPLE).read_bytes()
    parts = [b"time", b"temperature", b"door", b",", b";", b"\n", b"\r", b"\r\n", b'"', b"0", b"1e9", b"-5", b".5", b"\0",
             b"\xff", b"\xef\xbb\xbf", b" ", b"\t", b"nan", b"inf", b"1e9999", b"1e-9999", b"\xe9", "\u2028".encode()]
    for seed in seeds:
        draw = random.Random(seed)
        start = draw.choice((b"time,temperature,door\n", b"time;temperature\n", b"", b"\xff\xfe", b"\xfe\xff\0t"))
        log = start + b"".join(draw.choice(parts) for _ in range(draw.randint(0, 60)))
        try:
            lines, _ = made_of(program, log, ["--tick", "1s"], document)
        except Ended as ended:
            if ended.status != Status.REFUSED or not re.search(r"log\.csv:\d+: ", str(ended)):
                return f"{log!r} ends it by {ended!r}"
            continue
        ran = run_program(program, ["plan"], with_section(document, lines))
        if ran.status:
            return f"{log!r}: the program ends with {ran.status}: {ran.stdout[:200]!r}"
    return None


def call(program, words, text=b"", **how):
    """Runs the tool at the top of the repository."""
    command = [sys.executable, "-B", TOP / "tools" / "trace", "--program", program, *words]
    how = {"cwd": TOP, "input": text, "capture_output": True, "timeout": SECONDS, **how}
    return subprocess.run(command, check=False, **how)


def without_section(text):
    """Returns the text of a document without its trace section."""
    return re.sub(rb"(?ms)^[ \t]*trace[ \t]*(?:#[^\n]*)?\r?\n.*?(?=^[ \t]*(?:script|done)[ \t]*\r?$)", b"", text, count=1)


def fault_of_places(program):
    """Returns a document in which a section doesn't take the place of the old one, or is no first one."""
    section, count = ["trace", "time", "0"], 0
    files = [it for folder in ("examples", "cases", ".ci/tried") for it in sorted((TOP / folder).rglob("*.dbp"))]
    for file in files:
        text = file.read_bytes()
        parts = re.split(rb"(?m)^[ \t]*script[ \t]*\r?$", text)
        ran = run_program(program, ["form"], text)
        if ran.status or b"trace" in b"".join(parts[1:]):
            continue
        count += 1
        made = with_section(text, section)
        end = b"\r\n" if text.split(b"\n")[0].endswith(b"\r") else b"\n"
        rows = b"".join(it.encode() + end for it in section[1:])
        rest, is_first = without_section(text), without_section(text) == text
        if is_first:  # the line that ends the new section has no comment any more: that stands above
            rest = LAST_LINE.sub(lambda it: b"%s%s\n%s%s" % it.group(2, 3, 1, 3) if it[2] else it[0], rest, count=1)
        if rows not in made or rest != without_section(made) or is_first and b"\ntrace" + end not in made:
            return f"{file.relative_to(TOP)} becomes {made[-300:]!r}"
        form = run_program(program, ["form"], made).stdout
        if b"\ntrace\ntime\n0\n" not in form or without_section(form) != without_section(ran.stdout):
            return f"{file.relative_to(TOP)} means {form[-300:]!r} then"
    return None if count > 100 else f"{count} documents alone were tried"


def trace_of(form):
    """Returns the inputs with their first values, the events, and the rows of the trace of a canonical text."""
    inputs = {name: int(first) for name, first in re.findall(r"(?m)^input (\w+) = (-?\d+)$", form)}
    found = re.search(r"(?s)\ntrace\n(.*?)\n(?:script|done)\n", form)
    header, *rows = [[cell.strip() for cell in line.split(",")] for line in found[1].split("\n")] if found else [["time"]]
    return inputs, re.findall(r"(?m)^event (\w+)$", form), header, rows


def section_again(form):
    """Returns the trace of a canonical text as the tool must write it, by the second computation."""
    inputs, events, header, rows = trace_of(form)
    found = []
    for line, row in enumerate(rows, 2):
        cells = {name: Cell(text, int(text) if text else None) for name, text in zip(header[1:], row[1:])}
        cells.update({name: Cell("", None) for name in [*inputs, *events] if name not in cells})
        found.append(Row(line, Cell(row[0], Fraction(row[0])), cells, False))
    until = int(re.search(r"(?m)^until (\d+)$", form)[1])
    return wanted_of(Drawn(b"", [], form, until, inputs, events, {}, Fraction(1), Fraction(0), found))[0]


def fault_of_round_trip(program, file):
    """Returns how a document differs whose trace is made again of its table of all signals."""
    text = file.read_bytes()
    form = run_program(program, ["form"], text).stdout.decode()
    inputs, events, _, _ = trace_of(form)
    command = [sys.executable, "-B", TOP / "tools" / "waves", "--program", program, "--format", "csv", "--wide", file]
    table = subprocess.run(command, capture_output=True, check=True).stdout
    named = [f"--input={name}=trace.{name}" for name in inputs] + [f"--event={name}=trace.{name}" for name in events]
    ran = call(program, ["--tick", "1s", "--time", "tick", *named, "-", str(file)], table)
    columns = [it for it in next(csv.reader(io.StringIO(table.decode())))[1:] if not it.startswith("trace.")]
    said = f"-: no input or event for the column {', '.join(f'`{it}`' for it in columns)}\n"
    if ran.returncode or ran.stderr.decode() != said:
        return f"the status is {ran.returncode}; it said {ran.stderr[:300]!r}"
    again = run_program(program, ["form"], ran.stdout).stdout.decode()
    wanted = "\n".join(["", *section_again(form), ""])
    if wanted not in again:
        return f"the trace is {again[again.find('trace'):][:300]!r}"
    before, after = (run_program(program, ["mean"], it).stdout for it in (text, ran.stdout))
    return None if before == after else "the lines of `mean` differ"


# Documents and logs of the calls below.
TANK = """dbp 1
policy fp
until {until}
input level = 50{end}
input flow = 0
event knock
task watch every {period} prio 1 cost 1
  sense now = level  # in millimetres
  out seen = 0 then now
{last}done
"""
HEADER = b"time,level,knock\n"
QUIET = b"time,level,flow,knock\n0.002,51,0,1\n"

# What stands in a log, the words of a call, the section that is wanted, and what is told.
SECTIONS = {
    "nothing to tell": (QUIET, [], "time,level,flow,knock\n2,51,,1\n", ""),
    "the section alone": (QUIET, ["--section"], "time,level,flow,knock\n2,51,,1\n", ""),
    "what is missing": (b"time,level\n0,5\n", [], "time,level\n0,5\n",
                        "log: no column for the input `flow`: the first value stays\n"
                        "log: no column for the event `knock`: it never occurs\n"),
    "what is left over": (b"a,time,level,flow,knock,,b c\n9,0,5,0,0,,\n", [], "time,level,flow,knock\n0,5,,\n",
                          "log: no input or event for the column `a`, `b c`\n"),
    "rows that change nothing": (b"time,level,flow,knock\n0,50,0,0\n0.001,50,0,\n0.002,51,0,\n0.003,51,0,0\n0.004,51,1,0\n",
                                 [], "time,level,flow,knock\n2,51,,\n4,,1,\n", ""),
    "halves": (b"time,level,flow,knock\n0.0005,0.5,-0.5,0\n0.0014,1.5,-1.5,0\n", ["--all"],
               "time,level,flow,knock\n1,2,-2,\n",
               "log:2: time: `0.0005` is rounded to tick 1\nlog:3: time: `0.0014` is rounded to tick 1\n"
               "log:2: level: `0.5` is rounded to 1\nlog:3: level: `1.5` is rounded to 2\n"
               "log:2: flow: `-0.5` is rounded to -1\nlog:3: flow: `-1.5` is rounded to -2\n"
               "log:2: level: 1 of tick 1 is dropped for 2 of line 3\n"
               "log:2: flow: -1 of tick 1 is dropped for -2 of line 3\n"),
    "two events in a tick": (b"time,level,flow,knock\n0.003,,,1\n0.0031,,,1\n0.0032,,,0\n", [],
                             "time,level,flow,knock\n3,,,1\n",
                             "log:3: time: `0.0031` is rounded to tick 3\nlog:4: time: `0.0032` is rounded to tick 3\n"
                             "log:3: knock: the occurrence of line 2 is dropped for this one of the same tick, 3\n"),
    "many of a kind": (b"time,level,flow,knock\n" + b"".join(b"0.00%d,5.2,,\n" % number for number in range(8)), [],
                       "time,level,flow,knock\n0,5,,\n",
                       "log:2: level: `5.2` is rounded to 5\nlog:3: level: `5.2` is rounded to 5\n"
                       "log:4: level: `5.2` is rounded to 5\nlog: level: 5 more in lines 5 to 9: rounded\n"),
    "one more of a kind": (b"time,level,flow,knock\n" + b"".join(b"0.00%d,x,,\n" % number for number in range(4)), [],
                           "time,level,flow,knock\n",
                           "log:2: level: `x` is no number: it gives no value\n"
                           "log:3: level: `x` is no number: it gives no value\n"
                           "log:4: level: `x` is no number: it gives no value\nlog: level: 1 more in line 5: no number\n"),
    "rows that are dropped": (b"time,level,flow,knock\n-0.001,1,,\n,2,,\nnan,3,,\n0.001,4\n0.02,5,,\n1e999,6,,\ninf,7,,\n",
                              ["--all"], "time,level,flow,knock\n",
                              "log:2: time: `-0.001` is before tick 0: the row is dropped\n"
                              "log:3: time: no time stands here: the row is dropped\n"
                              "log:4: time: `nan` is no time: the row is dropped\n"
                              "log:8: time: `inf` is no time: the row is dropped\n"
                              "log:5: row: it has 2 cells, and the header 4: it is dropped\n"
                              "log:6: time: `0.02` isn't before the end, `until 20`: the row is dropped\n"
                              "log:7: time: `1e999` isn't before the end, `until 20`: the row is dropped\n"),
    "the ends of values": (b"time,level,flow,knock\n0,1e999,-inf,\n0.001,9223372036854775807,-9223372036854775808,\n", [],
                           "time,level,flow,knock\n0,9223372036854775807,-9223372036854775808,\n",
                           "log:2: level: `1e999` is outside of 64 bits: it becomes 9223372036854775807\n"
                           "log:2: flow: `-inf` is outside of 64 bits: it becomes -9223372036854775808\n"),
    "a binary float's fault": (b"time,level,flow,knock\n0.3,0.29,1.005,\n", ["--tick=0.1s", "--scale=level=100", "--scale=flow=1000"],
                               "time,level,flow,knock\n3,29,1005,\n", ""),
    "many digits": (b"time,level,flow,knock\n0.0014%s,2.4%s,1e-9999,\n" % (b"9" * 99, b"9" * 99),
                    ["--scale=level=1.0", "--start=-1e-9999", "--section"], "time,level,flow,knock\n1,2,,\n",
                    f"log:2: time: `0.0014{'9' * 34}..` is rounded to tick 1\n"
                    f"log:2: level: `2.4{'9' * 37}..` times 1.0 is rounded to 2\n"
                    "log:2: flow: `1e-9999` is rounded to 0\n"),
    "decimal commas": (b"\xef\xbb\xbftime;level;flow;knock\r\n0,001;5,0;\"1,0\";0\r\n", [],
                       "time,level,flow,knock\n1,5,1,\n", ""),
    "commas of thousands": (b'time,level,flow,knock\n0,"1,000",2,\n', [], "time,level,flow,knock\n0,,2,\n",
                            "log:2: level: `1,000` is no number: it gives no value\n"),
    "blanks": (b" time   level flow  knock\n\n 0      +5.  .0   TRUE \n", [], "time,level,flow,knock\n0,5,,1\n", ""),
    "another name of the times": (b"Time (s);level;flow;knock\n0,001;5;0;0\n", [], "time,level,flow,knock\n1,5,,\n",
                                  "log: the times are those of the first column, `Time (s)`\n"),
    "columns by words": (b"Level [mm]\tt\tknock \"A\"\ttime\n7\t0.5\t2\t9\n",
                         ["--input=level=Level [mm]", "--event=knock=knock \"A\"", "--time=t", "--start=0.499"],
                         "time,level,knock\n1,7,1\n",
                         "log: no column for the input `flow`: the first value stays\n"
                         "log: no input or event for the column `time`\n"
                         "log:2: knock: `2` isn't 0: the event occurs\n"),
}

# What stands in a log, the words of a call, its status, and what is said of it.
ENDED = {
    "an empty log": (b"", [], 1, "log:1: the log is empty; "),
    "blank lines": (b"\n \r\n\n", [], 1, "log:1: the log is empty; "),
    "one MiB of bytes of all kinds": (bytes(range(256)) * 4096, [], 1, "log:1: "),
    "one MiB of zeros": (b"\0" * 2**20, [], 1, "log:1: "),
    "a line of two MiB": (b"time,level\n0," + b"5" * 2**21, [], 1, "log:2: the line has more than 1,048,576 characters\n"),
    "a cell of one MiB": (b"time,level\n0," + b"5" * 2**19, [], 1, "log:2: it can't be read as a table: field larger"),
    "a quote that is left open": (b'time,level\n0,1\n1,"5\n2,6\n', [], 1, "log:3: it can't be read as a table: "),
    "times that fall": (b"time,level\n0,1\n,9\n0.002,1\n0.0019,1\n", [], 1,
                        "log:5: the time `0.0019` comes before that of line 4\n"),
    "times that fall past the end": (b"time,level\n9,1\n8,1\n", [], 1, "log:3: the time `8` comes before that of line 2\n"),
    "other names": (b"\n\nwhen,who\n1,2\n", [], 1,
                    "log:3: no column has the name of an input or an event; this row has `when` and `who`\n"),
    "no time": (b"level,knock\n1,1\n", [], 1, "log:1: no column is `time`; --time names the one with the times\n"),
    "a name twice": (b"time,level,level\n", [], 1, "log:1: two columns have the name `level`\n"),
    "a factor of an event": (HEADER, ["--scale=knock=2"], 2, "the document has no input `knock`\n"),
    "no such event": (HEADER, ["--event=level=knock"], 2, "the document has no event `level`\n"),
    "no such column": (HEADER, ["--event=knock=Knock"], 2, "log has no column `Knock`; it has `time`, `level` and `knock`\n"),
    "no factor": (HEADER, ["--scale=level=nan"], 2, "argument --scale: it is a number, as 12 or -0.5\n"),
    "the factor 0": (HEADER, ["--scale=level=0.0"], 2, "argument --scale: a factor isn't 0\n"),
    "a word without a name": (HEADER, ["--event=knock"], 2, "argument --event: it is a name, `=` and what is given to it\n"),
    "no separator": (HEADER, ["--separator=ab"], 2, "argument --separator: it is one character, or tab\n"),
    "a tick of nothing": (HEADER, ["--tick=0ms"], 2, "argument --tick: a tick is longer than 0\n"),
    "a tick without a unit": (HEADER, ["--tick=5"], 2, "argument --tick: it is a number and then "),
    "a folder that isn't there": (QUIET, ["-o", "none/out"], 5, "none/out: No such file or directory\n"),
    "no program": (QUIET, ["--program", "/none"], 70, "/none: No such file or directory\n"),
    "another program": (QUIET, ["--program", "/bin/echo"], 70, "/bin/echo: its answer isn't one of dbp\n"),
}


def call_tank(program, log, words, until=20, period=5, last="", end=""):
    """Runs the tool on a log of the tank, in a folder of its own, and returns what it gives and the document."""
    document = TANK.format(until=until, period=period, last=last, end=end)
    with tempfile.TemporaryDirectory() as room:
        (Path(room) / "log").write_bytes(log)
        (Path(room) / "tank.dbp").write_text(document)
        named = ["--tick=1ms"] if not any(it.startswith("--tick") for it in words) else []
        return call(program, [*named, *words, "log", "tank.dbp"], cwd=room), document


def fault_of_section(program, log, words, wanted, told):
    """Returns how the document or the section that is written, or what is told, differs from what is wanted."""
    ran, document = call_tank(program, log, words)
    if ran.returncode or ran.stderr.decode() != told:
        return f"the status is {ran.returncode}; it said {ran.stderr.decode()[:600]!r}"
    section = f"trace\n{wanted}"
    made = section if "--section" in words else document.replace("done\n", f"{section}done\n")
    return None if ran.stdout.decode() == made else f"it wrote {ran.stdout.decode()[-300:]!r}"


def fault_of_end(ran, status, text):
    """Returns how the end of a call that writes nothing differs from what is wanted, or nothing."""
    said = ran.stderr.decode().replace("\n\n", "\n").split("trace: ", 1)[-1]
    is_wanted = ran.returncode == status and not ran.stdout and said.startswith(text) and "Traceback" not in said
    return None if is_wanted else f"the status is {ran.returncode}; it said {ran.stderr.decode()[-300:]!r}"


def fault_of_ended(program, log, words, status, text):
    """Returns how the end of a call on a log of the tank differs from what is wanted, or nothing."""
    return fault_of_end(call_tank(program, log, words)[0], status, text)


def fault_of_words(program, words, status, text):
    """Returns how the end of a call with these words alone differs from what is wanted, or nothing."""
    return fault_of_end(call(program, words), status, text)


def many_rows(count):
    """Returns a log with a row that changes something for each of so many ticks."""
    return HEADER + b"".join(b"%d.%03d,%d,\n" % (tick // 1000, tick % 1000, tick % 2) for tick in range(count))


def fault_of_most_rows(program):
    """Returns what is wrong with a log of as many rows as a trace may have, and with one more, which is refused."""
    ran, document = call_tank(program, many_rows(50_000), [], until=60_000)
    rows = "".join(f"{tick},{tick % 2},\n" for tick in range(50_000))
    if ran.returncode or ran.stdout.decode() != document.replace("done\n", f"trace\ntime,level,knock\n{rows}done\n"):
        return f"the status is {ran.returncode}; it said {ran.stderr[-300:]!r}"
    more, _ = call_tank(program, many_rows(50_001), [], until=60_000)
    text = "log:50002: with this row more than 50,000 change something: take a longer tick or a smaller `until`\n"
    return fault_of_end(more, 1, text)


def fault_of_judged(program):
    """Returns how a call ends whose document the program refuses with its new trace, or that is too large then."""
    ran, _ = call_tank(program, QUIET, [], until=100_001, period=1)
    text = "tank.dbp: with this trace the program doesn't accept it: refused: line 3: 25 TooManyOccurrences\n"
    comment = "#" * (2**20 - len(TANK)) + "\n"
    large, _ = call_tank(program, QUIET, [], last=comment)
    refused, _ = call_tank(program, QUIET, [], last="x\n")
    too_large = "tank.dbp: with this trace it has more than 1,048,576 bytes\n"
    return (
        fault_of_end(ran, 1, text)
        or fault_of_end(large, 7, too_large)
        or fault_of_end(refused, 1, "tank.dbp: refused: line 10: 3 BadLine\n")
    )


def fault_of_old_section(program):
    """Returns how a document differs whose old trace, with lines of its own ends, gives way to a new one."""
    old = "\r\n  trace # old\ntime,level\n0,1\n\nscript\n  launch watch\n"
    ran, document = call_tank(program, QUIET, [], last=old)
    new = "\r\n  trace # old\ntime,level,flow,knock\n2,51,,1\nscript\n  launch watch\n"
    wanted = document.replace(old, new)
    return None if ran.stdout.decode() == wanted else f"it wrote {ran.stdout.decode()[-300:]!r}"


def fault_of_example(program):
    """Returns how the example differs from what the tool makes of its log, to standard output and to a file."""
    wanted = (TOP / EXAMPLE).read_bytes()
    ran = call(program, EXAMPLE_WORDS)
    with tempfile.TemporaryDirectory() as room:
        (Path(room) / "out").write_bytes(b"old")
        saved = call(program, ["-o", str(Path(room) / "out"), *EXAMPLE_WORDS])
        found = (Path(room) / "out").read_bytes()
    is_wanted = (ran.returncode, ran.stdout, saved.returncode, saved.stdout, found) == (0, wanted, 0, b"", wanted)
    return None if is_wanted and saved.stderr == ran.stderr else f"it wrote {ran.stdout[-300:]!r}, and {found[-300:]!r}"


def documents_with_trace():
    """Yields the examples with inputs or events that `mean` accepts."""
    for file in sorted((TOP / "examples").glob("*.dbp")):
        if re.search(r"(?m)^(input|event) ", file.read_text()):
            yield file


def trials(program):
    """Yields the trials of the tool, each a name and a call that returns what differs, or nothing."""
    for part in range(4):
        seeds = range(part * LOGS // 4, (part + 1) * LOGS // 4)
        yield f"drawn logs from {seeds[0]} on", partial(fault_of_drawn, program, seeds)
    yield "logs of drawn bytes", partial(fault_of_hostile, program, range(HOSTILE))
    yield "the place of the section", partial(fault_of_places, program)
    for file in documents_with_trace():
        yield f"{file.relative_to(TOP)}, made again of its signals", partial(fault_of_round_trip, program, file)
    for name, (log, words, wanted, told) in SECTIONS.items():
        yield name, partial(fault_of_section, program, log, words, wanted, told)
    for name, (log, words, status, text) in ENDED.items():
        yield name, partial(fault_of_ended, program, log, words, status, text)
    tick = ["--tick", "1ms"]
    for words, status, text in (
        ([*tick, "-", "-"], 2, "the log and the document can't both be standard input\n"),
        ([LOG, EXAMPLE], 2, "the following arguments are required: --tick\n"),
        ([*tick, "none.csv", EXAMPLE], 4, "none.csv: No such file or directory\n"),
        ([*tick, "examples", EXAMPLE], 4, "examples: Is a directory\n"),
        ([*tick, LOG, "none.dbp"], 4, "none.dbp: No such file or directory\n"),
    ):
        yield f"{status}: {' '.join(words)}", partial(fault_of_words, program, words, status, text)
    yield "as many rows as there may be, and one more", partial(fault_of_most_rows, program)
    yield "documents that the program doesn't accept", partial(fault_of_judged, program)
    yield "an old trace", partial(fault_of_old_section, program)
    yield "the example", partial(fault_of_example, program)
