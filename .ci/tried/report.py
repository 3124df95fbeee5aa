"""tools/report: what its pages say, read in a real browser, is what the program says; no text of a document becomes markup;
large documents are done in time; and each page is HTML without an error, of mutants too.

A trial for which chromium, its driver or python3-selenium is missing is skipped; without tidy pages aren't searched for errors.
"""

import json
import random
import re
import shutil
import subprocess
import sys
import tempfile
from collections import Counter
from dataclasses import dataclass
from functools import lru_cache, partial
from html.parser import HTMLParser
from pathlib import Path
from threading import Lock

TOP = Path(__file__).resolve().parents[2]
sys.path[:0] = [str(TOP / "tools"), str(TOP / ".ci")]
sys.path.append(str(TOP / "bench"))

from awaited import BROWSER_SECONDS  # noqa: E402
from comparing import Skipped  # noqa: E402
from mutants import mutant_of  # noqa: E402
from pictures.asking import answer, read_document  # noqa: E402
from pictures.record import steps_of  # noqa: E402
from pictures.service import Command, End, command_of, rank_order, serve  # noqa: E402
from scripts import with_script  # noqa: E402
from stand_ins import between  # noqa: E402

ONE_BROWSER = Lock()
PYTHON = "/usr/bin/python3"  # of the system, which has Debian's packages
NEEDED = ("chromium", "chromedriver")
MOST_BYTES = 20_000_000  # of a report of a large document
MUTANTS, GENERATED = 10, 5

# Documents whose pages are read; all of their ticks are shown at once.
READ = ("examples/preempted.dbp", "examples/feedback.dbp", "examples/heater.dbp", "examples/filter.dbp", "examples/logger.dbp",
        "examples/cpus/pipeline.dbp")
FIVE = ("examples/preempted.dbp", "examples/sim/late.dbp", "examples/rta/beyond.dbp", "examples/need/wheel.dbp",
        "examples/modes.dbp")

# The bounds of tasks on several processors, by hand: search needs 7 ticks below camera, and steer more than 8 below both.
OWN_BOUNDS = {"examples/cpus/pipeline.dbp": [["camera", "1"], ["search", "7"], ["steer", "-"]]}

MARK = "window.marked=1"
MARKUP = f"""</script><script>{MARK}</script><img src=x onerror="{MARK}"> &lt; "two" 'one' <!-- ]]> </li></ol>"""
DIAGRAM = "policy fp\nuntil 6\ntask a every 2 prio 1 cost 1\n  out y = 0 then 1\n"
HOSTILE = {
    "a comment": f"dbp 1 # {MARKUP}\n{DIAGRAM}done\n",
    "a line that is refused": f"dbp 1\n{DIAGRAM}task {MARKUP} every 2\ndone\n",
    "a name that isn't there": f"dbp 1\n{DIAGRAM}task b on {MARKUP} prio 2 cost 1\n  out y = 0 then 1\ndone\n",
    "a message": f"dbp 1\n{DIAGRAM}".replace("  out y = 0 then 1", "  state img = 1\n  out y = 0 then img <img> img") + "done\n",
    "a trace": f"dbp 1\n{DIAGRAM}trace\ntime,{MARKUP}\ndone\n",
    "a long document": "dbp 1\n" + f"# {MARKUP}\n" * 1500 + f"{DIAGRAM}done\n",
    "after the end": f"dbp 1\n{DIAGRAM}done\n{MARKUP}\n",
}
NAME = f"it's \"one\" & <img src=x onerror={MARK}>.dbp"
ELEMENTS = set(
    "a article body button caption circle code defs desc details div figure g h1 h2 h3 h4 head header html input label li "
    "marker meta nav ol option output p path pattern rect script section select span style summary svg table tbody td text "
    "th thead title tr ul".split()
)

STATUSES = {
    "accepted": (0, ["examples/preempted.dbp"], b"accepted, and in time"),
    "an overrun": (1, ["examples/sim/late.dbp"], b"accepted, but: overrun: log 2 at 8"),
    "tasks on processors": (0, ["examples/cpus/pipeline.dbp"], b"processor 0: camera, steer; processor 1: search."),
    "an overrun on one processor": (1, ["examples/cpus/one_processor.dbp"], b"accepted, but: overrun: steer 2 at 8"),
    "an overrun on processors": (1, [".ci/tried/check/overrun_on_processors.dbp"], b"accepted, but: overrun: reader 2 at 6"),
    "a missed deadline": (1, [".ci/tried/check/late_by_priorities.dbp"], b"accepted, but: late: slow 1 at 9"),
    "no bound": (1, ["examples/rta/beyond.dbp"], b"accepted, but: bound: control beyond, and its period is 4"),
    "refused": (1, ["examples/refused/18_undelayed_upward.dbp"], b"refused: line 7: 18 UndelayedUpward"),
    "a script that is refused": (1, ["examples/refused_scripts/illegal_step.dbp"], b"IllegalStep"),
    "several": (1, ["examples/preempted.dbp", "examples/sim/late.dbp"], b'<a href="#d2">late.dbp</a>'),
    "no file": (4, ["examples/preempted.dbp", "examples/none.dbp"], b""),
    "no words": (2, [], b""),
    "no program": (70, ["--program", "examples/none", "examples/preempted.dbp"], b""),
}

# What is there of a document that is refused, and what isn't.
SHOWN = {
    "examples/refused/18_undelayed_upward.dbp": (("document", "diagram", "tasks", "links"), ("time", "outs", "scenarios")),
    "examples/refused/11_unknown.dbp": (("document", "messages", "proved"), ("diagram", "tasks", "time")),
    "examples/sim/late.dbp": (("diagram", "time", "outs", "scenarios"), ()),
    "examples/refused_scripts/illegal_step.dbp": (("diagram", "time", "outs"), ()),
}


def call(program, words):
    """Runs the tool at the top of the repository, with this program unless the words name another."""
    named = [] if "--program" in words else ["--program", program]
    return subprocess.run([sys.executable, "tools/report", *named, *words], cwd=TOP, capture_output=True, check=False)


def status_fault(program, status, words, said):
    """Returns how the status of a call, or what its page says, differs."""
    ran = call(program, words)
    is_wanted = ran.returncode == status and said in ran.stdout and b"Traceback" not in ran.stderr
    return None if is_wanted else f"the status is {ran.returncode}, and {status} is wanted; it said {ran.stderr[-300:]!r}"


def shown_fault(program, document, there, missing):
    """Returns which part of a page is missing, or there though it can't be."""
    page = call(program, [document]).stdout.decode()
    wrong = [it for it in there if f'id="d1-{it}"' not in page] + [it for it in missing if f'id="d1-{it}"' in page]
    return f"wrong are {wrong}" if wrong else None


def differing_fault(program):
    """Returns how the report of a document is whose record isn't what the tool computes: the rest is there."""
    with tempfile.TemporaryDirectory() as room:
        ran = call(between(program, room, "sim --record", "exit 0"), ["examples/preempted.dbp"])
    said = b"the record and the computed order differ at tick 0", b"It isn&#x27;t drawn", b'id="d1-table-0"'
    return None if ran.returncode == 1 and all(it in ran.stdout for it in said) else f"the status is {ran.returncode}"


class Elements(HTMLParser):
    """Reads a page: its elements, how many of each, and those that aren't closed in their order."""

    def __init__(self):
        super().__init__()
        self.counts, self.open, self.wrong, self.handlers = Counter(), [], [], []

    def handle_starttag(self, tag, attributes):
        self.counts[tag] += 1
        self.handlers += [name for name, _ in attributes if name.startswith("on")]
        if tag not in ("meta", "input"):
            self.open.append(tag)

    def handle_startendtag(self, tag, attributes):
        self.counts[tag] += 1

    def handle_endtag(self, tag):
        if not self.open or self.open.pop() != tag:
            self.wrong.append(tag)


def markup_fault(page, articles=1):
    """Returns what is wrong with the elements of a page: each is one of the tool's, closed, and no text is a script."""
    found = Elements()
    found.feed(page)
    strange = {*found.counts} - ELEMENTS
    if strange or found.handlers or found.wrong or found.open:
        return f"elements {strange}, handlers {found.handlers}, not closed {found.wrong + found.open}"
    is_wanted = found.counts["script"] == articles + 1 and "img" not in found.counts
    return None if is_wanted else f"the elements are {found.counts}"


def hostile_fault(program, text):
    """Returns which text of a document, or of its file's name, becomes markup."""
    with tempfile.TemporaryDirectory() as place:
        file = Path(place) / NAME
        file.write_text(text)
        ran = call(program, [str(file)])
    is_told = "it&#x27;s &quot;one&quot; &amp; &lt;img" in ran.stdout.decode()
    if ran.returncode not in (0, 1) or not is_told:
        return f"the status is {ran.returncode}; it said {ran.stderr[-300:]!r}"
    return markup_fault(ran.stdout.decode())


def tidy_fault(page):
    """Returns the errors that tidy finds in a page."""
    ran = subprocess.run(["tidy", "-e", "-q"], input=page, capture_output=True, check=False)
    errors = [line for line in ran.stderr.decode(errors="replace").splitlines() if "Error" in line]
    return "; ".join(errors) or (f"tidy ends with {ran.returncode}" if ran.returncode > 1 else None)


def page_fault(program, text, has_tidy):
    """Returns what is wrong with the page of a document, or with how the tool ends."""
    with tempfile.TemporaryDirectory() as place:
        file = Path(place) / "a.dbp"
        file.write_bytes(text)
        ran = call(program, [str(file)])
    if ran.returncode not in (0, 1) or b"Traceback" in ran.stderr:
        return f"the status is {ran.returncode}; it said {ran.stderr[-300:]!r}; the document is {text!r}"
    return markup_fault(ran.stdout.decode()) or (tidy_fault(ran.stdout) if has_tidy else None)


def documents(program):
    """Yields documents by their names: examples, generated ones, and mutants."""
    draw = random.Random(81)
    for name in FIVE:
        yield name, (TOP / name).read_bytes()
    for number in range(GENERATED):
        yield f"gen {number}", answer(program, ["gen", str(number), str(number + 2)], b"")
    for number in range(MUTANTS):
        yield f"mutant {number}", mutant_of(draw, (TOP / FIVE[number % len(FIVE)]).read_bytes())


# Large documents.

def large_document():
    """Returns a document of almost one MiB, with 32 tasks, 128 reads, 50,000 rows and 100,000 occurrences."""
    lines = ["dbp 1", "policy fp", "until 125000", "input g = 1"]
    for at in range(32):
        lines += [f"task t{at} every 40 prio {32 - at} cost 1", "  state s = 0", "  sense g0 = g"]
        for read in range(4):
            writer = (at + 1 + 7 * read) % 32
            lines.append(f"  read r{read} = {'pre ' if writer > at else ''}t{writer}.y")
        lines += ["  next s = s + g0 * 1000003", f"  out y = {at} then s * s + r0 + r1 + r2 + r3"]
    rows = [f"{2 * row:06d},{row * 7919 % 1000000007:012d}" for row in range(50_000)]
    return "\n".join([*lines, "trace", "time,g", *rows, "done", ""]).encode()


def long_reader():
    """Returns a document with a task that makes 1,520,000 reads, of 95,000 instances."""
    lines = ["dbp 1", "policy fp", "until 190000"]
    for at in range(16):
        lines += [f"task w{at} every 1600 from {at * 100} prio 1 cost 1", "  state s = 0", "  next s = s + 1",
                  "  out y = 0 then s * s"]
    reads = [f"  read r{at} = pre w{at}.y" for at in range(16)]
    total = " + ".join(f"r{at}" for at in range(16))
    return "\n".join([*lines, "task r every 2 prio 20 cost 1", *reads, f"  out z = 0 then {total}", "done", ""]).encode()


def many_values():
    """Returns a document with 800,000 values of 64 bits that nothing repeats."""
    lines = ["dbp 1", "policy fp", "until 125000"]
    for at in range(32):
        lines += [f"task t{at} every 40 prio 1 cost 1", f"  state s = {at + 1}",
                  "  next s = (s * 1103515245 + 12345) % 2147483648"]
        lines += [f"  out y{out} = 0 then s * 4294967291 + (s * {out + 3}) % 4294967291" for out in range(8)]
    return "\n".join([*lines, "done", ""]).encode()


LARGE = {"large": large_document, "a long reader": long_reader, "many values": many_values}


def large_fault(program, document):
    """Returns how the report of a large document is too large, or says nothing meanwhile."""
    with tempfile.TemporaryDirectory() as place:
        file, out = Path(place) / "large.dbp", Path(place) / "large.html"
        file.write_bytes(document())
        words = [sys.executable, TOP / "tools" / "report", "--program", program, "-o", out, file]
        ran = subprocess.run(words, capture_output=True, check=False)
        if ran.returncode != 0 or ran.stderr.count(b"report: large.dbp: ") < 3:
            return f"the status is {ran.returncode}; it said {ran.stderr[-300:]!r}"
        size = out.stat().st_size
    return None if size < MOST_BYTES else f"it has {size} bytes"


# What the program says, to be compared with what a page shows.

@dataclass(frozen=True)
class Told:
    """What the program says of a document: its canonical text, the lines of mean and of the record."""

    form: bytes
    lines: list
    record: list

    @property
    def document(self):
        """Returns the document."""
        return read_document(self.form)


def told(program, text):
    """Returns what the program says of a document."""
    form, mean = (answer(program, words, text) for words in (["form"], ["mean"]))
    record = answer(program, command_of(read_document(form)).record_words, text)
    return Told(form, [line.split(",") for line in mean.decode().splitlines()], record.decode().splitlines())


def replayed(program, document, count):
    """Returns the lines of `dbp replay`, on one processor with `--ranked`, of the first steps of a document's record."""
    script = with_script(document.form, document.document, document.record[:count])
    ranked = ["--ranked"] if command_of(document.document) is Command.SIM else []
    return answer(program, ["replay", *ranked], script).decode().splitlines()


class Replayed:
    """The slots of all tasks after the steps of a replay: a plain walk through its lines."""

    def __init__(self, document):
        names = [task.name for task in document.tasks]
        self.ranks = {names[place]: rank for rank, place in enumerate(rank_order(document))}
        self.has_all = command_of(document) is Command.CPUS  # each claim stands until the releaser sees the end of its reader
        self.delays = {name: 0 for name in names}
        self.links = {task.name: list(dict.fromkeys((it.writer, it.delay) for it in task.reads)) for task in document.tasks}
        for into in self.links.values():
            for writer, delay in into:
                self.delays[writer] = max(self.delays[writer], delay)
        self.aims = {name: [0] for name in names}  # the slot of each row
        self.held = {name: {0: 0} for name in names}
        self.done = {name: 0 for name in names}
        self.begun = {name: 0 for name in names}
        self.claims = {}
        self.heard = {}

    def take(self, line):
        """Takes the next line."""
        step, _, said = line.partition(" -> ")
        kind, task, *rest = step.split()
        if kind == "aim":
            self.aims[task].append(int(rest[0]))
        elif kind == "claim":
            delay = 0 if len(rest) == 1 else 1 if len(rest) == 2 else int(rest[1])
            row = max(0, len(self.aims[rest[-1]]) - 1 - delay)
            self.claims[rest[-1], delay, task] = [row, len(self.aims[task]) - 1, False]
        elif kind == "start":
            self.heard[task] = iter([(task, None), *self.links[task]])
        elif kind == "hear":
            self.compare(task, *next(self.heard[task]), said)
        elif kind == "done":
            self.done[task] = len(self.aims[task]) - 1
            self.held[task][self.aims[task][-1]] = self.done[task]
        elif kind in ("end", "seen"):
            self.end(task, is_seen=kind == "seen")

    def compare(self, task, writer, delay, said):
        """Compares what a task hears with the row that is claimed here."""
        row = len(self.aims[task]) - 1 if delay is None else self.claims[writer, delay, task][0]
        if said != f"slot {self.aims[writer][row]} number {row}":
            raise ValueError(f"{task} hears {said} of {writer}, and row {row} is claimed")

    def end(self, reader, is_seen):
        """Ends the claims of a reader: of one that is ranked below the writer once the releaser sees that."""
        for writer, delay, task in [key for key in self.claims if key[2] == reader]:
            self.claims[writer, delay, task][2] = True
            if is_seen or (self.ranks[task] < self.ranks[writer] and not self.has_all):
                del self.claims[writer, delay, task]

    def cells(self, name, slot):
        """Returns what the row of a slot must show: sets of words for what it holds, is aimed for, keeps, and who claims it."""
        aims, last = self.aims[name], len(self.aims[name]) - 1
        held = {f"row {self.held[name][slot]}"} if slot in self.held[name] else set()
        aimed = {f"row {last}"} if last > self.done[name] and aims[last] == slot else set()
        kept = {f"row {row}" for row in range(max(0, last - self.delays[name]), last) if aims[row] == slot}
        claimed = set()
        for (writer, _, reader), (row, number, is_ended) in self.claims.items():
            if writer == name and aims[row] == slot:
                claimed.add(f"row {row} by {reader} {number}" + ", which has ended, not seen yet" * is_ended)
        return [held, aimed, kept, claimed]


def service_of(document):
    """Returns the service of a document, each task on its own processor."""
    return serve(document, command_of(document))


def slots_fault(program, document, tick, tables):
    """Returns which slots of a page at a tick differ from those of a replay of the record up to there."""
    steps = steps_of(document.document, service_of(document.document))
    count = sum(step.time <= tick for step in steps)
    state = Replayed(document.document)
    for line in replayed(program, document, count):
        state.take(line)
    for task, table in zip(document.document.tasks, tables):
        for slot, row in enumerate(table["rows"]):
            found = [set(filter(None, cell.split("; "))) for cell in row[1:]]
            if found != state.cells(task.name, slot) or f"tick {tick}" not in table["caption"]:
                return f"slot {slot} of {task.name} at {tick} is {row}, and {state.cells(task.name, slot)} is wanted"
    return None


def taken(program, document):
    """Returns the value that each read takes when the program replays the record, by the read and its task's instance."""
    counts, values = Counter(), {}
    for line in replayed(program, document, None):
        step, _, heard = line.partition(" -> ")
        if step.startswith("take "):
            counts[step] += 1
            _, task, read = step.split()
            values[f"{task} {counts[step]}", read] = heard
    return values


def scale(labels, shift):
    """Returns a call that gives the place of a number on an axis, by two of its labels, or by one if all are alike."""
    (place, text), (last, other) = labels[0], labels[-1]
    numbers = int(text), int(other)
    slope = (last - place) / (numbers[1] - numbers[0]) if numbers[1] != numbers[0] else 0
    return lambda number: place - shift + (number - numbers[0]) * slope


def drawn_steps(plot):
    """Returns the places of the steps of a plot, and where it ends."""
    parts = re.findall(r"([MHV]) (-?[0-9.]+)(?: (-?[0-9.]+))?", plot["path"])
    if not parts:
        return [], None
    found = [(float(parts[0][1]), float(parts[0][2]))]
    for (_, x, _), (_, y, _) in zip(parts[1:-1:2], parts[2:-1:2]):
        found.append((float(x), float(y)))
    return found, float(parts[-1][1])


def plot_fault(plot, rows, column, window, until):
    """Returns how the steps of a plot differ from the values that `dbp mean` prints, in a window of ticks."""
    start, stop = window
    x, y = scale(plot["ticks"], 0), scale(plot["values"], 4)
    before = [row for row in rows if int(row[0]) <= start]
    wanted = [(start, int(before[-1][column]))] if before else []
    wanted += [(int(row[0]), int(row[column])) for row in rows if start < int(row[0]) <= stop]
    places = [(x(tick), y(value)) for tick, value in wanted]
    found, end = drawn_steps(plot)
    if places and found and found[0] == (places[0][0], places[0][1]) and len(found) == len(places) + 1:
        found = found[1:]  # the first step begins where the plot does
    is_same = len(found) == len(places) and all(
        abs(one - other) < 0.01 for pair in zip(found, places) for one, other in zip(*pair))
    is_same = is_same and (end is None or abs(end - x(min(stop, until))) < 0.01)
    return None if is_same else f"{plot['name']} has the steps {found[:9]} up to {end}, and {places[:9]} are wanted"


def plots_fault(page, part, document, window):
    """Returns how the plots of a page differ from the lines of `dbp mean`."""
    plots = {plot["name"]: plot for plot in page[part]}
    for task in document.document.tasks:
        rows = [row for row in document.lines if row[1] == task.name]
        for at, out in enumerate(task.outs):
            fault = plot_fault(plots[f"{task.name}.{out.name} over time"], rows, 3 + at, window, document.document.until)
            if fault:
                return fault
    return None


def tables_fault(page, document):
    """Returns how the tables of a page differ from the lines of `dbp mean`; each has its first 100 rows."""
    tables = {table["name"]: table for table in page["tables"]}
    for place, task in enumerate(document.document.tasks):
        table = tables[f"d1-table-{place}"]
        rows = [[row[0], *row[2:]] for row in document.lines if row[1] == task.name][:100]
        header = ["tick", f"{task.name}_instance", *(f"{task.name}.{out.name}" for out in task.outs)]
        if (table["header"], table["rows"]) != (header, rows):
            return f"the table of {task.name} is {table}, and {rows} are wanted"
    return None


def reads_fault(program, page, document):
    """Returns how the reads that a page shows differ from what they take."""
    table = next(table for table in page["tables"] if table["header"][:2] == ["tick", "reads"])
    found = {(instance, read): value for _, read, instance, _, value in table["rows"]}
    wanted = taken(program, document)
    return None if found == wanted else f"the reads are {found}, and {wanted} are wanted"


def bars_fault(page, document):
    """Returns how the bars and the ends of a timeline differ from the order of service, which the record agrees with."""
    service, names = service_of(document), [task.name for task in document.tasks]
    wanted = [f"{names[it.instance.task]} {it.instance.number} is {what} from {it.start} to {it.stop}"
              for what, spans in (("served", service.spans), ("blocked", service.blocked)) for it in spans]
    wanted += [f"{names[it.instance.task]} {it.instance.number} ends at {it.time}" for it in service.of(End)]
    found = [it.partition(", after")[0] for it in page["bars"]]
    return None if sorted(found) == sorted(wanted) else f"the bars are {found}, and {wanted} are wanted"


def bounds_fault(program, name, page, text):
    """Returns how the bounds of a page differ from the lines of `dbp rta`, or on several processors from those wanted."""
    ran = subprocess.run([program, "rta"], input=text, capture_output=True, check=False)
    told = [line.split(",")[:2] for line in ran.stdout.decode().splitlines()] if ran.returncode == 0 else None
    wanted = OWN_BOUNDS.get(name, told)
    table = next(table for table in page["tables"] if table["name"] == "d1-task-table-times")
    found = [row[:2] for row in table["rows"]]
    is_wanted = found == wanted if wanted else {bound for _, bound in found} <= {"-"}
    return None if is_wanted else f"the bounds are {found}, and {wanted} are wanted"


def ranks_fault(program, page, text):
    """Returns how the priorities by links of a page differ from those of the document that `dbp rank` writes."""
    ran = subprocess.run([program, "rank"], input=text, capture_output=True, check=False)
    written = re.findall(r"^task (\w+) .*\bprio (-?\d+)", ran.stdout.decode(), re.MULTILINE)
    table = next(table for table in page["tables"] if table["name"] == "d1-task-table")
    found = [(row[0], row[table["header"].index("prio by links")]) for row in table["rows"]]
    is_wanted = found == written if ran.returncode == 0 else {prio for _, prio in found} <= {"-"}
    return None if is_wanted else f"the priorities by links are {found}, and {written} are wanted"


def pictures_fault(page):
    """Returns which picture has no name or no description in the tree of accessibility, if one hasn't."""
    wanted = 3 + len(page["plots"])  # the diagram, the timeline and its legend
    names = [name for name, _ in page["pictures"]]
    is_wanted = len(names) == len(set(names)) == wanted and all(map(all, page["pictures"]))
    return None if is_wanted else f"the pictures are {page['pictures']}, and {wanted} are wanted"


def brightness(colour):
    """Returns how bright a colour is, from 0 to 255."""
    return sum(map(int, re.findall(r"\d+", colour)[:3])) / 3


def colours_fault(page):
    """Returns what is wrong with the colours in the light or in the dark."""
    (back, text, plain), (dark_back, dark_text, inverted) = page["colours"]["light"], page["colours"]["dark"]
    is_light = brightness(back) > 200 and brightness(text) < 80 and plain == "none"
    is_dark = brightness(dark_back) < 80 and brightness(dark_text) > 200 and "invert" in inverted
    return None if is_light and is_dark else f"the colours are {page['colours']}"


def pointed_fault(page):
    """Returns what is said of a read that is pointed at, if not what it gets."""
    said = page["pointed"]
    is_wanted = said is None or said[0] == said[1] and " = " in said[0]
    return None if is_wanted else f"of a read is said {said}"


def elements_fault(page):
    """Returns what a browser complains of, or which text has become markup."""
    if page["said"] or page["marked"] is not None or page["scripts"] != 2:
        return f"the browser says {page['said']}, marked is {page['marked']}, scripts {page['scripts']}"
    strange = {*page["elements"]} - ELEMENTS
    return f"the page has the elements {sorted(strange)}" if strange else None


def printed_fault(printed):
    """Returns how a page isn't printed on sheets of A4, with all that it has."""
    sizes = [[float(it) for it in size.split()] for size in printed["sizes"]]
    is_a4 = len(sizes) == 1 and all(abs(one - other) < 1 for one, other in zip(sizes[0], (0, 0, 595, 842)))
    return None if is_a4 and not printed["too_wide"] else f"it is printed as {printed}"


def window_of(drawn):
    """Returns the window of what a page says that it has drawn: its tick, its start and its stop."""
    _, start, stop = map(int, drawn.split())
    return start, stop


def moved_fault(page):
    """Returns how the slider doesn't move the window."""
    (tick, start, stop), (after, *_), (last, *ends) = (list(map(int, it.split())) for it in page["moved"])
    is_moved = after == tick + 1 and last > after and ends[0] > start and ends[1] - ends[0] == stop - start
    return None if is_moved and last == ends[1] else f"the windows are {page['moved']}"


# The browser.

@lru_cache(maxsize=None)
def missing_part():
    """Returns what the trials in a browser lack, or nothing."""
    missing = next((it for it in NEEDED if not shutil.which(it)), None)
    if missing or not Path(PYTHON).exists():
        return missing or PYTHON
    ran = subprocess.run([PYTHON, "-c", "import selenium"], capture_output=True, check=False)
    return None if ran.returncode == 0 else "python3-selenium"


def moving_document(program):
    """Returns a document of which a window shows a part alone."""
    return answer(program, ["gen", "3", "4"], b"")


@lru_cache(maxsize=None)
def read_pages(program):
    """Returns what the pages of all documents say in the browser, each by its name, with its text."""
    texts = {name: (TOP / name).read_bytes() for name in READ}
    texts |= {"moved": moving_document(program), "large": large_document()}
    texts |= {f"markup: {name}": text.encode() for name, text in HOSTILE.items()}
    with tempfile.TemporaryDirectory() as place:
        jobs = [job_of(program, name, text, Path(place) / f"{at}.html") for at, (name, text) in enumerate(texts.items())]
        words = [PYTHON, "-B", TOP / ".ci" / "browse.py"]
        ran = subprocess.run(words, input=json.dumps(jobs).encode(), capture_output=True, timeout=BROWSER_SECONDS, check=False)
    if ran.returncode:
        raise ValueError(ran.stderr.decode()[-600:])
    return {name: (text, page) for (name, text), page in zip(texts.items(), json.loads(ran.stdout))}


def job_of(program, name, text, out):
    """Writes the page of a document, and returns what is to be done with it."""
    is_hostile = name.startswith("markup: ")
    file = out.with_name(f"{out.stem} {NAME}") if is_hostile else out.with_suffix(".dbp")
    file.write_bytes(text)
    call(program, ["-o", str(out), str(file)])
    job = {"page": str(out), "tasks": 0, "ticks": [], "is_moved": name not in READ and not is_hostile}
    if not is_hostile:
        document = read_document(answer(program, ["form"], text))
        job.update(is_printed=name in READ, tasks=len(document.tasks), ticks=[0, document.until // 2, document.until - 1])
    return job


def browser_fault(program, name):
    """Returns the first thing of a page in the browser that isn't as the program says."""
    with ONE_BROWSER:
        missing = missing_part()
    if missing:
        return Skipped(f"there is no {missing}")
    try:
        with ONE_BROWSER:
            text, page = read_pages(program)[name]
    except (ValueError, subprocess.TimeoutExpired) as error:
        return f"the browser ends: {error}"
    fault = elements_fault(page)
    return fault or (None if name.startswith("markup: ") else compared_fault(program, name, text, page))


def compared_fault(program, name, text, page):
    """Returns the first difference between a page and what the program says."""
    document = told(program, text)
    faults = [*shown_faults(document, page), bounds_fault(program, name, page, text), ranks_fault(program, page, text)]
    if name in READ:
        faults += [reads_fault(program, page, document), bars_fault(page, document.document)]
    for tick in page["ticks"] if name != "large" else ():
        try:
            faults.append(slots_fault(program, document, int(tick["drawn"].split()[0]), tick["slots"]))
        except ValueError as error:
            faults.append(str(error))
    return next(filter(None, faults), None)


def shown_faults(document, page):
    """Yields the faults of the values of a page, of its pictures, and of how it answers."""
    there = page["ticks"][-1]["drawn"]
    yield plots_fault(page, "plots", document, window_of(page["drawn"]))
    yield plots_fault(page, "plots_there", document, window_of(there))
    yield tables_fault(page, document)
    yield pictures_fault(page)
    yield colours_fault(page)
    yield pointed_fault(page)
    yield moved_fault(page) if page["moved"] else None
    yield printed_fault(page["printed"]) if page["printed"] else None


def trials(program):
    """Yields the trials: a name, and a call that returns what differs, or nothing."""
    has_tidy = bool(shutil.which("tidy"))
    if not has_tidy:
        print(".ci/tried/report.py: the search for errors of HTML is skipped, since there is no tidy", file=sys.stderr)
    for name, wanted in STATUSES.items():
        yield f"status: {name}", partial(status_fault, program, *wanted)
    for document, parts in SHOWN.items():
        yield f"parts of {document}", partial(shown_fault, program, document, *parts)
    yield "a record that differs", partial(differing_fault, program)
    for name, text in HOSTILE.items():
        yield f"markup: {name}", partial(hostile_fault, program, text)
    for name, text in documents(program):
        yield f"page of {name}", partial(page_fault, program, text, has_tidy)
    for name, document in LARGE.items():
        yield f"{name}: size and time", partial(large_fault, program, document)


def trials_in_a_browser(program):
    """Yields the trials in a browser, which wait until it has read the pages of all."""
    for name in [*READ, "moved", "large", *(f"markup: {name}" for name in HOSTILE)]:
        yield f"in the browser: {name}", partial(browser_fault, program, name)
