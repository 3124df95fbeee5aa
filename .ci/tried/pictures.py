"""tools/timeline and tools/diagram on the examples and on cases of simulations, and the pictures of docs/.

.ci/tried/pictures/ has the texts that are wanted of some calls. Of every document that the program accepts, the order
that the tools compute is compared with the record, and what they draw must be well-formed, without texts that overlap. Of
drawn documents on several processors who is served and who is blocked is walked through here tick by tick, too.
"""

import importlib.util
import re
import subprocess
import sys
import tempfile
from collections import Counter
from pathlib import Path
from xml.etree import ElementTree

TOP = Path(__file__).resolve().parent.parent.parent
WANTED = Path(__file__).resolve().parent / "pictures"
sys.path[:0] = [str(TOP / "tools"), str(TOP / ".ci")]

from awaited import SECONDS  # noqa: E402
from pictures import (  # noqa: E402
    asking,
    commands,
    courses,
    diagram,
    dot,
    gallery,
    record,
    service,
    slot_rows,
    styles,
    svg,
    timeline,
)
from pictures.service import Command  # noqa: E402
from scripts import with_script  # noqa: E402
from stand_ins import between  # noqa: E402

ON_PROCESSORS = ("--command", "cpus")

EXACT = {
    "modes.timeline.svg": (commands.timeline, "examples/modes.dbp"),
    "speed_control.part.svg": (commands.timeline, "examples/speed_control.dbp", "--from", "78", "--to", "107"),
    "logger.claims.svg": (commands.timeline, "examples/logger.dbp", "--claims", "doors"),
    "logger.slots.svg": (commands.timeline, "examples/logger.dbp", "--slots", "monitor"),
    "two_late.svg": (commands.timeline, "cases/sim/documents/two_late_at_one_time.dbp"),
    "speed_control.diagram.svg": (commands.diagram, "examples/speed_control.dbp"),
    "logger.dot": (commands.diagram, "examples/logger.dbp", "--dot"),
    "modes.tasks.svg": (commands.timeline, "examples/modes.dbp", "--tasks", "pump,started"),
    "modes.tasks.diagram.svg": (commands.diagram, "examples/modes.dbp", "--tasks", "pump,started"),
    "modes.tasks.dot": (commands.diagram, "examples/modes.dbp", "--dot", "--tasks", "pump,started"),
    "heater.timeline.svg": (commands.timeline, "examples/heater.dbp", "--from", "20", "--to", "41"),
    "heater.slots.svg": (commands.timeline, "examples/heater.dbp", "--from", "15", "--to", "30", "--slots", "stay_warm"),
    "heater.tasks.diagram.svg": (commands.diagram, "examples/heater.dbp", "--tasks", "current,stay_warm"),
    "heater.dot": (commands.diagram, "examples/heater.dbp", "--dot"),
    "version_2.diagram.svg": (commands.diagram, ".ci/tried/pictures/version_2.dbp"),
    "version_2.timeline.svg": (commands.timeline, ".ci/tried/pictures/version_2.dbp"),
    "version_2.dot": (commands.diagram, ".ci/tried/pictures/version_2.dbp", "--dot"),
    "pipeline.cpus.svg": (commands.timeline, "examples/cpus/pipeline.dbp", *ON_PROCESSORS),
    "pipeline.slots.svg": (commands.timeline, "examples/cpus/pipeline.dbp", *ON_PROCESSORS, "--slots", "camera"),
    "pipeline.diagram.svg": (commands.diagram, "examples/cpus/pipeline.dbp"),
}

# What pictures say below the name of each task, by its document: of version 1, and of version 2.
ABOUT = {
    "examples/modes.dbp": [
        ["on go", "prio 3, cost 1"],
        ["on halt", "prio 2, cost 1"],
        ["every 5", "prio 1, cost 2"],
    ],
    "examples/heater.dbp": [
        ["every 5", "when printing", "prio 3, cost 3, cpu 0"],
        ["every 10", "when idle", "prio 2, cost 3, cpu 0"],
        ["every 5", "prio 1, cost 1, cpu 0"],
    ],
    ".ci/tried/pictures/version_2.dbp": [
        ["every 4 from 1", "when on_in_a_long_name_too", "deadline 4, cost 2, cpu 7"],
        ["on press", "when ready", "deadline 3, cost 1, cpu 0"],
        ["on press", "deadline 9, cost 1, cpu 3"],
        ["every 6", "deadline 6, cost 1, cpu 0"],
    ],
}

STATUSES = {
    "a document that overruns on its processors": (0, ["timeline", *ON_PROCESSORS, "examples/cpus/one_processor.dbp"], b""),
    "a command that simulates nothing": (2, ["timeline", "--command", "mean", "examples/logger.dbp"], b"usage"),
    "a refused document on processors": (1, ["timeline", *ON_PROCESSORS, "cases/cpus/documents/refused.dbp"], b"18 Undelayed"),
    "a document that overruns": (0, ["timeline", "examples/sim/late.dbp"], b""),
    "a refused document": (1, ["timeline", "examples/refused/10_duplicate.dbp"], b"10 Duplicate"),
    "a refused document's diagram": (1, ["diagram", "examples/refused/18_undelayed_upward.dbp"], b"18 UndelayedUpward"),
    "no document": (2, ["timeline"], b"usage"),
    "another word": (2, ["diagram", "examples/logger.dbp", "--slots", "monitor"], b"usage"),
    "ticks in the wrong order": (2, ["timeline", "examples/logger.dbp", "--from", "5", "--to", "5"], b"--to"),
    "a tick of 400 digits": (2, ["timeline", "examples/logger.dbp", "--to", "9" * 400], b"is no tick"),
    "ticks after all": (0, ["timeline", "examples/logger.dbp", "--from", "1000000000", "--to", "999999999999"], b""),
    "a tick below 0": (2, ["timeline", "examples/logger.dbp", "--from=-1"], b"-1 is no tick"),
    "tasks of which one isn't there": (2, ["diagram", "examples/logger.dbp", "--tasks", "doors,nobody"], b"no task nobody"),
    "slots and tasks": (2, ["timeline", "examples/logger.dbp", "--slots", "doors", "--tasks", "monitor"], b"usage"),
    "slots of no task": (2, ["timeline", "examples/logger.dbp", "--slots", "nobody"], b"no task nobody"),
    "no such file": (4, ["timeline", "examples/none.dbp"], b"none.dbp"),
    "a picture that can't be written": (5, ["diagram", "examples/logger.dbp", "-o", "examples/none/x.svg"], b"none"),
    "no such program": (70, ["diagram", "examples/logger.dbp", "--program", "examples/none"], b"none"),
}

# What a program in between does to the lines of `sim --record` of examples/preempted.dbp, its exit status, and the
# tick that must be named. Step 17 is the last one of tick 1, and the steps 18 to 27 are those of tick 2.
TAMPERED = {
    "another slot": ("19s/1/0/", 0, 2),
    "two steps exchanged": ("16{h;d};17{G}", 0, 1),
    "no end": ("33d", 0, 4),
    "another task begins": ("21s/sensor/control/", 0, 2),
    "it ends early": ("43d", 0, 5),
    "it goes on": ("$p", 0, 5),
    "an overrun": ("$s/.*/overrun: control 2 at 3/;$!d", 3, 3),
}

# The same of `cpus --record` of docs/pictures/blocked.dbp, whose steps 13 and 14 are those of tick 1, and 15 to 24 of tick 2.
TAMPERED_ON_PROCESSORS = {
    "another slot": ("3s/0/1/", 0, 0),
    "the blocked one served": ("13s/c/b/", 0, 1),
    "the ends of two processors exchanged": ("15{N;N;N;h;d};22{G}", 0, 2),
    "a service before the ends": ("15,22{H;d};24{G}", 0, 2),
    "no end": ("28d", 0, 4),
    "an overrun": ("$s/.*/overrun: b 2 at 6/;$!d", 3, 6),
}

# How many ends of a document are drawn as late ones, and what one says.
LATE = {
    ".ci/tried/check/late_by_priorities.dbp": (1, b"slow 1 ends at 11, after its deadline 9"),
    ".ci/tried/check/late_by_deadlines.dbp": (3, b"b 2 ends at 12, after its deadline 11"),
    "examples/sim/mended.dbp": (0, b"ends at"),
}

SPEC = importlib.util.spec_from_file_location("model_of_processors", TOP / ".ci" / "made" / "drawn_processors.py")
model = importlib.util.module_from_spec(SPEC)
SPEC.loader.exec_module(model)
WALKED, DRAWN = 80, 16  # documents on processors whose courses are compared, and whose pictures are drawn

REPLAY = {Command.SIM: ["replay", "--ranked"], Command.CPUS: ["replay"]}

MOST_ROWS = 50_000

RULES = "".join([*styles.STYLES, *styles.BOX_STYLES])
SIZES = {name: int(size) for name, size in re.findall(r"\.([a-z-]+)\{font-size:(\d+)px", RULES)}
ANCHORS = dict(re.findall(r"\.([a-z-]+)\{[^}]*text-anchor:(\w+)", RULES))


def run_tool(program, words):
    """Runs a tool at the top of the repository, with this program unless the words name another."""
    named = [] if "--program" in words else ["--program", str(program)]
    tool = [sys.executable, "-B", f"tools/{words[0]}"]
    return subprocess.run([*tool, *words[1:], *named], cwd=TOP, capture_output=True, timeout=SECONDS, check=False)


def difference(found, wanted):
    """Returns the first line that differs, or nothing."""
    lines, others = found.splitlines(), wanted.splitlines()
    for number, (line, other) in enumerate(zip(lines, others), 1):
        if line != other:
            return f"line {number} is {line[:200]!r}, and {other[:200]!r} is wanted"
    return None if found == wanted else f"it has {len(lines)} lines, and {len(others)} are wanted"


def exact_fault(program, file, tool, document, *words):
    """Returns how the picture of a call differs from the one that is wanted."""
    with tempfile.TemporaryDirectory() as room:
        out = Path(room) / file
        status = tool([str(TOP / document), *words, "-o", str(out), "--program", str(program)])
        return f"the status is {status}" if status else difference(out.read_bytes(), (WANTED / file).read_bytes())


def about_of(picture):
    """Returns the lines below the names of tasks that a picture has, in the order in which they are drawn."""
    texts = ElementTree.fromstring(picture).iter("{http://www.w3.org/2000/svg}text")
    return [it.text for it in texts if it.get("class") in ("about", "small") and it.text != "tick"]


def about_fault(program, document, wanted):
    """Returns how what the pictures of a document say of its tasks differs; a timeline has them in the order of ranks."""
    found = asking.simulated(program, (TOP / document).read_bytes())
    ranked = [wanted[at] for at in service.rank_order(found.document)]
    told = {
        "diagram": (about_of(diagram.draw_diagram(found.document, "document")), wanted),
        "timeline": (about_of(timeline.draw_timeline(found, "document", (None, None))[0]), ranked),
    }
    for name, (lines, tasks) in told.items():
        if lines != [line for task in tasks for line in task]:
            return f"the {name} says {lines}"
    dotted = dot.dot_text(found.document, "document")
    missing = [task for task in wanted if r"\n".join(task) not in dotted]
    return f"the text for dot lacks {missing}" if missing else None


def status_fault(program, status, words, said):
    """Returns how the status of a call, or what it says on standard error, differs."""
    ran = run_tool(program, words)
    if ran.returncode != status or said not in ran.stderr or (status and ran.stdout):
        return f"the status is {ran.returncode}, and {status} is wanted; it said {ran.stderr[-200:]!r}"
    return None


def tampering(program, room, edit, status, command=Command.SIM):
    """Returns a program that gives the lines of a record through sed, and ends with a status then."""
    words = " ".join(command.record_words)
    return between(program, room, words, f"""'{program}' "$@" | sed '{edit}'; exit {status}""")


def tampered_fault(program, edit, status, tick, document="examples/preempted.dbp", command=Command.SIM):
    """Returns how a record that isn't the program's is taken."""
    with tempfile.TemporaryDirectory() as room:
        try:
            asking.simulated(tampering(program, room, edit, status, command), (TOP / document).read_bytes(), command)
        except record.Disagreement as differing:
            return None if differing.tick == tick else f"the tick is {differing.tick}, and {tick} is wanted"
    return "it was taken"


def refused_record_fault(program):
    """Returns how a call ends whose record isn't the program's."""
    with tempfile.TemporaryDirectory() as room:
        ran = run_tool(tampering(program, room, "33d", 0), ["timeline", "examples/preempted.dbp"])
    said = b"timeline: preempted.dbp: the record and the computed order differ at tick 4: step 33 is `end control`"
    is_right = ran.returncode == 1 and not ran.stdout and ran.stderr.startswith(said)
    return None if is_right else f"the status is {ran.returncode}, and it said {ran.stderr!r}"


def late_fault(program, document, count, said):
    """Returns how the late ends of a document are drawn, if not in red, each once, and with a line in the legend."""
    picture = run_tool(program, ["timeline", document]).stdout
    marks, is_in_legend = picture.count(b'class="late"'), b"end after the deadline" in picture
    is_right = marks == count + is_in_legend and is_in_legend == (count > 0) == (b".late{stroke:#d01010" in picture)
    return None if is_right and said in picture else f"{marks} marks are red, the legend has one: {is_in_legend}"


def picture_fault(program, picture):
    """Returns how a picture of docs/ differs from one that is drawn anew."""
    return difference(picture.draw(program), (gallery.FOLDER / picture.file).read_bytes())


def text_boxes(picture):
    """Returns the place of each text of a picture: its left, top, right and bottom, and the text."""
    boxes = []
    for it in ElementTree.fromstring(picture).iter("{http://www.w3.org/2000/svg}text"):
        size = SIZES.get(it.get("class"), 12)
        width = svg.text_width(it.text or "", size) * 0.9
        left = float(it.get("x")) - {"middle": width / 2, "end": width}.get(ANCHORS.get(it.get("class")), 0)
        boxes.append((left, float(it.get("y")) - 0.7 * size, left + width, float(it.get("y")), it.text))
    return boxes


def overlap(picture):
    """Returns two texts of a picture that overlap, or nothing. An error comes if the picture isn't well-formed."""
    boxes = sorted(text_boxes(picture), key=lambda box: box[:2])
    for number, (_, top, right, bottom, text) in enumerate(boxes):
        for other in boxes[number + 1 :]:
            if other[0] >= right:
                break
            if other[1] < bottom and top < other[3]:
                return f"{text!r} and {other[4]!r} overlap"
    return None


def values_of(found):
    """Returns the values that pictures tell of reads, by the task, the read, and the number of the instance."""
    values = {}
    for claim in courses.claims_of(found, courses.courses_of(found)):
        it = claim.reader.instance
        for place in (place for places in claim.reads.values() for place in places):
            read = found.document.tasks[it.task].reads[place]
            key = found.document.tasks[it.task].name, read.name, it.number
            values[key] = found.value(claim.writer, claim.row, read.port)
    return values


def taken_fault(found, replayed):
    """Returns how the values that pictures tell differ from those that reads take when the program replays the record."""
    counts, values = Counter(), {}
    for line in replayed:
        step, _, heard = line.partition(" -> ")
        if step.startswith("take "):
            counts[step] += 1
            values[(*step.split()[1:], counts[step])] = int(heard)
    told = values_of(found)
    return None if told == values else f"told is {set(told.items()) - set(values.items())}, and {values} is taken"


def heard_fault(program, found, form, lines):
    """Returns how the computed orders and values differ from what tasks hear when the program replays the record."""
    document = asking.read_document(form)
    steps = record.steps_of(document, found.service)
    wanted = [f"{it.line} -> slot {it.order.slot} number {it.order.row}" for it in steps if it.line.startswith("hear ")]
    heard = asking.answer(program, REPLAY[found.command], with_script(form, document, lines)).decode().splitlines()
    orders = difference("\n".join(it for it in heard if it.startswith("hear ")), "\n".join(wanted))
    return orders or taken_fault(found, heard)


def drawn_fault(program, text, command=Command.SIM):
    """Returns what is wrong with the pictures of a document, if the program accepts it."""
    try:
        found = asking.simulated(program, text, command)
    except asking.Refused:
        return None
    except record.Disagreement as differing:
        return f"the record and the computed order differ at {differing}"
    document = found.document
    pictures = [timeline.draw_timeline(found, "document", (None, None))[0], diagram.draw_diagram(document, "document")]
    pictures += [slot_rows.draw_slots(found, "document", (None, None), task.name)[0] for task in document.tasks[:2]]
    for tasks in ([0], [len(document.tasks) - 1, 0]) if document.tasks else ():
        pictures.append(timeline.draw_timeline(found, "document", (None, None), None, sorted(set(tasks)))[0])
    dot.dot_text(document, "document")
    form, _ = asking.canonical_text(program, text)
    steps, overrun = asking.record_text(program, form, command)
    heard = None if overrun else heard_fault(program, found, form, steps.splitlines())
    return next(filter(None, map(overlap, pictures)), None) or heard


def ticks_of(stretches):
    """Returns the ticks of stretches of time."""
    return [tick for start, stop in stretches for tick in range(start, stop)]


def walked_fault(program, drawn):
    """Returns how the courses of a drawn document's instances differ from those that a walk through its ticks gives."""
    walk = model.Walk(drawn)
    found = asking.simulated(program, drawn.text(), Command.CPUS)
    wanted = walk.overrun and service.Overrun(f"t{walk.overrun[0]}", *walk.overrun[1:])
    if found.overrun != wanted:
        return f"the overrun is {found.overrun}, and {walk.overrun} is wanted"
    given = courses.courses_of(found)
    if {*given} != {(it.task, it.number) for it in walk.instances}:
        return f"the instances are {sorted(given)}"
    for it in walk.instances:
        course, blocked = given[it.task, it.number], walk.blocked.get((it.task, it.number), [])
        stop = walk.overrun[2] if walk.is_waiting(it) else it.served[-1] + 1
        first = it.served[0] if it.served else stop
        idle = [tick for tick in range(it.release, stop) if tick not in it.served and tick not in blocked]
        kinds = course.spans, course.blocked, course.waits(), course.gaps()
        wanted = it.served, blocked, [tick for tick in idle if tick < first], [tick for tick in idle if tick > first]
        if (*map(ticks_of, kinds), course.end) != (*wanted, None if walk.is_waiting(it) else stop):
            return f"t{it.task} {it.number} is {course}, and {wanted} is wanted"
    return None


def run_slots_fault(program):
    """Returns which slots are drawn of a task that has two in a simulation by rank, and a third for a reader above it."""
    text = (TOP / "cases" / "cpus" / "record" / "slots_of_a_run.dbp").read_bytes()
    for command, wanted in ((Command.SIM, 2), (Command.CPUS, 3)):
        picture, _ = slot_rows.draw_slots(asking.simulated(program, text, command), "document", (None, None), "b")
        found = re.findall(r">(slot \d)<", picture)
        if found != [f"slot {number}" for number in range(wanted)]:
            return f"{command.value} has {found}"
    return None


def processors_fault(program, seed):
    """Returns what is wrong with the pictures of a drawn document on its processors."""
    drawn = model.drawn_document(seed, seed % model.MOST_PROCESSORS + 1)
    pictures = drawn_fault(program, drawn.text(), Command.CPUS) if seed < DRAWN else None
    return pictures or walked_fault(program, drawn)


def documents():
    """Returns the documents whose pictures are tried."""
    return sorted([*(TOP / "examples").rglob("*.dbp"), *(TOP / "cases" / "sim").rglob("*.dbp"), *WANTED.glob("*.dbp")])


def narrow_fault(program):
    """Returns what is wrong with a timeline of many instances: it isn't wide, and bars without a number tell theirs."""
    text = b"dbp 1\npolicy fp\nuntil 1000\ntask a every 1 prio 1 cost 1\n  out y = 0 then 1\ndone\n"
    picture, _ = timeline.draw_timeline(asking.simulated(program, text), "document", (0, 1000))
    width = float(re.search(r'<svg [^>]*width="([0-9.]+)"', picture)[1])
    if width > 1800 or 'class="number"' in picture:
        return f"the width is {width}"
    return None if "<title>a 1000 is served from 999 to 1000</title>" in picture else "instance 1000 is told nowhere"


def long_text(first):
    """Returns a document with 50,000 rows, of which two are only one tick apart from the one before: the task overruns."""
    times = [2 * row - (row == first or row == MOST_ROWS - 1) for row in range(MOST_ROWS)]
    rows = "".join(f"{time},1\n" for time in times)
    head = f"dbp 1\npolicy fp\nuntil {2 * MOST_ROWS}\nevent go\ntask a on go prio 1 cost 2\n  out y = 0 then 1\n"
    return f"{head}trace\ntime,go\n{rows}done\n".encode()


def long_fault(program, first):
    """Returns how the timeline of a long document that overruns differs. With work that is no multiple of the document's
    length it takes minutes."""
    picture, _ = timeline.draw_timeline(asking.simulated(program, long_text(first)), "document", (None, None))
    return None if f"overrun: a {first + 1} at {2 * first - 1}" in picture else "the overrun isn't told"


def trials(program):
    """Yields the trials: a name, and a call that returns what differs, or nothing."""
    for file, words in EXACT.items():
        yield f"exact {file}", lambda it=(file, *words): exact_fault(program, *it)
    for document, wanted in ABOUT.items():
        yield f"what is said of the tasks of {document}", lambda it=(document, wanted): about_fault(program, *it)
    for name, wanted in STATUSES.items():
        yield f"status of {name}", lambda it=wanted: status_fault(program, *it)
    for document, wanted in LATE.items():
        yield f"late ends of {document}", lambda it=(document, *wanted): late_fault(program, *it)
    for name, wanted in TAMPERED.items():
        yield f"a record with {name}", lambda it=wanted: tampered_fault(program, *it)
    yield "status of a record that differs", lambda: refused_record_fault(program)
    yield "many instances", lambda: narrow_fault(program)
    for first in (1, MOST_ROWS - 1):
        yield f"50,000 rows that overrun at row {first}", lambda it=first: long_fault(program, it)
    for picture in gallery.PICTURES:
        yield f"docs/pictures/{picture.file}", lambda it=picture: picture_fault(program, it)
    for file in documents():
        yield f"drawn {file.relative_to(TOP)}", lambda it=file: drawn_fault(program, it.read_bytes())
    for name, wanted in TAMPERED_ON_PROCESSORS.items():
        arguments = (*wanted, "docs/pictures/blocked.dbp", Command.CPUS)
        yield f"a record on processors with {name}", lambda it=arguments: tampered_fault(program, *it)
    yield "the slots of a run", lambda: run_slots_fault(program)
    for file in [*sorted((TOP / "examples").rglob("*.dbp")), *sorted((TOP / "cases" / "cpus").rglob("*.dbp"))]:
        name = f"drawn {file.relative_to(TOP)} on processors"
        yield name, lambda it=file: drawn_fault(program, it.read_bytes(), Command.CPUS)
    for seed in range(WALKED):
        yield f"drawn document {seed} on processors", lambda it=seed: processors_fault(program, it)
