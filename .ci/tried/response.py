"""tools/response: its figures of drawn documents, on one processor and on several, are those of a plain walk through the
ticks, and no bound is below a response time; its forms, its verdicts, its statuses, and its times with 100,000 occurrences.
Where no bounds are told, a program in between has no command `rta`.
"""

import csv
import importlib.util
import json
import subprocess
import sys
import tempfile
from fractions import Fraction
from functools import partial
from pathlib import Path
from xml.etree import ElementTree

TOP = Path(__file__).resolve().parents[2]
MODEL = TOP / ".ci" / "made" / "drawn_processors.py"
WANTED = Path(__file__).resolve().parent / "response"
sys.path[:0] = [str(TOP / "tools"), str(TOP / "bench"), str(TOP / ".ci")]

from awaited import SECONDS  # noqa: E402
from documents import many_tasks, one_task  # noqa: E402
from responses.bounds import Assumed, Demand, least_response  # noqa: E402
from responses.chains import Port  # noqa: E402
from responses.command import judged  # noqa: E402
from responses.tables import json_text  # noqa: E402
from running import run  # noqa: E402
from stand_ins import between, without_rta  # noqa: E402

SPEC = importlib.util.spec_from_file_location("model_of_processors", MODEL)
processors = importlib.util.module_from_spec(SPEC)
SPEC.loader.exec_module(processors)
model = processors.one
ON_PROCESSORS = (*range(60), 324)  # drawn documents; in the last one an instance is blocked twice

DISTANCES = {"e": 4, "f": 2}  # that are assumed of the events of drawn documents


def rounded(total, count):
    """Returns a mean with three digits, rounded up, as JSON has it."""
    return float(f"{-(-1000 * total // count) / 1000:.3f}")


def least_step(times):
    """Returns the least distance of two times in a row, or nothing."""
    return min((times[at] - times[at - 1] for at in range(1, len(times))), default=None)


def spread(values):
    """Returns how far apart values are, or nothing."""
    return max(values) - min(values) if values else None


def processor_of(task):
    """Returns the processor of a drawn task."""
    return getattr(task, "cpu", 0)


def is_on_processors(drawn):
    """Whether some processor of a drawn document isn't 0."""
    return any(map(processor_of, drawn.tasks))


def figures_on_processors(walk, place):
    """Returns what is told beside of a task of a document on processors."""
    blocked = {it.number: walk.blocked.get((place, it.number), []) for it in walk.ended(place)}
    gaps = []
    for it in walk.ended(place):
        idle = [range(before + 1, after) for before, after in zip(it.served, it.served[1:])]
        gaps.append(sum(any(tick not in blocked[it.number] for tick in ticks) for ticks in idle))
    ticks = max(map(len, blocked.values()), default=None)
    return {"cpu": processor_of(walk.drawn.tasks[place]), "preemptions": max(gaps, default=None), "blocked": ticks}


def wanted_figures(walk, place):
    """Returns the figures of a task that a walk gives, without its load and bound."""
    drawn, task, ended = walk.drawn, walk.drawn.tasks[place], walk.ended(place)
    responses = [it.served[-1] + 1 - it.release for it in ended]
    greatest = max(responses, default=None)
    times = [time for time, (_, events) in drawn.rows.items() if task.clock in events]
    limit = task.deadline or (least_step(times) if task.clock in model.EVENTS else task.clock)
    gaps = [sum(after > before + 1 for before, after in zip(it.served, it.served[1:])) for it in ended]
    on_processors = figures_on_processors(walk, place) if is_on_processors(drawn) else {}
    return {
        "task": task.name,
        "instances": len(ended),
        "least": min(responses, default=None),
        "mean": rounded(sum(responses), len(responses)) if responses else None,
        "greatest": greatest,
        "tick": ended[responses.index(greatest)].release if responses else None,
        "limit": limit,
        "slack": None if greatest is None or limit is None else limit - greatest,
        "preemptions": max(gaps, default=None),
        "start_jitter": spread([it.served[0] - it.release for it in ended]),
        "end_jitter": spread(responses),
        **on_processors,
    }


def kept_distances(drawn):
    """Returns the assumed distances of events that the trace keeps, and the first times of each that are nearer."""
    kept, nearer = {}, []
    for event, distance in DISTANCES.items():
        times = [time for time, (_, events) in drawn.rows.items() if event in events]
        near = [pair for pair in zip(times, times[1:]) if pair[1] - pair[0] < distance]
        nearer += [(event, *near[0])] if near else []
        kept.update({} if near else {event: distance})
    return kept, nearer


def wanted_bounds(drawn, is_told):
    """Returns the distance of each task's releases, and its bound, as a walk up by the plain formula gives them."""
    kept, _ = kept_distances(drawn)
    distances = [kept.get(it.clock) if it.clock in model.EVENTS else it.clock for it in drawn.tasks]
    is_periodic = not any(it.condition or it.clock in model.EVENTS for it in drawn.tasks)
    cpus = [processor_of(it) for it in drawn.tasks]
    is_several = len({*cpus}) > 1
    is_answered = is_told and drawn.policy == "fp" and is_periodic and not is_several
    bounds = []
    for place, distance in enumerate(distances):
        higher = [other for other in range(len(distances)) if drawn.rank(other) < drawn.rank(place)]
        above = [other for other in higher if cpus[other] == cpus[place]]
        waits = [at for at in [place, *above] for writer, delay, _ in drawn.tasks[at].reads
                 if delay == 0 and cpus[writer] != cpus[place]]
        counted = [place, *(higher if waits else above)]
        if drawn.policy == "edf" or None in [distances[at] for at in counted]:
            bounds.append(None)
        else:
            plain = [(distances[at], drawn.tasks[at].cost, drawn.rank(at)) for at in counted]
            bounds.append(model.response_bound(plain, 0) or (None if waits else "beyond"))
    is_own = any(bounds) if is_several else drawn.policy == "fp"
    return distances, bounds, "dbp rta" if is_answered else "tools/response" if is_own else None


def wanted_verdicts(walk, bounds):
    """Returns the verdicts that a walk and bounds give."""
    drawn, found = walk.drawn, []
    if walk.overrun:
        found.append("overrun: t%d %d at %d" % walk.overrun)
    missed = walk.missed()
    if missed:
        found.append(f"late: t{missed[2].task} {missed[2].number} at {missed[0]}")
    for task, bound in zip(drawn.tasks, bounds):
        if task.deadline and bound and (bound == "beyond" or bound > task.deadline):
            found.append(f"bound: {task.name} {bound}, and its deadline is {task.deadline}")
    for event, before, time in kept_distances(drawn)[1]:
        what = f"{time - before} after {before}, and {DISTANCES[event]} is assumed"
        found.append(f"distance: {event} at {time} is {what}")
    return found


def drawn_chain(drawn):
    """Returns the longest chain of reads from the first task that has one, by taking the first read of each next task."""
    for first in range(len(drawn.tasks)):
        chain = [first]
        while True:
            readers = [at for at, it in enumerate(drawn.tasks) if chain[-1] in [writer for writer, _, _ in it.reads]]
            nexts = [at for at in readers if at not in chain]
            if not nexts:
                break
            chain.append(nexts[0])
        if len(chain) > 1:
            return chain
    return []


def origin(walk, chain, number, choose):
    """Returns the numbers of the instances along a chain from which data come, by the delays that `choose` takes."""
    numbers = [number]
    for writer, reader in zip(chain[-2::-1], chain[:0:-1]):
        reads = [delay for other, delay, _ in walk.drawn.tasks[reader].reads if other == writer]
        time = walk.of(reader)[numbers[0] - 1].release
        number = sum(it.release <= time for it in walk.of(writer)) - choose(reads)
        if number < 1:
            return None
        numbers = [number, *numbers]
    return numbers


def told_span(walk, chain, first, last, numbers):
    """Returns a time from the release of an instance to the end of another as JSON has it."""
    before = [(chain[0], first)] if first != numbers[0] else []
    start, stop = walk.of(chain[0])[first - 1].release, last.served[-1] + 1
    instances = [{"task": f"t{task}", "instance": number} for task, number in [*before, *zip(chain, numbers)]]
    return {"length": stop - start, "from": start, "to": stop, "instances": instances}


def wanted_chain(walk, chain):
    """Returns the greatest age and reaction time of a chain, by trying each instance of its first and its last task."""
    ages, reactions, lasts = [], [], walk.ended(chain[-1])
    for last in lasts:
        numbers = origin(walk, chain, last.number, max)
        ages += [told_span(walk, chain, numbers[0], last, numbers)] if numbers else []
    for first in range(1, len(walk.of(chain[0]))):
        for last in lasts:
            numbers = origin(walk, chain, last.number, min)
            if numbers and numbers[0] > first:
                reactions.append(told_span(walk, chain, first, last, numbers))
                break
    greatest = partial(max, key=lambda it: it["length"], default=None)
    return {"age": greatest(ages), "reaction": greatest(reactions)}


def difference(found, wanted):
    """Returns the first part in which what is found differs from what is wanted, or nothing."""
    for name in wanted:
        if found.get(name, "nothing") != wanted[name]:
            return f"{name} is {found.get(name, 'nothing')}, and {wanted[name]} is wanted"
    return None


def is_reached(drawn):
    """Whether the first instances of a drawn document reach the bounds: those of tasks with a period, all with offset 0."""
    is_periodic = drawn.rta()[0] == model.OK and None not in drawn.bounds()
    return is_periodic and not is_on_processors(drawn) and not any(it.offset for it in drawn.tasks)


def drawn_fault(program, drawn, is_told):
    """Returns how what the tool says of a drawn document differs from what the walk gives, or nothing; with bounds that
    are told by `rta`, or not."""
    walk, chain = (processors if is_on_processors(drawn) else model).Walk(drawn), drawn_chain(drawn)
    assumed = [Assumed(event, distance) for event, distance in DISTANCES.items()]
    report, verdicts = judged(program, drawn.text(), assumed, [Port(f"t{at}", "y") for at in chain])
    found = json.loads(json_text(report, verdicts))
    distances, bounds, by = wanted_bounds(drawn, is_told)
    for place, (row, distance, bound) in enumerate(zip(found["tasks"], distances, bounds)):
        wanted = wanted_figures(walk, place)
        is_number = isinstance(bound, int) and wanted["greatest"] is not None
        wanted["load"] = rounded(drawn.tasks[place].cost, distance) if distance else None
        wanted["bound"], wanted["under_bound"] = bound, bound - wanted["greatest"] if is_number else None
        if difference(row, wanted) or {*row} != {*wanted}:
            return f"{drawn.tasks[place].name}: {difference(row, wanted) or list(row)}"
        if is_number and bound < wanted["greatest"]:
            return f"the bound {bound} of {drawn.tasks[place].name} is below {wanted['greatest']}"
        if is_reached(drawn) and bound != wanted["greatest"]:
            return f"the bound {bound} of {drawn.tasks[place].name} isn't reached with all offsets 0"
    wanted = {"chain": wanted_chain(walk, chain) if chain else {}, "verdicts": wanted_verdicts(walk, bounds)}
    if is_on_processors(drawn):
        wanted["loads"] = loads_by_processor(drawn, distances)
    wanted["load"] = float(f"{-(-1000 * sum(loads_of(drawn, distances)) // 1) / 1000:.3f}")
    return difference(found, wanted) or difference(found["bounds"], {"by": by, "is_proved": by == "dbp rta"})


def loads_by_processor(drawn, distances):
    """Returns the sum of the loads of the tasks of each processor that has one."""
    found = {}
    for task, distance in zip(drawn.tasks, distances):
        found.setdefault(str(task.cpu), []).append(Fraction(task.cost, distance) if distance else 0)
    return {cpu: rounded(sum(loads), 1) for cpu, loads in found.items()}


def loads_of(drawn, distances):
    """Returns the loads of the tasks whose releases are a known distance apart."""
    return [Fraction(task.cost, distance) for task, distance in zip(drawn.tasks, distances) if distance]


def seed_fault(program, seed, offsets):
    """Returns what differs of the documents of a seed with so many offsets, with `rta` each, and one without."""
    documents = [model.drawn_document(seed, number) for number in range(offsets)]
    faults = [drawn_fault(str(program), it, True) for it in documents]
    with tempfile.TemporaryDirectory() as room:
        faults.append(drawn_fault(without_rta(program, room), documents[0], False))
    return next((f"offsets {number}: {fault}" for number, fault in enumerate(faults) if fault), None)


def processors_fault(program, seed):
    """Returns what differs of a drawn document on processors."""
    return drawn_fault(str(program), processors.drawn_document(seed, seed % processors.MOST_PROCESSORS + 1), True)


def call(program, words, document=b""):
    """Runs the tool at the top of the repository."""
    command = [sys.executable, "-B", "tools/response", "--program", str(program), *words]
    return subprocess.run(command, cwd=TOP, input=document, capture_output=True, timeout=SECONDS, check=False)


def exact_fault(program, file, way, status, words):
    """Returns how what a call writes differs from a file: what comes on standard output, and then on standard error."""
    with tempfile.TemporaryDirectory() as room:
        ran = call(WAYS[way](program, room), words)
    wanted = (WANTED / file).read_bytes()
    is_wanted = ran.returncode == status and ran.stdout + ran.stderr == wanted
    return None if is_wanted else f"the status is {ran.returncode}; it wrote {(ran.stdout + ran.stderr).decode()[:600]!r}"


def status_fault(program, words, status, said):
    """Returns how a call that writes nothing ends differently than is wanted."""
    ran = call(program, words)
    is_wanted = ran.returncode == status and ran.stdout == b"" and said in ran.stderr.decode()
    return None if is_wanted else f"the status is {ran.returncode}; it said {ran.stderr.decode()[-300:]!r}"


def answered_fault(program, answer, status, said):
    """Returns how the tool ends if the program answers `rta` otherwise than it may."""
    with tempfile.TemporaryDirectory() as room:
        return status_fault(between(program, room, "rta", answer), ["examples/cascade.dbp"], status, said)


def tampered_fault(program, command, document, said):
    """Returns how the tool ends if the record isn't the one of the computed order: its step 33 is missing."""
    with tempfile.TemporaryDirectory() as room:
        tampering = between(program, room, f"{command} --record", f"'{program}' \"$@\" | sed '33d'; exit 0")
        said = f"response: {Path(document).name}: the record and the computed order differ at {said}"
        return status_fault(tampering, [document], 1, said)


def texts_of(picture, name):
    """Returns the texts of a picture's elements of a class, and what one sees if one points at them."""
    found = [it for it in ElementTree.fromstring(picture).iter() if it.get("class") == name]
    return [it.text or "".join(child.text for child in it) for it in found]


def worst_fault(program, document, task, number, ticks):
    """Returns how the timeline around the greatest response time of a task differs: its title, and its ticks."""
    ran = call(program, ["--worst", task, document])
    if ran.returncode or ran.stderr:
        return f"the status is {ran.returncode}; it said {ran.stderr!r}"
    title, about = texts_of(ran.stdout, "title")[0], texts_of(ran.stdout, "legend")[0]
    is_wanted = title.endswith(f"{task} {number}: timeline") and f"ticks {ticks[0]} to {ticks[1]}" in about
    return None if is_wanted else f"the picture is {title!r}, {about!r}"


def histogram_fault(program, document, task, way):
    """Returns how the bars of a histogram, and the lines of the limit and the bound, differ from the tool's figures."""
    with tempfile.TemporaryDirectory() as room:
        used = WAYS[way](program, room)
        ran = call(used, ["--histogram", task, document])
        table = call(used, ["--csv", document]).stdout.decode().splitlines()
    row = next(it for it in csv.DictReader(table) if it["task"] == task)
    counts = [it.split(" with a response time of ") for it in texts_of(ran.stdout, "bar")]
    lines = {name: texts_of(ran.stdout, name) for name in ("limit", "bound")}
    marks = {name: int(row[name]) for name in lines if row[name] not in ("", "beyond")}
    drawn = {name for name, time in marks.items() if time <= 4 * int(row["greatest"] or 0)}
    wanted = {name: [f"{name} {marks[name]}"] if name in drawn else [] for name in lines}
    told = all(f"; {name} {marks[name]}" in texts_of(ran.stdout, "legend")[0] for name in marks.keys() - drawn)
    ticks = [int(tick) for _, words in counts for tick in words.split(" to ")]
    is_whole = sum(int(count) for count, _ in counts) == int(row["instances"])
    is_within = not ticks or (ticks[0] <= int(row["least"]) and ticks[-1] >= int(row["greatest"]))
    return None if lines == wanted and told and is_whole and is_within else f"the bars are {counts}, the lines {lines}"


def mean_of_bars_fault(program):
    """Returns how the bars of a histogram with single ticks differ from the mean."""
    ran = call(program, ["--histogram", "control", ".ci/tried/response/two_ways.dbp"])
    counts = [map(int, it.split(" with a response time of ")) for it in texts_of(ran.stdout, "bar")]
    total = sum(count * ticks for count, ticks in counts)
    return None if total == 21 else f"the sum of the bars is {total}"


def large_call(program, document):
    """Returns a call of the tool with a document at the limits."""
    return run([sys.executable, "-S", str(TOP / "tools" / "response"), "--program", str(program), "--csv", "-"], document)


def large_fault(program, document, occurrences):
    """Returns how the instances of a document at the limits differ from its occurrences."""
    ran = large_call(program, document)
    found = sum(int(row["instances"]) for row in csv.DictReader(ran.stdout.decode().splitlines()))
    return f"the status is {ran.status}, and it has {found} instances" if ran.status or found != occurrences else None


def least_response_fault():
    """Returns a bound that isn't as it must be for tasks by which a plain walk up takes long."""
    higher = [Demand(1, period) for period in (2, 3, 7, 43, 1807)]
    found = [least_response(cost, higher, 10**9) for cost in (1, 2, 27)]
    full = least_response(1, [Demand(1, 2), Demand(1, 2)], 10**9)
    return None if (found, full) == ([3_263_442, 6_526_884, 88_112_934], None) else f"it is {found} and {full}"


WAYS = {"with rta": lambda program, _: str(program), "without rta": without_rta}

CHAIN = ["--chain", "level.y,control.u,display.line"]

# A file with what is wanted, whether the program answers `rta`, the status, and the words.
EXACT = (
    ("alarm.txt", "without rta", 1, [".ci/tried/response/alarm.dbp"]),
    ("alarm.assumed.txt", "with rta", 1, ["--assume-distance", "alarm=20", ".ci/tried/response/alarm.dbp"]),
    ("alarm.nearer.txt", "with rta", 1, ["--assume-distance=alarm=28", ".ci/tried/response/alarm.dbp"]),
    ("alarm.refused.txt", "with rta", 1, [".ci/tried/response/alarm.dbp"]),
    ("late_at_the_overrun.txt", "with rta", 1, [".ci/tried/response/late_at_the_overrun.dbp"]),
    ("two_ways.txt", "with rta", 0, [*CHAIN, ".ci/tried/response/two_ways.dbp"]),
    ("two_ways.json", "without rta", 0, [*CHAIN, "--json", ".ci/tried/response/two_ways.dbp"]),
    ("two_ways.csv", "with rta", 0, ["--csv", ".ci/tried/response/two_ways.dbp"]),
    ("nothing.csv", "with rta", 0, ["--csv", ".ci/tried/response/nothing.dbp"]),
    ("nothing.txt", "with rta", 0, ["--chain", "a.y,b.y", ".ci/tried/response/nothing.dbp"]),
    ("pipeline.txt", "with rta", 0, ["--chain", "camera.picture,search.line,steer.angle", "examples/cpus/pipeline.dbp"]),
    ("pipeline.csv", "with rta", 0, ["--csv", "examples/cpus/pipeline.dbp"]),
)

# Words, the status, and what is said.
STATUSES = (
    ([], 2, "usage: response "),
    (["--csv", "--json", "examples/cascade.dbp"], 2, "usage: response "),
    (["--chain", "speed.drive", "examples/cascade.dbp"], 2, "speed.drive isn't of the form TASK.OUT,TASK.OUT,.."),
    (["--chain", "speed.drive,place", "examples/cascade.dbp"], 2, "isn't of the form TASK.OUT,TASK.OUT,.."),
    (["--chain", "speed.none,place.wanted", "examples/cascade.dbp"], 2, "the document has no out speed.none"),
    (["--chain", "control.u,level.y", ".ci/tried/response/two_ways.dbp"], 2, "level doesn't read control.u"),
    (["--worst", "none", "examples/cascade.dbp"], 2, "the document has no task none"),
    (["--histogram", "none", "examples/cascade.dbp"], 2, "the document has no task none"),
    (["--assume-distance", "none=5", "examples/cascade.dbp"], 2, "the document has no event none"),
    (["--assume-distance", "e=0", "examples/cascade.dbp"], 2, "e=0 isn't of the form EVENT=N"),
    (["--assume-distance", "e", "examples/cascade.dbp"], 2, "e isn't of the form EVENT=N"),
    (["--assume-distance=alarm=9", "--assume-distance=alarm=8", ".ci/tried/response/alarm.dbp"], 2, "two distances"),
    (["examples/refused/18_undelayed_upward.dbp"], 1, "18_undelayed_upward.dbp: refused: line 7: 18 UndelayedUpward"),
    (["examples/none.dbp"], 4, "examples/none.dbp: No such file"),
    (["-o", "examples/none/x.csv", "examples/cascade.dbp"], 5, "examples/none/x.csv: No such file"),
    (["--program", "examples/none", "examples/cascade.dbp"], 70, "examples/none"),
)

# What a program in between does in place of `rta`, the status, and what is said.
ANSWERS = {
    "names another task": ("echo speed,1,5; echo other,8,20; exit 0", 70, "isn't one of dbp"),
    "is no table": ("echo yes; exit 0", 70, "isn't one of dbp"),
    "has no memory": ("exit 6", 6, "status 6"),
    "ends as dbp never does": ("exit 9", 70, "status is 9"),
}

# The command whose record lacks its step 33, the document, and what is said.
TAMPERED = (
    ("sim", "examples/preempted.dbp", "tick 4: step 33 is `end control`"),
    ("cpus", "examples/cpus/pipeline.dbp", "tick 6: step 33 is `put search line`"),
)

# A document and a task, the number of the instance with the greatest response time, and the ticks that are drawn.
WORST = (
    (".ci/tried/response/alarm.dbp", "control", 2, (6, 21)),
    (".ci/tried/response/two_ways.dbp", "level", 1, (0, 4)),
    ("examples/speed_control.dbp", "control", 5, (75, 93)),
    ("examples/cpus/pipeline.dbp", "steer", 1, (0, 11)),
)

HISTOGRAMS = (
    (".ci/tried/response/two_ways.dbp", "control"),
    (".ci/tried/response/alarm.dbp", "report"),
    (".ci/tried/response/late_at_the_overrun.dbp", "log"),
    ("examples/speed_control.dbp", "control"),
    ("examples/speed_control.dbp", "filter"),
    ("examples/cpus/pipeline.dbp", "camera"),
)

# Documents with as many occurrences as a document may have.
LARGE = {
    "one task": (one_task(100_000), 100_000),
    "32 tasks": (many_tasks(100_000), 100_000),
}


def trials(program):
    """Yields the trials: a name, and a call that returns what differs, or nothing."""
    for seed in range(model.DOCUMENTS):
        yield f"document {seed}", partial(seed_fault, program, seed, model.OFFSETS)
    for file, *wanted in EXACT:
        yield f"exact {file}", partial(exact_fault, program, file, *wanted)
    for words, *wanted in STATUSES:
        yield f"status of {' '.join(words)}", partial(status_fault, program, words, *wanted)
    for name, wanted in ANSWERS.items():
        yield f"`rta` {name}", partial(answered_fault, program, *wanted)
    for command, *wanted in TAMPERED:
        yield f"a record of `{command}` that differs", partial(tampered_fault, program, command, *wanted)
    for seed in ON_PROCESSORS:
        yield f"document {seed} on processors", partial(processors_fault, program, seed)
    for document, task, *wanted in WORST:
        yield f"--worst {task} of {document}", partial(worst_fault, program, document, task, *wanted)
    for document, task in HISTOGRAMS:
        for way in WAYS:
            yield f"--histogram {task} of {document}, {way}", partial(histogram_fault, program, document, task, way)
    yield "the bars of a histogram", partial(mean_of_bars_fault, program)
    yield "bounds that take long to walk up to", least_response_fault
    for name, wanted in LARGE.items():
        yield f"100,000 occurrences of {name}", partial(large_fault, program, *wanted)
