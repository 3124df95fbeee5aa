"""tools/test: what holds is judged again by hand and by another reading of each property; its evaluator is compared with the
program on drawn documents; what it writes is read again; and faults that are planted in the example are found.

The outs of .ci/tried/tests_of_diagrams/level.dbp, computed by hand:

  tick          0  1  2  3  4  5  6  7  8  9  10  11
  sensor.level  5     8     9     9     -3    -3
  count.knocks           1                         2
  judge.high       0        .  1           0
  judge.risen      0           1           0
"""

import random
import re
import shutil
import signal
import subprocess
import sys
import tempfile
import xml.etree.ElementTree as ElementTree
from functools import partial
from html.parser import HTMLParser
from pathlib import Path

TOP = Path(__file__).resolve().parents[2]
TEST = TOP / "tools" / "test"
LEVEL = Path(__file__).resolve().parent / "tests_of_diagrams" / "level.dbp"
CRUISE = TOP / "examples" / "cruise_control" / "cruise_control.dbp"

sys.path[:0] = [str(TOP / "tools"), str(TOP / ".ci")]

from awaited import SECONDS, wait_for, wait_until  # noqa: E402
from canonical import read_document  # noqa: E402
from checking.reading import read_document as read_places  # noqa: E402
from checking.trees import Tree  # noqa: E402
from comparing import Wrong, must  # noqa: E402
from drawn_documents import drawn_document  # noqa: E402
from program import run_program  # noqa: E402
from served import own_signals  # noqa: E402
from stand_ins import between  # noqa: E402
from testing.beside import declared_in  # noqa: E402
from testing.drawing import Drawer  # noqa: E402
from testing.evaluation import evaluator  # noqa: E402
from testing.expectations import read_expectations  # noqa: E402
from testing.judging import failure_of  # noqa: E402
from testing.meaning import Meaning  # noqa: E402
from testing.properties import read_properties, tokens_of_line  # noqa: E402
from testing.standing import Standing  # noqa: E402

DRAWN = 75  # documents; bench/testing.py draws 1,000
LEAST, MOST = -(2**63), 2**63 - 1

# Expressions and their values, by docs/LANGUAGE.md.
VALUES = {
    "-7 / 2": -3,
    "7 / -2": -3,
    "-7 / -2": 3,
    "-7 % 3": -1,
    "7 % -3": 1,
    "-7 % -3": -1,
    "5 / 0": 0,
    "-5 % 0": 0,
    f"{LEAST} / -1": MOST,
    f"{LEAST} % -1": 0,
    f"{MOST} + 1": MOST,
    f"{LEAST} - 1": LEAST,
    f"{LEAST} + 1": LEAST + 1,
    f"{LEAST} * -1": MOST,
    f"{MOST} * {MOST}": MOST,
    f"{MOST} * -2": LEAST,
    f"- {LEAST}": MOST,
    f"{MOST} + 1 - 1": MOST - 1,
    f"{MOST} / 2 * 3": MOST,
    "2 and 4": 1,
    "0 and 4": 0,
    "0 or -3": 1,
    "0 or 0": 0,
    "not 0": 1,
    "not -1": 0,
    "not 1 == 0": 1,
    "1 < 1": 0,
    "1 <= 1": 1,
    "2 > 1": 1,
    "1 >= 2": 0,
    "3 != 3": 0,
    "min(-1, -2)": -2,
    "max(-1, -2)": -1,
    "if 2 then 3 else 4": 3,
    "if 0 then 3 else if 1 then 5 else 6": 5,
    "2 + 3 * 4": 14,
    "10 - 4 - 3": 3,
    "2 * 3 % 4": 2,
    "1 or 0 and 0": 1,
    "- 2 * 3 + 10": 4,
}

# Properties of the document above, and the tick at which each is known not to hold, or none. Tasks occur at 0 to 6 and at
# 8 to 11, and the end is 12.
HELD = {
    "always a: sensor.level <= 9": None,
    "always a: sensor.level < 9": 4,
    "never a: sensor.level == -3": 8,
    "never a: sensor.level == -4": None,
    "always a: judge.high >= 0": 0,
    "always a: pre judge.high >= 0": 0,
    "never a: pre sensor.level == 9": 5,
    "never a: pre 2 sensor.level == 9": 6,
    "never a: pre 6 sensor.level == 9": 11,
    "never a: pre 7 sensor.level == 9": None,
    "always a: sensor.level >= pre sensor.level": 0,
    "never a: count . knocks > 1 and sensor.level": 11,
    "within 3 of count.knocks == 1: judge.high == 1": None,
    "within 2 of sensor.level == 8: judge.high == 1": 4,
    "within 3 of sensor.level == 8: judge.high == 1": None,
    "within 0 of judge.high == 1: sensor.level == 9": 8,
    "within 1 of judge.high == 1: sensor.level == -3": 6,
    "within 3 of sensor.level == -3: judge.high": None,
    "within 2 of sensor.level == -3: judge.high": 11,
    "within 1 of count.knocks == 2: sensor.level == 100": None,
    "within 0 of count.knocks == 2: sensor.level == 100": 11,
    "sensor.level < 9 until count.knocks == 1": None,
    "sensor.level < 8 until count.knocks == 1": 2,
    "sensor.level < 9 until count.knocks == 5": 4,
    "count.knocks < 5 until count.knocks == 5": None,
    "sensor.level == 99 until sensor.level == 5": None,
}

# Tables of expectations of it, and the ticks and the outs of the cells that aren't met.
MET = {
    "time,sensor.level,judge.high\n0,5,-1\n1,5,0\n7,9,1\n9,-3,0\n": [],
    "time,sensor.level,judge.high\n0,4..5,-1..3\n1,5..9,-9..0\n2,8..8,\n": [],
    "time,sensor.level,judge.high\n0,1234,100\n5,8..10,0..0\n6,,2..3\n8,-9..-4,1\n": [
        (0, "sensor.level"), (0, "judge.high"), (5, "judge.high"), (6, "judge.high"), (8, "sensor.level")],
    "# none\ntime , judge . risen\n5, 1 .. 1 # the rise\n10,-1..-1\n": [(10, "judge.risen")],
    "time\n3\n": [],
}

# What stands beside it, and the line, the column and the name of each fault.
FAULTS = {
    ".expect": {
        "": [(1, 1, "BadHeader")],
        "tick,sensor.level\n": [(1, 1, "BadHeader")],
        "time,level, judge.hi,sensor.level,sensor.level": [(1, 6, "BadHeader"), (1, 19, "Unknown"), (1, 35, "Duplicate")],
        "time,tensor.level\n0,1\n": [(1, 6, "Unknown")],
        "time,sensor.level\n1,x\n2\n3,4,5\n3,1..\n": [
            (2, 3, "BadCell"), (3, 1, "BadRow"), (4, 5, "BadRow"), (5, 3, "BadCell")],
        "time,sensor.level\n5,1\n5,1\n4,1\n12,1\nx,1\n": [
            (3, 1, "TimeNotRising"), (4, 1, "TimeNotRising"), (5, 1, "TimePastEnd"), (6, 1, "BadCell")],
        f"time,sensor.level\n1,{MOST + 1}\n2,{MOST}\n3,2..1\n4,{LEAST - 1}..0\n": [
            (2, 3, "NumberTooWide"), (4, 3, "BadCell"), (5, 3, "NumberTooWide")],
        "time,sensor.level\n1,5 # \xe9\n": [(2, 7, "BadByte")],
    },
    ".props": {
        "": [],
        "always a: sensor.level\nnever a: judge.high": [(2, 7, "Duplicate")],
        "always a: level\nalways b: sensor.leve\nalways c: senso.level": [
            (1, 11, "Unknown"), (2, 18, "Unknown"), (3, 11, "Unknown")],
        "alway a: 1": [(1, 1, "BadLine")],
        "always: 1\nalways if: 1\nalways a 1\nalways b: 1 2": [
            (1, 7, "BadLine"), (2, 8, "BadLine"), (3, 10, "BadLine"), (4, 13, "BadLine")],
        "always a: 1 < 2 < 3\nalways b: (1\nalways c: pre 1": [(1, 17, "BadLine"), (2, 13, "BadLine"), (3, 11, "BadLine")],
        "always a: pre 9 sensor.level\nalways b: pre 0 sensor.level": [(1, 15, "LimitHit"), (2, 15, "LimitHit")],
        "within 3 sensor.level: 1\nwithin x of 1: 1\nwithin 1000000001 of 1: 1\nwithin 1 of 1": [
            (1, 10, "BadLine"), (2, 8, "BadLine"), (3, 8, "LimitHit"), (4, 14, "BadLine")],
        "sensor.level == 1\nsensor.level until\nsensor.level until 1 until 1": [
            (1, 18, "BadLine"), (2, 19, "BadLine"), (3, 22, "BadLine")],
        "input gaug = 0..1\ninput gauge 0..1\ninput gauge = 1..0\ninput gauge = 0..1 every 0..1": [
            (1, 7, "Unknown"), (2, 13, "BadLine"), (3, 15, "BadLine"), (4, 26, "LimitHit")],
        "event knock\nevent gauge every 1..2\nevent knock every 1..2\nevent knock every 1..2": [
            (1, 12, "BadLine"), (2, 7, "Unknown"), (4, 7, "Duplicate")],
        "input gauge = 1..1 every 3..3\nevent knock every 1..1\nalways a: x": [(3, 11, "Unknown")],
        "always a: 5x\nalways b: \x01\nalways c: 9223372036854775808": [
            (1, 11, "BadToken"), (2, 11, "BadByte"), (3, 11, "NumberTooWide")],
        f"always a: {'(' * 65}1{')' * 65}\nalways b: 1{' + 1' * 32}\nalways c: 1{' + 1' * 31}": [
            (1, 75, "DepthHit"), (2, 139, "LimitHit")],
        "always a: " + "if 1 then 1 else " * 999 + "1": [(1, 871, "LimitHit")],
    },
}

# What is planted in the example: each is found by its tests but for the last.
PLANTED = (
    ("if holds then speed >= 350 else speed >= 400", "if holds then speed >= 400 else speed >= 350"),
    ("if holds then speed >= 350", "if holds then speed >= 349"),
    ("if holds then speed >= 350", "if holds then speed > 350"),
    ("else speed >= 400", "else speed >= 399"),
    ("else speed >= 400", "else speed > 400"),
    ("or speed < 400 then", "or speed < 399 then"),
    ("or speed < 400 then", "or speed <= 400 then"),
    ("max(wished, 400)", "max(wished, 401)"),
    ("max(wished, 400)", "max(wished, 399)"),
    (", 1600)", ", 1601)"),
    (", 1600)", ", 1599)"),
    (", 3000)", ", 2999)"),
    (", 3000)", ", 3001)"),
    ("min(last + 5, 100)", "min(last + 5, 101)"),
    ("min(last + 5, 100)", "min(last + 5, 99)"),
    ("min(last + 5, 100)", "min(last + 6, 100)"),
    ("pre 2 wheel.speed", "wheel.speed"),
    ("pre 2 wheel.speed", "pre wheel.speed"),
    ("moves > stopped", "moves >= stopped"),
    ("every 10 prio 5 cost 1", "every 10 prio 50 cost 1"),
)

# Calls of the tool: their words, their status, and what stands on standard error at first.
CALLS = (
    (["--turns", "1", "a.dbp"], 2, "usage: test "),
    (["--by", "rta", "a.dbp"], 2, "usage: test "),
    (["--shard", "3/2", "a.dbp"], 2, "usage: test "),
    (["--by", "run", "--turns", "2..1", "a.dbp"], 2, "usage: test "),
    (["-"], 2, "test: nothing stands beside standard input"),
    (["none.dbp"], 4, "test: none.dbp: No such file or directory\n"),
    (["examples/refused"], 1, "test: examples/refused: no document with tests is below it\n"),
    (["examples/two_rates.dbp"], 1, "examples/two_rates.dbp: error: two_rates.expect isn't there, and no property is in two"),
    (["examples/refused/18_undelayed_upward.dbp"], 1, "examples/refused/18_undelayed_upward.dbp:7:"),
    (["--program", "/none", "examples/cruise_control"], 70, "test: /none: No such file"),
    (["--junit", "none/a.xml", "examples/cruise_control"], 5, "test: none/a.xml: No such file"),
    (["--lcov", "none/a.info", "examples/cruise_control"], 5, "test: none/a.info: No such file"),
    (["--html", "/dev/null/a", "examples/cruise_control"], 5, "test: /dev/null/a: Not a directory"),
)


def tried(trial, *given):
    """Returns what a trial finds, or nothing; a trial with a folder of its own gets it last."""
    try:
        with tempfile.TemporaryDirectory(prefix="dbp-test-") as room:
            trial(*given, Path(room))
    except Wrong as wrong:
        return str(wrong)
    return None


def test(program, *words, status=0):
    """Calls the tool, which must end with this status, and returns its standard output and its standard error."""
    command = [sys.executable, "-S", TEST, "--program", program, *map(str, words)]
    ran = subprocess.run(command, cwd=TOP, stdin=subprocess.DEVNULL, capture_output=True, timeout=SECONDS, check=False)
    said = ran.stderr.decode("utf-8", "replace")
    must("Traceback" not in said, said[-400:])
    must(ran.returncode == status, f"the status is {ran.returncode}, and {status} is wanted; it said {said[-400:]!r}")
    return ran.stdout.decode(), said


def placed(room, text=None, name="level", **beside):
    """Writes a document into a folder, and what stands beside it; returns its file."""
    file = room / f"{name}.dbp"
    file.write_bytes(LEVEL.read_bytes() if text is None else text)
    for ending, own in beside.items():
        (room / f"{name}.{ending}").write_text(own, encoding="latin-1")
    return file


def standing_of(program, text):
    """Returns the records of a document, and its outs as they stand by the tool's own evaluation."""
    document = read_document(run_program(program, ["form"], text).stdout)
    return document, Standing(document, Meaning(read_places(text)[0], document).instances(document))


def compare_values(_):
    """Compares the values of expressions with what docs/LANGUAGE.md says."""
    for text, value in VALUES.items():
        found = evaluator(Tree(tokens_of_line(text.encode())).expression())({})
        must(found == value, f"`{text}` is {found}, and {value} is wanted")


def compare_drawn(program, seeds, _):
    """Compares the evaluator with the program on drawn documents."""
    for seed in seeds:
        text = drawn_document(program, seed)
        printed, form = (run_program(program, [command], text) for command in ("mean", "form"))
        must(printed.status == form.status == 0, f"the document of {seed} is refused: {printed.stdout!r}")
        document = read_document(form.stdout)
        lines = [it.line for it in Meaning(read_places(text)[0], document).instances(document)]
        must(lines == printed.stdout.decode().splitlines(), f"the document of {seed} has other values")


def compare_properties(program, _):
    """Compares when properties hold with what is computed by hand."""
    text = LEVEL.read_bytes()
    declared = declared_in(read_places(text)[0])
    _, standing = standing_of(program, text)
    for line, tick in HELD.items():
        read = read_properties(line.encode(), declared)
        must(not read.faults and len(read.properties) == 1, f"`{line}` has faults: {read.faults}")
        failure = failure_of(read.properties[0], standing)
        found = failure.tick if failure else None
        must(found == tick, f"`{line}` fails at {found}, and at {tick} is wanted")


def first_failure(word, number, times, end, holds, follows):
    """Returns when a property is known not to hold: by its definition, read time by time."""
    for time_ in times:
        if word == "until" and follows[time_]:
            return None
        if word in ("always", "until") and not holds[time_] or word == "never" and holds[time_]:
            return time_
        if word == "within" and holds[time_] and time_ + number < end:
            if not any(follows[later] for later in times if time_ <= later <= time_ + number):
                return time_ + number
    return None


def compare_definitions(program, _):
    """Compares when properties hold on drawn samples with their definitions."""
    drawn = random.Random(7)
    diagram = "dbp 1\npolicy fp\nuntil {}\ninput e = 0\ninput f = 0\n" \
              "task a every 2 prio 2 cost 1\nsense e = e\nout y = 0 then e\n" \
              "task b every 3 from 1 prio 1 cost 1\nsense f = f\nout y = 1 then f\ntrace\ntime,e,f\n{}done\n"
    for _ in range(60):
        end = drawn.randint(1, 25)
        rows = "".join(f"{at},{drawn.randint(0, 1)},{drawn.randint(0, 1)}\n" for at in range(end) if drawn.random() < 0.5)
        text = diagram.format(end, rows).encode()
        declared = declared_in(read_places(text)[0])
        document, standing = standing_of(program, text)
        lines = run_program(program, ["mean"], text).stdout.decode().split()
        times = sorted({int(line.split(",")[0]) for line in lines})
        own = {"a": 0, "b": 1}
        values = {"a": {}, "b": {}}
        for at in times:
            own.update((it.split(",")[1], int(it.split(",")[3])) for it in lines if it.split(",")[0] == str(at))
            for task, value in own.items():
                values[task][at] = value
        number = drawn.randint(0, 6)
        forms = {"always": "always x: a.y", "never": "never x: a.y", "until": "a.y until b.y"}
        forms["within"] = f"within {number} of a.y: b.y"
        for word, line in forms.items():
            failure = failure_of(read_properties(line.encode(), declared).properties[0], standing)
            wanted = first_failure(word, number, times, end, values["a"], values["b"])
            found = failure.tick if failure else None
            must(found == wanted, f"`{line}` of {text.decode()!r} fails at {found}, and at {wanted} is wanted")


def compare_tables(program, room):
    """Compares which cells of tables aren't met, each with its place, and what --update makes of the tables."""
    tables = {placed(room, name=f"level{number}", expect=text): text for number, text in enumerate(MET)}
    said = test(program, room, status=1)[1]
    for file, text in tables.items():
        found = re.findall(rf"{file.with_suffix('.expect')}:.*: error: Expected: `([\w.]+)` at (\d+) is ", said)
        must([(int(tick), port) for port, tick in found] == MET[text], f"{text!r}: it said {said!r}")
    test(program, "--update", *tables)
    for file, text in tables.items():
        after = file.with_suffix(".expect").read_text()
        must((after == text) is not bool(MET[text]), f"{text!r} becomes {after!r}")
        must(after.count("#") == text.count("#") and after.count(",") == text.count(","), f"{text!r} becomes {after!r}")
    file.with_suffix(".expect").unlink()
    test(program, "--update", *tables)
    made = file.with_suffix(".expect").read_text().splitlines()
    wanted = ["time,sensor.level,count.knocks,judge.high,judge.risen", "0,5,0,-1,0", "1,5,0,0,0"]
    must(made[:3] == wanted and len(made) == 12, f"the table that is made is {made}")
    test(program, room)


def compare_faults(program, ending, room):
    """Compares the faults of what stands beside a document with those that are wanted, told by both tools."""
    declared = declared_in(read_places(LEVEL.read_bytes())[0])
    read = {".expect": read_expectations, ".props": read_properties}[ending]
    for text, wanted in FAULTS[ending].items():
        found = [(it.line, it.column, it.name) for it in read(text.encode("latin-1"), declared).faults]
        must(found == wanted, f"{text[:200]!r} has {found}, and {wanted} are wanted")
    file = placed(room, **{ending[1:]: text})
    line, column, name = wanted[0]
    head = f"{room / 'level'}{ending}:{line}:{column}: error: {name}: "
    command = [sys.executable, TOP / "tools" / "check", "--program", program, file.with_suffix(ending)]
    ran = subprocess.run(command, capture_output=True, check=False)
    must(ran.returncode == 1 and ran.stderr.decode().startswith(head), f"tools/check said {ran.stderr[:300]!r}")
    must(test(program, file, status=1)[1].startswith(head), "tools/test tells another fault")


def compare_told(program, room):
    """Compares all that is told of a failure with what is known of the document."""
    file = placed(room, props="# first\n never a:judge.risen > 0")
    said = test(program, file, status=1)[1].replace(str(room), "R")
    wanted = [
        "R/level.props:2:2: error: Never: a: `judge.risen > 0` isn't 0 at 5: judge.risen = 1",
        "    2 |  never a:judge.risen > 0",
        "      |  ^~~~~~~~~~~~~~~~~~~~~~~",
        "R/level.dbp:14:6: note: `judge` 2 at 5 gets `level` = 9, `sensor.level` of its 3 at 4, `before` = 8, "
        "`sensor.level` of its 2 at 2, `knocks` = 1, `count.knocks` of its 1 at 3; it gives `high` = 1, `risen` = 1",
        "R/level.dbp:7:6: note: `sensor` 3 at 4 gets `now` = 20 of input `gauge`; it gives `level` = 9",
        "R/level.dbp:7:6: note: `sensor` 2 at 2 gets `now` = 8 of input `gauge`; it gives `level` = 8",
        "R/level.dbp:10:6: note: `count` 1 at 3 gives `knocks` = 1",
    ]
    must(said.splitlines() == wanted, f"it said {said!r}")


def compare_picture(program, room):
    """Compares the ticks of the picture of a failure with when it was."""
    file = placed(room, props="always fine: 1\nnever a: judge.risen > 0")
    test(program, "--picture", room / "made", file, status=1)
    names = [it.name for it in (room / "made").iterdir()]
    must(names == ["2-level.dbp-a.svg"], f"the pictures are {names}")
    text = (room / "made" / names[0]).read_text()
    ElementTree.fromstring(text)
    ticks = re.search(r"ticks (\d+) to (\d+)", text)
    must(ticks and int(ticks[1]) <= 2 and int(ticks[2]) >= 6, f"the picture shows {ticks and ticks[0]}")


def compare_ways(program, room):
    """Compares what is told of commands that print other lines than `mean`, of one that isn't there, and of an overrun."""
    file = placed(room, props="always a: sensor.level <= 9\n")
    words = ["--by", "mean", "--by", "sim", "--by", "run", "--turns", "1,5..6"]
    tap = test(program, *words, "--tap", file)[0].splitlines()
    wanted = ["a", "a, by sim", *(f"a, by run --turns {number}" for number in (1, 5, 6))]
    must([it.split(": ")[-1] for it in tap[2:]] == wanted, f"the tests are {tap}")
    with_cpus = between(program, room, "cpus", f"exec '{program}' sim")
    test(with_cpus, "--by", "cpus", file)
    without = between(program, room, "cpus", "exit 2")
    said = test(without, "--by", "cpus", file, status=2)[1]
    must(said.endswith("it has no command `cpus`\n"), said)
    other = between(program, room, "sim", f"'{program}' mean | sed 's/^4,sensor,3,9/4,sensor,3,8/'; exit")
    tap = test(other, *words, "--tap", file, status=1)[0]
    must("by sim: line 5 of `sim` is `4,sensor,3,8`, and `4,sensor,3,9` of `mean`" in tap, tap)
    must("1..5\n" in tap and "a, by sim" not in tap, f"what `sim` gives is judged too: {tap}")
    wrong = between(program, room, "mean", f"'{program}' mean | sed 's/^4,sensor,3,9/4,sensor,3,8/'; exit")
    test(wrong, file, status=70)
    late = placed(room, (TOP / "examples/sim/late.dbp").read_bytes(), "late", props="always a: 1\n")
    test(program, late)
    said = test(program, "--by", "sim", late, status=1)[1]
    must(said == f"{late}: error: by sim: overrun: log 2 at 8\n", said)


# A document that fails if three times a sample is above 130 at a tick that 4 divides; the least trace that shows it has one
# sample.
SHRUNK = b"""dbp 1
policy fp
until 400  # ticks
input heat = 0
input other = 3
event knock
task watch every 4 prio 1 cost 1
  sense heat = heat
  sense other = other
  out warm = 0 then heat * 3 > 130
  out noise = 0 then other
task count on knock prio 2 cost 1
  state n = 0
  next n = n + 1
  out knocks = 0 then n + 1
trace
time,heat
9,1
script
done
"""
RANGES = "input heat = 0..100 every 3..9\ninput other = -5..5\nevent knock every 5..50\n"


def columns_of(text):
    """Returns the cells of the trace of a document by the names of their columns."""
    lines = text.split("\ntrace\n")[1].split("\ndone")[0].splitlines()
    names = lines[0].split(",")[1:]
    rows = [line.split(",") for line in lines[1:]]
    return {name: [(int(row[0]), int(row[at])) for row in rows if row[at]] for at, name in enumerate(names, 1)}


def compare_shrunk(program, room):
    """Compares the least trace that fails with the one that is known, and tests the document that is kept."""
    file = placed(room, SHRUNK, "heat", props="never warm: watch.warm\nnever often: count.knocks > 2\n" + RANGES)
    said = test(program, "--traces", "20", "--seed", "3", file, status=1)[1]
    kept = room / "heat.failed_warm.dbp"
    text = kept.read_text()
    must("until 1  # ticks" in text and "script" not in text, f"what is kept is {text!r}")
    must(columns_of(text) == {"heat": [(0, 44)], "other": [], "knock": []}, f"what is kept is {text!r}")
    must(f"{kept}:1:1: note: trace " in said and "isn't 0 at 0: watch.warm = 1" in said, said)
    again = test(program, kept, status=1)[1]
    must("isn't 0 at 0: watch.warm = 1" in again, f"the kept document gives {again!r}")
    often = (room / "heat.failed_often.dbp").read_text()
    must(columns_of(often)["knock"] == [(0, 1), (5, 1), (10, 1)] and "until 11 " in often, f"what is kept is {often!r}")


def compare_ranges(program, room):
    """Compares drawn traces with the ranges that they are drawn in, and one that is made smaller."""
    props = "input heat = 5..9 every 3..9\nevent knock every 40..50\nwithin 390 of 1: count.knocks == 99\n"
    document = standing_of(program, SHRUNK)[0]
    ranges = read_properties(props.encode(), declared_in(read_places(SHRUNK)[0])).ranges
    drawer = Drawer(document, SHRUNK, ranges)
    drawn = [{it.name: it.cells for it in drawer.columns(seed, seed % 3)} for seed in range(60)]
    must(len({str(it) for it in drawn}) == 60, "two traces are the same")
    values = {value for it in drawn for _, value in it["heat"]}
    must(values == {*range(5, 10)}, f"the samples are {values}")
    must(all(it["other"] == () for it in drawn), "an input without a range gets samples")
    file = placed(room, SHRUNK.replace(b"trace\ntime,heat\n9,1\n", b""), "heat", props=props)
    test(program, "--traces", "1", "--seed", "1", file, status=1)
    for columns in (*drawn, columns_of((room / "heat.failed_line_3.dbp").read_text())):
        for name, least, most in (("heat", 3, 9), ("knock", 40, 50)):
            times = [at for at, _ in columns[name]]
            gaps = {later - at for at, later in zip(times, times[1:])}
            must(len(times) > 6 and gaps <= {*range(least, most + 1)}, f"{name} is at {times}")
            must(times[0] <= (0 if name == "heat" else most) and 390 - times[-1] <= most, f"{name} is at {times}")


def compare_shares(program, room):
    """Compares what shards and jobs find together with what one process finds, and one seed with another."""
    folder = room / "all"
    folder.mkdir()
    for number in range(3):
        placed(folder, name=f"level{number}", props=f"never a: sensor.level == {number}\nalways b: 1\ninput gauge = 0..9\n")
    words = ["--tap", "--traces", "7", "--coverage", "--keep", str(room)]
    whole, said = test(program, *words, folder, status=1)
    must(test(program, *words, "--jobs", "3", folder, status=1) == (whole, said), "three jobs find something else")
    counts = []
    for number in range(1, 4):
        text = test(program, *words, "--shard", f"{number}/3", folder, status=1)[0]
        in_two = test(program, *words, "--shard", f"{number}/3", "--jobs", "2", folder, status=1)[0] if number == 2 else text
        must(in_two == text, "two jobs find something else of a shard")
        counts += [int(it) for it in re.findall(r"b, (\d+) drawn", text)] + [text.count(": b\n") * 100]
    must(sum(counts) == 3 * 7 + 3 * 100, f"the shards have {counts}")
    must(test(program, *words, "--seed", "2", folder, status=1)[0] != whole, "another seed gives the same")


class Marks(HTMLParser):
    """The marks of a page: the class, the title and the text of each."""

    def __init__(self, text):
        super().__init__()
        self.marks, self.opened = [], None
        self.feed(text)

    def handle_starttag(self, tag, attrs):
        self.opened = dict(attrs) if tag == "mark" else None

    def handle_data(self, data):
        if self.opened and "title" in self.opened:
            self.marks.append((self.opened["class"], self.opened["title"], data))
        self.opened = None


# Of the document above: what of each choice is taken, by hand. `high` is computed at 1, 5 and 9.
MARKS = [
    ("all", "sensor: it occurs: 6", "sensor"),
    ("all", "min(now, 9): the first is less: 4; the second is less: 1", "min"),
    ("all", "count: it occurs: 2", "count"),
    ("all", "judge: it occurs: 3", "judge"),
    ("all", "level &gt; 8: true: 1; false: 2", ">"),
    ("part", "level > 8 and knocks > 0: left false: 2; right false: 0; both true: 1", "and"),
    ("part", "knocks > 0: true: 1; false: 0", ">"),
    ("all", "if both or level > before then level - before else 0: true: 1; false: 2", "if"),
    ("part", "both or level > before: left true: 1; right true: 0; both false: 2", "or"),
    ("part", "level > before: true: 0; false: 2", ">"),
]
TABLE = """task    choices  taken  coverage
sensor        3      3     1.000
count         1      1     1.000
judge        15     11     0.733
all          19     15     0.789
"""


def compare_coverage(program, room):
    """Compares the coverage of a document, in all three forms, with what is counted by hand."""
    file = placed(room, props="always a: 1\n")
    out = test(program, "--coverage", "--html", room / "a.html", "--lcov", room / "a.info", file)[0]
    must(out.startswith(f"coverage of {file}:\n{TABLE}{file}:18:24: never taken: "), out)
    must(out.count("never taken") == 4, out)
    wanted = [(kind, title.replace("&gt;", ">"), text) for kind, title, text in MARKS]
    marks = Marks((room / "a.html").read_text()).marks
    must(marks == wanted, f"the marks are {marks}")
    info = (room / "a.info").read_text().splitlines()
    branches = [tuple(it[5:].split(",")) for it in info if it.startswith("BRDA:")]
    counts = [count for _, title, _ in wanted for count in re.findall(r": (\d+)", title) if "it occurs" not in title]
    is_same = [it[3] for it in branches] == counts and [it[0] for it in branches[:2]] == ["9", "9"]
    must(is_same, f"the branches are {branches}")
    sums = {"FNDA:6,sensor", "FNF:3", "FNH:3", "BRF:16", "BRH:12", "DA:12,2", "LF:9", "LH:9", f"SF:{file}"}
    must(sums <= {*info}, f"{sums - {*info}} aren't in {info}")


def compare_lists(program, room):
    """Reads JUnit's XML and the lines of TAP again."""
    name = 'a & "b" <c>'
    file = placed(room, name=name, props="never a: sensor.level < 0\nalways b: 1\n", expect="time,sensor.level\n0,6\n")
    tap = test(program, "--tap", "--junit", room / "a.xml", file, status=1)[0].splitlines()
    must(tap[:2] == ["TAP version 13", "1..3"], f"TAP has {tap}")
    heads = [re.match("(not )?ok (\\d+) - ", it) for it in tap[2:] if not it.startswith("# ")]
    must([(bool(it[1]), it[2]) for it in heads] == [(True, "1"), (True, "2"), (False, "3")], f"TAP has {tap}")
    root = ElementTree.parse(room / "a.xml").getroot()
    must((root.get("tests"), root.get("failures")) == ("3", "2"), f"JUnit has {root.attrib}")
    suite = root[0]
    found = (suite.get("tests"), suite.get("failures"), suite.get("name"))
    must(found == ("3", "2", str(file)), f"JUnit has {suite.attrib}")
    cases = [(it.get("name"), it[0].get("message") if len(it) else None) for it in suite]
    wanted = [(f"{name}.expect", "`sensor.level` at 0 is 5, and 6 is wanted"),
              ("a", "a: `sensor.level < 0` isn't 0 at 8: sensor.level = -3"), ("b", None)]
    must(cases == wanted, f"JUnit has {cases}")


def compare_example(program, _):
    """Compares the example: all its tests pass by each command, and its coverage is 1."""
    ways = ["--by", "mean", "--by", "sim", "--by", "run", "--turns", "1..2"]
    out = test(program, "--coverage", "--traces", "5", *ways, CRUISE)[0]
    must(re.search(r"(?m)^all +\d+ +\d+ +1\.000$", out) and "\n0 passed" not in out, out)


def compare_planted(program, room):
    """Compares which of the faults that are planted in the example are found by its tests, and how long that takes."""
    text = CRUISE.read_text()
    for number, (old, new) in enumerate(PLANTED, 1):
        folder = room / f"{number:02}"
        folder.mkdir()
        must(text.count(old) == 1, f"`{old}` stands {text.count(old)} times in the example")
        for ending in (".expect", ".props"):
            shutil.copy(CRUISE.with_suffix(ending), folder)
        (folder / CRUISE.name).write_text(text.replace(old, new))
    words = [sys.executable, "-S", TEST, "--program", program, "--tap", room]
    ran = subprocess.run(words, stdout=subprocess.PIPE, stderr=subprocess.DEVNULL, check=False)
    lines = ran.stdout.decode().splitlines()
    found = {int(it[1]) for it in (re.search(r"^not ok .*/(\d\d)/cruise_control", line) for line in lines) if it}
    missed = [PLANTED[number - 1] for number in range(1, len(PLANTED)) if number not in found]
    must(not missed, f"these aren't found: {missed}")
    must(len(PLANTED) not in found and ran.returncode == 1, "the last one changes nothing, and is found")


def compare_call(program, words, status, text, _):
    """Compares how a call ends."""
    own = [] if "--program" in words else ["--program", program]
    ran = subprocess.run([sys.executable, "-S", TEST, *own, *words], cwd=TOP, capture_output=True, timeout=SECONDS, check=False)
    is_wanted = ran.returncode == status and ran.stderr.decode().startswith(text) and b"Traceback" not in ran.stderr
    must(is_wanted, f"the status is {ran.returncode}; it said {ran.stderr[:300]!r}")


def is_running(process):
    """Whether a process runs: one that has ended may stay in the list until someone asks for its status."""
    try:
        return "\nState:\tZ" not in Path(f"/proc/{process}/status").read_text()
    except OSError:
        return False


def compare_interrupt(program, number, room):
    """Compares what an interrupt leaves of a call with several processes: none of them, and no file."""
    words = ["--traces", "100000", "--jobs", "2", "--junit", str(room / "a.xml"), "--keep", str(room), str(CRUISE)]
    call = [sys.executable, "-S", TEST, "--program", program, *words]
    child = subprocess.Popen(call, stderr=subprocess.PIPE, preexec_fn=own_signals)
    listed = Path(f"/proc/{child.pid}/task/{child.pid}/children")
    children = wait_for(lambda: listed.read_text().split(), lambda it: len(it) == 2)
    child.send_signal(number)
    said = child.communicate(timeout=SECONDS)[1]
    must(child.returncode == 130 and not said, f"the status is {child.returncode}; it said {said!r}")
    must(wait_until(lambda: not any(map(is_running, children))), "a process still runs")
    must(not list(room.iterdir()), f"the folder has {list(room.iterdir())}")


def trials(program):
    """Yields the trials, each a name and a call that returns what differs, or None."""
    program = str(program)
    yield "values of expressions", partial(tried, compare_values)
    for first in range(0, DRAWN, 25):
        yield f"drawn documents from {first}", partial(tried, compare_drawn, program, range(first, first + 25))
    comparisons = (compare_properties, compare_definitions, compare_tables, compare_told, compare_picture, compare_ways,
                   compare_shrunk, compare_ranges, compare_shares, compare_coverage, compare_lists, compare_example,
                   compare_planted)
    for it in comparisons:
        yield it.__name__.replace("compare_", ""), partial(tried, it, program)
    for ending in FAULTS:
        yield f"faults of {ending}", partial(tried, compare_faults, program, ending)
    for words, status, text in CALLS:
        yield f"{status}: {' '.join(words)}", partial(tried, compare_call, program, words, status, text)
    for number in (signal.SIGINT, signal.SIGTERM):
        yield f"several processes, {number.name}", partial(tried, compare_interrupt, program, number)
