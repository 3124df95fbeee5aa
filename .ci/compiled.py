"""C of documents, as tools/emit_c writes it: compiled, run, and compared with the program. For .ci/tried and bench/."""

import re
import shutil
import subprocess
import sys
import tempfile
from contextlib import contextmanager
from copy import copy
from pathlib import Path

TOP = Path(__file__).resolve().parent.parent
TOOLS = TOP / "tools"
SOURCES = TOOLS / "emitting"
sys.path[:0] = [str(TOOLS), str(TOP / ".ci")]

from awaited import SECONDS  # noqa: E402
from canonical import read_document  # noqa: E402
from comparing import Wrong, must  # noqa: E402
from emitting import command  # noqa: E402
from pictures.asking import cut_text  # noqa: E402
from program import run_program  # noqa: E402
from shared_words import Model, fault_of_words  # noqa: E402

FLAGS = ("-std=c11", "-O2", "-Wall", "-Wextra", "-Wpedantic", "-Wconversion", "-Wshadow", "-Werror")
SHARED = ("dbp_protocol", "dbp_trace")  # the files that are the same for every diagram
COMPILE_SECONDS = SECONDS  # which are those of a run; bench/emit_c_faults.py gives that fewer
MOST_BYTES = 1_048_576
FIRST_LINES = 400  # of `mean`, which are tried with seeds and a record
NAME = "it"
TABLES = ("--calls", "0")  # each task that has operators becomes a table
SHORT_WORDS = ("--words", "32")  # shared words of 32 bits
SHORT_FLAGS = ("-DDBP_WORD_BITS=32",)
BESIDE = TOP / ".ci" / "tried" / "emit_c"  # documents, and C that goes with some

# Values at which operators have their corners, of which all pairs are tried, and what is computed of a pair.
EDGES = (-(2**63), 1 - 2**63, -(2**32), -3037000500, -7, -2, -1, 0, 1, 2, 3, 2**31, 3037000500, 2**62, 2**63 - 2, 2**63 - 1)
FORMS = (
    "a + b; a - b; a * b; a / b; a % b; - a; min(a, b); max(a, b)",
    "a == b; a != b; a < b; a <= b; a > b; a >= b; a and b; a or b",
    "not a; if a then b else 7; (- a) % b; (a / b) * b; -9223372036854775808 - a; a * 3 + b; - (- b); (a < b) - (b < a)",
)


def has_compiler(name="cc"):
    """Whether there is a C compiler of this name."""
    return shutil.which(name) is not None


def same_lines(found, wanted, what):
    """Ends with a fault at the first line that differs."""
    lines, others = found.splitlines(), wanted.splitlines()
    for number, (line, other) in enumerate(zip(lines, others), 1):
        must(line == other, f"{what}: line {number} is {line[:120]!r}, and {other[:120]!r} is wanted")
    must(len(lines) == len(others), f"{what}: there are {len(lines)} lines, and {len(others)} are wanted")


def executed(words, seconds, status=0, **how):
    """Returns the standard output of a command, which must end with a status in so many seconds."""
    what = f"{Path(words[0]).name} {' '.join(map(str, words[1:]))}"[:160]
    try:
        ran = subprocess.run(words, stdin=subprocess.DEVNULL, capture_output=True, timeout=seconds, check=False, **how)
    except subprocess.TimeoutExpired:
        raise Wrong(f"{what} hadn't ended after {seconds} seconds") from None
    said = ran.stderr.decode(errors="replace")[:600]
    must(ran.returncode == status, f"{what}: the status is {ran.returncode}, and {status} is wanted; it said {said}")
    return ran.stdout


def answered(program, words, document):
    """Returns what the program prints for a document that it accepts."""
    ran = run_program(str(program), words, document)
    must(ran.status == 0, f"the program's {' '.join(words)} ends with {ran.status}: {ran.stdout[:100]!r}")
    return ran.stdout


def emitted(program, document, folder, *words, tools=TOOLS):
    """Writes the C of a document into a folder, and returns its plan; by the tools of this repository that is done in this
    process."""
    source = Path(folder) / "document.dbp"
    source.write_bytes(document)
    words = [*map(str, ["--program", program, "-o", folder, "--name", NAME, *words, source])]
    if Path(tools) == TOOLS:
        status = command.main(words)
        must(status == 0, f"emit_c ends with {status}")
    else:
        executed([sys.executable, Path(tools) / "emit_c", *words], COMPILE_SECONDS)
    return command.planned(command.options_of(words))


class Toolchain:
    """A compiler with its flags, the tools that write C with their options, and the files that all diagrams share, compiled
    in a folder."""

    def __init__(self, room, compiler="cc", flags=(), tools=TOOLS, options=()):
        self.options = options
        self.tools, self.sources = Path(tools), Path(tools) / "emitting"
        self.is_sanitizing = any("-fsanitize" in flag for flag in flags)
        self.command = [compiler, *FLAGS, *flags, "-pthread", "-I", str(self.sources)]
        self.objects = [self.compiled(self.sources / f"{name}.c", room) for name in SHARED]

    def with_options(self, *words):
        """Returns the same toolchain, whose tools get these options besides."""
        other = copy(self)
        other.options = (*self.options, *words)
        return other

    def emitted(self, program, document, folder, target="trace"):
        """Writes the C of a document into a folder."""
        emitted(program, document, folder, "--target", target, *self.options, tools=self.tools)

    def compiled(self, source, folder, *flags):
        """Compiles a file, and returns the object."""
        target = Path(folder) / f"{Path(source).stem}.o"
        executed([*self.command, *flags, "-c", source, "-o", target], COMPILE_SECONDS)
        return target

    def linked(self, sources, folder, *flags):
        """Compiles files of a diagram, links them with the shared ones, and returns the program."""
        target = Path(folder) / "trace"
        own = [self.compiled(source, folder, *flags) for source in sources]
        executed([*self.command, *self.objects, *own, "-o", target], COMPILE_SECONDS)
        return target


def must_be_shared(toolchain, folder, names=SHARED):
    """Ends with a fault if a file that all diagrams share is written differently."""
    for name in names:
        written = (Path(folder) / f"{name}.c").read_bytes()
        must(written == (toolchain.sources / f"{name}.c").read_bytes(), f"{name}.c is written differently")


def trace_of(program, toolchain, document, folder):
    """Returns the program of the target `trace` of a document."""
    toolchain.emitted(program, document, folder)
    must_be_shared(toolchain, folder)
    return toolchain.linked([Path(folder) / f"{NAME}.c", Path(folder) / f"{NAME}_trace.c"], folder)


def shortened(program, document, tick):
    """Returns the canonical text of a document without its script and what comes from a tick on."""
    form = answered(program, ["form"], document)
    form = cut_text(form, read_document(form), tick)
    script = read_document(form).script
    if script is None:
        return form
    return b"\n".join([*form.split(b"\n")[: -3 - len(script)], b"done", b""])


def tick_after(lines, count):
    """Returns the first tick after so many lines of `mean`, or one after all."""
    ticks = [int(line.split(b",", 1)[0]) for line in lines.splitlines()[: count + 1]]
    return ticks[-1] + (len(ticks) <= count) if ticks else 0


def with_steps(form, record):
    """Returns a document without a script with the steps of a record as its script."""
    steps = re.sub(rb" ->.*", b"", record)
    return form[: -len(b"done\n")] + b"script\n" + steps + b"done\n"


def compare_record(program, form, executable, folder, *words):
    """Compares the record of a run with `replay`; returns how many steps it has, or nothing if there are too many."""
    file = Path(folder) / "record"
    lines = executed([executable, "--record", file, *words], SECONDS)
    same_lines(lines, answered(program, ["mean"], form), "the lines of a run with a record")
    record = file.read_bytes()
    document = with_steps(form, record)
    if max(len(document), len(record)) > MOST_BYTES:
        return None
    replayed = run_program(str(program), ["replay"], document)
    must(replayed.status == 0, f"replay ends with {replayed.status}: {replayed.stdout[-100:]!r}")
    same_lines(record, replayed.stdout, "the record")
    return record.count(b"\n")


def until_of(document):
    """Returns the tick before which the tasks of a document occur."""
    return int(re.search(rb"(?m)^[ \t]*until[ \t]+([0-9]+)", document)[1])


def compare_lines(program, document, executable, *words):
    """Compares the lines of a run with those of `mean`."""
    same_lines(executed([executable, *words], SECONDS), answered(program, ["mean"], document), "the lines")


def compare_whole(program, toolchain, document):
    """Compares the lines of a document with those of a run."""
    with folder() as place:
        compare_lines(program, document, trace_of(program, toolchain, document, place))


def compare_start(program, toolchain, document, seeds):
    """Compares the lines of a document with those of runs, without a seed and with each of some, and a record; returns how
    many steps that has, or nothing if there are too many."""
    with folder() as place:
        executable = trace_of(program, toolchain, document, place)
        compare_lines(program, document, executable)
        for seed in seeds:
            compare_lines(program, document, executable, "--seed", str(seed))
        return compare_record(program, document, executable, place, "--seed", str(seeds[0]))


def compare_document(program, toolchain, document, seeds=(1,), count=FIRST_LINES):
    """Compares the lines of a document, and of so many instances as fit into a record; returns the steps of the record."""
    lines, until = answered(program, ["mean"], document), until_of(document)
    if lines.count(b"\n") > count:
        compare_whole(program, toolchain, document)
    while True:
        start = shortened(program, document, min(tick_after(lines, count), until))
        steps = compare_start(program, toolchain, start, seeds)
        if steps is not None:
            return steps
        must(count > 0, "the record of an empty trace is too long")
        count //= 2


def operators_document():
    """Returns a document that has each operator on all pairs of values with corners."""
    pairs = [(a, b) for a in EDGES for b in EDGES]
    lines = ["dbp 1", "policy fp", f"until {len(pairs)}", "input first = 0", "input second = 0"]
    for number, forms in enumerate(FORMS):
        lines += [f"task t{number} every 1 prio {number} cost 1", "sense a = first", "sense b = second"]
        lines += [f"out o{port} = 0 then {form}" for port, form in enumerate(forms.split("; "))]
    rows = [f"{time},{a},{b}" for time, (a, b) in enumerate(pairs)]
    return "\n".join([*lines, "trace", "time,first,second", *rows, "done", ""]).encode()


def compare_operators(program, toolchain):
    """Compares the values of all operators at their corners."""
    compare_whole(program, toolchain, operators_document())


def compare_tables(program, toolchain):
    """Compares the values of all operators, and a document's record, where each task is a table of operations."""
    compare_operators(program, toolchain.with_options(*TABLES))
    compare_document(program, toolchain.with_options(*TABLES), (BESIDE / "tables.dbp").read_bytes())


def compare_largest(program, toolchain):
    """Compares the lines of a document whose first task has 500 operators, and whose second one has one more and so is a
    table."""
    tasks = {"calls": 500, "rows": 501}
    lines = ["dbp 1", "policy fp", "until 20"]
    for task, operators in tasks.items():
        lines += [f"task {task} every 1 prio 1 cost 1", "state n = 3"]
        lines += [f"let x{at} = {'x%d' % (at - 1) if at else 'n'}{' + n' * 31}" for at in range(16)]
        lines += [f"next n = n{' - 1' * (operators - 496)}", "out y = 0 then x15"]
    document = "\n".join([*lines, "done", ""]).encode()
    compare_whole(program, toolchain, document)
    with folder() as place:
        toolchain.emitted(program, document, place)
        text = (Path(place) / f"{NAME}.c").read_text()
    found = re.findall(rf"{NAME}_operate\(operations", text)
    must(len(found) == 1 and f"{NAME}_rows_compute" in text.partition("int64_t values[")[0], f"{len(found)} tasks are tables")


def printed_beside(program, toolchain, name, place, others=()):
    """Compiles the C that goes with a document of BESIDE with what is written of it, and returns what it prints."""
    toolchain.emitted(program, (BESIDE / f"{name}.dbp").read_bytes(), place, target="core")
    sources = [BESIDE / f"{name}.c", *(Path(place) / it for it in others), toolchain.objects[0]]
    executed([*toolchain.command, "-I", place, *sources, "-o", Path(place) / name], COMPILE_SECONDS)
    return executed([Path(place) / name], SECONDS)


def compare_last_instances(program, toolchain):
    """Compares the last instances that tasks may have with the first ones of `mean`, and what comes after them."""
    with folder() as place:
        printed = printed_beside(program, toolchain, "last_instances", place)
    lines = answered(program, ["mean"], (BESIDE / "last_instances.dbp").read_bytes())
    after = b"spent 0\nspent 0\nsame words\nreleased 0\n40,slow,11,1172\n"
    same_lines(printed, lines + after, "the last instances")


def compare_orders(program, toolchain):
    """Compares which stamps a read takes for the row of its order, with numbers up to the last one."""
    with folder() as place:
        printed = printed_beside(program, toolchain, "orders", place)
    same_lines(printed, b"right orders\n", "the orders")


def compare_releases(program, toolchain):
    """Compares what comes of releases that are late, off, or made beside another."""
    with folder() as place:
        printed = printed_beside(program, toolchain, "releases", place, [f"{NAME}.c"])
    same_lines(printed, (BESIDE / "releases.stdout").read_bytes(), "the releases")


def rows_of(document, lines):
    """Returns the rows of each task that the lines of `mean` have."""
    cut = [line.split(",") for line in lines.decode().splitlines()]
    return [[[*map(int, line[3:])] for line in cut if line[1] == task.name] for task in document.tasks]


def compare_words(program, toolchain):
    """Compares all shared words after each step of a run with those that docs/PROTOCOL.md gives them."""
    text = (BESIDE / "words.dbp").read_bytes()
    with folder() as place:
        printed = printed_beside(program, toolchain, "words", place)
    document = read_document(answered(program, ["form"], text))
    rows = rows_of(document, answered(program, ["mean"], text))
    slots = [int(line.split(b",")[-1]) for line in answered(program, ["plan"], text).splitlines()]
    tasks = [(slots[at], [out.first for out in task.outs], rows[at]) for at, task in enumerate(document.tasks)]
    names = [task.name for task in document.tasks]
    reads = [(names.index(read.writer), at, read.delay) for at, task in enumerate(document.tasks) for read in task.reads]
    lines = printed.decode().splitlines()
    found = fault_of_words(Model(tasks, [*dict.fromkeys(reads)]), lines)
    must(found is None, found)
    last = [*map(int, lines[-1].partition(":")[2].split())]
    must(last[2 : 2 + 3 * len(rows) : 3] == [*map(len, rows)], f"the last words are {last}")


@contextmanager
def folder():
    """Lends a folder that is removed then."""
    with tempfile.TemporaryDirectory(prefix="dbp-c-") as place:
        yield place
