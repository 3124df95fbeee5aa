"""tools/check: the first error of each refused case is the program's and is found in the document too, accepted cases
have no error, and documents with each kind of message give exactly the text beside them.

A case that a command refuses without a line has no error either: the document has no fault. What `rank` answers to doesn't
depend on faults of ranks, which are left out then; behind a cycle nothing is said of the trace.
"""

import importlib.util
import json
import re
import subprocess
import sys
import tempfile
from concurrent.futures import ThreadPoolExecutor
from functools import partial
from pathlib import Path

TOP = Path(__file__).resolve().parents[2]
CHECK = TOP / "tools" / "check"
WRITTEN = Path(__file__).resolve().parent / "check"

sys.path[:0] = [str(TOP / "tools"), str(TOP / ".ci")]

from checking.command import judged  # noqa: E402
from checking.illegal import illegal_of  # noqa: E402
from checking.messages import Severity  # noqa: E402
from checking.occurrences import occurrence_faults  # noqa: E402
from checking.printed import as_json, objects, plain  # noqa: E402
from checking.verdicts import NOT_FOUND, Command, Judged, refusal_of  # noqa: E402
from program import run_program  # noqa: E402
from stand_ins import without_rta  # noqa: E402

MOST_MADE = 100_000
COMMANDS = {("replay",): Command.REPLAY, ("replay", "--ranked"): Command.RANKED}
READING_ALONE = (["form"], ["upgrade"])
RANK, CYCLE = ["rank"], b"refused: 37 Cycle "
OF_RANKS, FIRST_OF_TRACE = (14, 15, 18), 20
WITH_JSON = ("unknown_links", "accepted_with_warnings", "illegal_step")
WITH_SUMS = ("beyond", "overrun")  # beside these stands what is told without response times, too
EXAMPLE = TOP / "examples" / "preempted.dbp"
TOO_LARGE = b"#" * 1048577

# The name of a call, its words, its input, its status, and what stands at the start of what it prints.
CALLS = (
    ("an accepted document", [str(EXAMPLE)], b"", 0, b""),
    ("standard input", ["-"], b"dbp 3\n", 1, b"-:1:1: error: 8 MissingHeader: "),
    ("an empty list", ["--json", str(EXAMPLE)], b"", 0, b"[\n]\n"),
    ("two files", [str(EXAMPLE), "-"], b"dbp 1\n", 1, b"-:2:1: error: 7 MissingDone: "),
    ("no script", ["--as", "replay", "-"], EXAMPLE.read_bytes(), 1, b"-:14:1: error: 29 NoScript: "),
    ("a file that is too large", ["-"], TOO_LARGE, 7, b"-:1:1: error: TooLarge: "),
    ("a file that isn't there", ["none.dbp"], b"", 4, b"none.dbp:1:1: error: CannotRead: "),
    ("a program that isn't there", ["--program", "/none", "-"], b"", 70, b"check: /none: No such file or directory\n"),
    ("no program, no list", ["--program", "/none", "--json", "-"], b"", 70, b""),
    ("no words", [], b"", 2, b"usage: check "),
)


def errors_of(verdict):
    """Returns the errors of a verdict."""
    return [it for it in verdict.messages if it.severity is Severity.ERROR]


def differs_from_rank(text, stdout):
    """Returns how what is found in a document differs from what `rank` prints for it, or nothing."""
    it = Judged(None, text)
    found = [error for error in it.faults(Command.PLAN) if error.code not in OF_RANKS]
    found = found or occurrence_faults(it.document)
    if stdout.startswith(CYCLE):
        found = [error for error in found if error.code < FIRST_OF_TRACE]
    refusal, first = refusal_of(stdout), [(error.line, error.code, error.name) for error in found[:1]]
    wanted = [(refusal.line, refusal.code, refusal.name)] if refusal else []
    return None if first == wanted else f"found is {found[:1]}, and {wanted} is wanted"


def differs(program, words, text, stdout):
    """Returns how the messages of a document differ from what the program prints for it, or nothing."""
    if words == RANK:
        return differs_from_rank(text, stdout)
    command = COMMANDS.get(tuple(words), Command.PLAN)
    it = Judged(partial(run_program, program), text)
    errors = errors_of(it.verdict(command))
    refusal, illegal = refusal_of(stdout), illegal_of(stdout)
    if illegal:
        start = f"step {illegal.number}, `{it.document.steps[illegal.number - 1].text}`, isn't allowed: {illegal.why}; "
        return None if errors and errors[0].text.startswith(start) else f"{errors[:1]} doesn't say {start!r}"
    if refusal:
        first = [(error.line, error.code, error.name) for error in errors[:1]]
        found = it.faults(command)[:1]
        if first != [(refusal.line, refusal.code, refusal.name)] or errors[0].text == NOT_FOUND or found != errors[:1]:
            return f"the first error is {errors[:1]}, found is {found}, and {refusal} is wanted"
        return None
    found = [] if words in READING_ALONE else errors or it.faults(command)
    return f"it is accepted, and {found[0]} is told" if found else None


def all_cases(program):
    """Returns the cases that differ, or nothing."""
    cases = []
    for document in sorted([*(TOP / "examples").rglob("*.dbp"), *(TOP / "cases").rglob("*.dbp")]):
        words = (document.parent / "words").read_text().split()
        stdout = Path(f"{document}.stdout").read_bytes()
        cases.append((document.relative_to(TOP), words, document.read_bytes(), stdout))
    return all_of(program, cases)


def other_documents(program):
    """Returns the documents of the docs, and those of .ci/tried, that differ from what the program prints, or nothing."""
    texts = {}
    for page in sorted([*TOP.glob("*.md"), *(TOP / "docs").glob("*.md")]):
        for place, text in enumerate(re.findall(r"```\n(dbp [12]\n.*?)```", page.read_text(), re.DOTALL), 1):
            texts[f"{page.name}, document {place}"] = text.encode()
    for file in sorted([*(TOP / ".ci").rglob("*.dbp"), *(TOP / "docs").rglob("*.dbp")]):
        texts[file.relative_to(TOP)] = file.read_bytes()
    words = [["plan"], ["replay"], RANK]
    return all_of(program, [(it, w, text, run_program(program, w, text).stdout) for it, text in texts.items() for w in words])


def made_cases(program):
    """Returns the refused documents of .ci/made that differ, or nothing; those that are large are left out."""
    cases = {}
    for file in sorted((TOP / ".ci" / "made").glob("*.py")):
        spec = importlib.util.spec_from_file_location(file.stem, file)
        module = importlib.util.module_from_spec(spec)
        spec.loader.exec_module(module)
        for name, words, text, status, stdout in module.cases():
            if status == 1 and len(text) < MOST_MADE:
                cases[text, words == RANK] = (f"{file.name}: {name}", words, text, stdout)
    return all_of(program, cases.values())


def all_of(program, cases):
    """Returns those of several cases that differ, or nothing; each is a name, words, a document and what is printed."""
    with ThreadPoolExecutor() as pool:
        found = pool.map(lambda case: (case[0], differs(program, *case[1:])), cases)
        return "; ".join(f"{name}: {text}" for name, text in found if text) or None


def written(program, document, ending="stderr"):
    """Returns how the text of a document's messages, or its status, differs from what stands beside it, or nothing."""
    status = Path(f"{document}.status")
    wanted = int((status if status.is_file() else WRITTEN / "status").read_text())
    found, lines, messages = judged(program, str(document), None)
    if found != wanted:
        return f"the status is {found}, and {wanted} is wanted"
    return first_difference(plain(document.name, lines, messages), Path(f"{document}.{ending}").read_text())


def written_with_sums(program, document):
    """Returns the same with a program that has no command `rta`: then sums of costs and periods are told."""
    with tempfile.TemporaryDirectory() as room:
        return written(without_rta(program, room), document, "sums.stderr")


def first_difference(found, wanted):
    """Returns the first line in which two texts differ, or nothing."""
    if found == wanted:
        return None
    lines, others = [*found.splitlines(), None], [*wanted.splitlines(), None]
    for number, (line, other) in enumerate(zip(lines, others), 1):
        if line != other:
            return f"line {number} is {line!r}, and {other!r} is wanted"
    return "the ends of lines differ"


def json_of(program, document):
    """Returns how the JSON of a document's messages differs from what stands beside it, or nothing."""
    text = as_json(objects(document.name, judged(program, str(document), None)[2]))
    if json.loads(text) != json.loads(Path(f"{document}.json").read_text()):
        return f"it is {text}"
    return None


def matcher_of_docs(program):
    """Returns the document whose messages the problem matcher of docs/TOOLS.md doesn't read, or nothing."""
    matcher = json.loads(re.search(r"```json\n(.*?)```", (TOP / "docs" / "TOOLS.md").read_text(), re.DOTALL)[1])
    pattern = re.compile(matcher["tasks"][0]["problemMatcher"]["pattern"]["regexp"])
    for document in sorted(WRITTEN.glob("*.dbp")):
        _, lines, messages = judged(program, str(document), None)
        found = [pattern.match(line) for line in plain(document.name, lines, messages).splitlines()]
        read = [(it[1], int(it[2]), int(it[3])) for it in found if it]
        places = [it for message in messages for it in (message, *message.notes)]
        if read != [(document.name, it.line, it.column) for it in places]:
            return f"{document.name}: it reads {read}"
    return None


def call(program, words, text, status, start):
    """Returns how a call of the tool differs from what is wanted, or nothing."""
    ran = subprocess.run([CHECK, "--program", program, *words], input=text, capture_output=True, check=False)
    printed = ran.stdout if "--json" in words else ran.stderr
    if ran.returncode != status:
        return f"the status is {ran.returncode}, and {status} is wanted; it printed {printed[:300]!r}"
    is_as_wanted = printed.startswith(start) if start else not printed
    return None if is_as_wanted else f"it printed {printed[:300]!r}, and {start!r} is wanted first"


def trials(program):
    """Yields the trials of the tool, each a name and a call that returns what differs, or nothing."""
    yield "all cases", partial(all_cases, program)
    yield "cases that are made", partial(made_cases, program)
    yield "other documents", partial(other_documents, program)
    for document in sorted(WRITTEN.glob("*.dbp")):
        yield f"the text of {document.stem}", partial(written, program, document)
    for name in WITH_SUMS:
        yield f"the text of {name}, without `rta`", partial(written_with_sums, program, WRITTEN / f"{name}.dbp")
    for name in WITH_JSON:
        yield f"the JSON of {name}", partial(json_of, program, WRITTEN / f"{name}.dbp")
    yield "the problem matcher of docs/TOOLS.md", partial(matcher_of_docs, program)
    for name, words, text, status, start in CALLS:
        yield name, partial(call, program, words, text, status, start)
