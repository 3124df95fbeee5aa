"""The docs name what is there: each name and each path in backticks, and each path of a folder of the repository. So do
the comments at the heads of the crates.

A name is looked up in the code of the crates, in the names of their files, in the tools and cases, in the page's own
examples (which doc_examples.py tries), among what the program calls (which trusted.py compares), and among the commands
of the program and of `rt`. Words that stand for something else have their reason in EXPLAINED. The words after `rt` are
skipped if `rt` isn't on the machine.
"""

import re
import shutil
import subprocess
import sys
from functools import lru_cache, partial
from pathlib import Path

TOP = Path(__file__).resolve().parents[2]
sys.path.insert(0, str(TOP / ".ci"))

from doc_pages import blocks_and_prose, pages, spans, without_spans  # noqa: E402

# Words in backticks that no file has, each with the reason why it may stand there.
EXPLAINED = {
    ".vscode/tasks.json": "a file of the reader's own",
    "K_FOREVER": "a word of Zephyr, as the four below",
    "K_PRIO_PREEMPT": "as `K_FOREVER`",
    "K_THREAD_DEFINE": "as `K_FOREVER`",
    "k_msleep": "as `K_FOREVER`",
    "k_sem_give": "as `K_FOREVER`",
    "k_sem_take": "as `K_FOREVER`",
    "k_timer": "as `K_FOREVER`",
    "NVIC_ISPR": "a register of the processor Cortex-M",
    "TASK_instance_": "a signal whose name is put together, of a task, `_instance` and as many `_` as it needs",
    "UnusedLet": "a warning whose name is put together, of `Unused` and the kind of the line",
    "UnusedRead": "as `UnusedLet`",
    "UnusedSense": "as `UnusedLet`",
    "UnusedState": "as `UnusedLet`",
    "café": "a text that is refused, since it isn't ASCII",
    "copen": "a command of Vim",
    "cur": "a word of the paper",
    "grep": "a command of git",
    "logic": "a word of the line that names the kit",
    "man": "the program that shows the manual page",
    "objdump": "the program that shows machine code",
    "out/": "what rt keeps of earlier checks, which isn't there in a fresh clone",
    "prev": "a word of the paper",
    "previous": "a word of the paper",
    "rj": "read number j of a generated document",
    "tX": "a task of a generated document that is drawn",
    "ti": "task number i of a generated document",
}

COMMENTS = {".rt": r"//[^\n]*", ".antt": r"--[^\n]*"}
CODE = ("crates/*/src/**/*.rt", "crates/*/specs/**/*.antt", "crates/*/proofs/**/*.antt")
OTHERS = ("tools/**/*", "editors/**/*", ".ci/**/*", "bench/*", "examples/**/*", "cases/**/*", "crates.txt")
WORD = re.compile(r"[^\W\d]\w*(?:-\w+)*")
PATH = re.compile(r"\.{0,2}/?[\w.*~-]+(?:/[\w.*-]+)*/?")
FOLDERS = "crates|docs|examples|cases|tools|bench|editors|review|\\.ci"
IN_PROSE = re.compile(rf"(?<![\w/.~-])(?:{FOLDERS})/[\w./*-]*")
ENDINGS = (".rt", ".antt", ".py", ".md", ".dbp", ".edit", ".txt", ".svg", ".stdout", ".status", ".stderr", ".csv")
OPTION_OR_HOME = re.compile(r"(?<!\S)-[a-z]+|~/\S*")
KIT = re.compile(r"rattle-kit-\w+|[0-9a-f]{16}")
PLACEHOLDER = re.compile(r"(?<![a-z])[A-Z]{2,}(?![a-z])")


def files_of(pattern):
    """Returns the files that a pattern names, without what rt keeps."""
    found = (it for it in TOP.glob(pattern) if it.is_file() and it != Path(__file__).resolve())
    return [it for it in found if not {"out", "__pycache__"} & {*it.relative_to(TOP).parts}]


@lru_cache(maxsize=None)
def known_words():
    """Returns all words of the code, the tools and the cases, and the names of their files."""
    found = set()
    for pattern in (*CODE, *OTHERS):
        for file in files_of(pattern):
            text = file.read_bytes().decode("utf-8", "replace")
            if file.suffix in COMMENTS:
                text = re.sub(COMMENTS[file.suffix], "", text)
            found.update(WORD.findall(text))
            found.update((file.stem, *file.relative_to(TOP).parts))
    return found


@lru_cache(maxsize=None)
def known_files():
    """Returns the names of all files and folders of the repository, as paths from its top."""
    listing = ["git", "ls-files", "-z", "--cached", "--others", "--exclude-standard"]
    names = subprocess.run(listing, cwd=TOP, capture_output=True, check=False).stdout.decode()
    files = [it for it in names.split("\0") if it] or [it.relative_to(TOP).as_posix() for it in files_of("**/*")]
    folders = {parent.as_posix() for it in files for parent in Path(it).parents}
    return {*files, *folders, *(it.name for it in map(Path, files))}


def is_path_there(path):
    """Returns whether a path names a file or a folder: from the top, within a crate, or a file's name alone."""
    path = re.sub(r"^\./|/out$|/$", "", path) or "."
    if path in known_files() or (TOP / path).exists():
        return True
    pattern = re.escape(PLACEHOLDER.sub("*", path)).replace(r"\*", "[^/]*")
    inside = re.compile(rf".*{pattern}" if path in ENDINGS else rf"(?:.*/)?{pattern}")
    return any(inside.fullmatch(it) for it in known_files())


def is_path(span):
    """Returns whether a code span is a path and not a name or an expression."""
    is_long = "/" in span.strip("/") or span.endswith(("/", *ENDINGS))
    return is_long and bool(PATH.fullmatch(span)) and not span.startswith("~")


@lru_cache(maxsize=None)
def listed_commands(program):
    """Returns the commands that the program lists."""
    usage = subprocess.run([program], stdin=subprocess.DEVNULL, capture_output=True, check=False).stderr.decode()
    return set(re.findall(r"(?m)^  (\w+)", usage))


@lru_cache(maxsize=None)
def content_of(program):
    """Returns the bytes of the program's file."""
    return Path(program).read_bytes()


def is_called(program, word):
    """Returns whether the program's file names what the word names: then a byte 0 is before it and after it."""
    return b"\0%s\0" % word.encode() in content_of(program)


@lru_cache(maxsize=None)
def kit_commands():
    """Returns the text in which `rt` lists its commands, or nothing if it isn't on the machine."""
    if not shutil.which("rt"):
        print(".ci/tried/doc_names.py: words after `rt` are skipped, since rt isn't there", file=sys.stderr)
        return None
    found = ""
    for words in (["rt"], ["rt", "fmt", "--help"]):
        ran = subprocess.run(words, cwd="/", stdin=subprocess.DEVNULL, capture_output=True, check=False)
        found += (ran.stdout + ran.stderr).decode()
    return found


def fault_of_command(program, span):
    """Returns what is wrong with a command line in backticks, or nothing."""
    words = span.split()
    tool = words[0].removeprefix("./")
    if len(words) > 1 and tool in ("dbp", "try") and words[1].isalpha() and words[1].islower():
        return None if words[1] in listed_commands(program) else f"dbp has no command `{words[1]}`"
    if tool == "rt" and len(words) > 1 and kit_commands() is not None:
        return None if re.search(rf"\b{re.escape(words[1])}\b", kit_commands()) else f"rt has no command `{words[1]}`"
    return None


def words_of_examples(text):
    """Returns the words and the names of files in the examples of a page: its fenced blocks that are tried."""
    tried = [it for it in blocks_and_prose(text)[0] if it.word in ("", "diff")]
    lines = [line for it in tried for line in it.lines]
    return {word for line in lines for word in (*WORD.findall(line), *line.split())}


def fault_of_span(program, span, own):
    """Returns what is wrong with a code span, or nothing; `own` are the words of the page's examples."""
    if span in EXPLAINED or span in own:
        return None
    if is_path(span):
        return None if is_path_there(span) else f"no file is named `{span}`"
    if span.startswith("rt "):
        return fault_of_command(program, span)
    words = WORD.findall(OPTION_OR_HOME.sub("", span))
    strange = [it for it in words if not (it in own or is_known(it) or is_called(program, it))]
    if strange:
        return f"nothing is named `{strange[0]}`" + (f" (in `{span}`)" if strange[0] != span else "")
    return fault_of_command(program, span)


def is_known(word):
    """Returns whether a word stands somewhere, or is explained, or is a placeholder in capitals."""
    is_other = len(word) == 1 or PLACEHOLDER.fullmatch(word) or KIT.fullmatch(word)
    if word in known_words() or word in EXPLAINED or is_other:
        return True
    # a word with a `-` may be two words with a minus between
    return "-" in word and all(is_known(it) for it in word.split("-"))


def faults_of(program, text):
    """Yields what is wrong with the names and paths of a page."""
    own = words_of_examples(text)
    for number, line in blocks_and_prose(text)[1]:
        found = [fault_of_span(program, it, own) for it in spans(line)]
        paths = [it.rstrip(".,:;-") for it in IN_PROSE.findall(without_spans(line))]
        found += [f"no file is named {it}" for it in paths if not is_path_there(it)]
        yield from (f"line {number}: {it}" for it in found if it)


def fault_of_heads(program):
    """Returns the faults of the comments at the heads of the crates, or nothing."""
    found = []
    for root in files_of("crates/*/src/lib.rt"):
        head = [it[3:] for it in root.read_text(encoding="utf-8").splitlines() if it.startswith("//!")]
        found += [f"{root.parts[-3]}, {it}" for it in faults_of(program, "\n".join(head))]
    return "; ".join(found) or None


def fault_of_page(program, page):
    """Returns the faults of a page, or nothing."""
    return "; ".join(faults_of(program, page.read_text(encoding="utf-8"))) or None


# A line with each kind of fault, and what must be said of it.
WRONG = {
    "a `name_that_is_nowhere`": "nothing is named `name_that_is_nowhere`",
    "the law `one_document::none_such`": "nothing is named `none_such` (in `one_document::none_such`)",
    "an `error: 8 NoSuchCode`": "nothing is named `NoSuchCode` (in `error: 8 NoSuchCode`)",
    "a file `NoSuchFile.antt`": "no file is named `NoSuchFile.antt`",
    "a path `crates/dia_read/src/none.rt`": "no file is named `crates/dia_read/src/none.rt`",
    "a path crates/none in a sentence": "no file is named crates/none",
    "a command `dbp draw`": "dbp has no command `draw`",
    "a command `rt must-draw`": "rt has no command `must-draw`",
}
RIGHT = """`read_doc`, `Core::step`, `crates/*/src`, `specs/Lib.antt`, `NAME.dbp.stdout`, `dbp sim --record`, `x = -5`,
`.antt`, `out/`, `~/none.dbp`, `none_but_here.dbp`, `none_but_here`, and examples/form/.
```
$ dbp mean < none_but_here.dbp
```
"""


def fault_of_wrong_lines(program):
    """Returns the line whose fault isn't found, or that is found to be wrong and isn't, or nothing."""
    for line, wanted in WRONG.items():
        if "`rt " in line and kit_commands() is None:
            continue
        found = list(faults_of(program, line))
        if found != [f"line 1: {wanted}"]:
            return f"{line!r}: {found} is found, and {wanted!r} is wanted"
    return "; ".join(faults_of(program, RIGHT)) or None


def trials(program):
    """Yields the trials, each a name and a call that returns what is wrong, or nothing."""
    # trials run side by side, and all of them look words up
    known_words()
    for page in pages():
        yield page.relative_to(TOP).as_posix(), partial(fault_of_page, program, page)
    yield "heads of the crates", partial(fault_of_heads, program)
    yield "lines with faults", partial(fault_of_wrong_lines, program)
