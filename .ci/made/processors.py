"""Documents of version 1 as documents of version 2, with and without processors of their tasks: what is printed stays.

Only `form`, `upgrade`, `need` and `rank` print `cpu`, and only `cpus` simulates by it. So each document of examples/ and
cases/ that another command than the first two and `cpus` accepts is tried without processors, and from each processor on.
What `need` and `rank` write has the processors of its document.
"""

import itertools
import pathlib
import re

TOP = pathlib.Path(__file__).resolve().parents[2]

TURNS = ["run", "--turns", "1"]
LOOKING = (["form"], ["upgrade"], ["cpus"], ["cpus", "--record"])  # at the processors
WRITING = ("need", "rank")
REFUSED = 1
PROCESSORS = range(8)
VERSION_1 = re.compile(rb"^[ \t]*dbp[ \t]+0*1\b", re.MULTILINE)


def accepted(folder):
    """Yields the documents of a folder that its command accepts, each with its status and what is printed."""
    status = int((folder / "status").read_text())
    for file in sorted(folder.glob("*.dbp")):
        own = pathlib.Path(f"{file}.status")
        own_status = int(own.read_text()) if own.is_file() else status
        if own_status != REFUSED and VERSION_1.search(file.read_bytes()):
            yield file, own_status, pathlib.Path(f"{file}.stdout").read_bytes()


def tried():
    """Yields commands, each with a document, its status and what is printed; `mean` and runs print the same lines."""
    for words in sorted([*TOP.glob("examples/**/words"), *TOP.glob("cases/**/words")]):
        command = words.read_text().split()
        commands = [["mean"], TURNS] if command in (["mean"], ["run"]) else [] if command in LOOKING else [command]
        for document in accepted(words.parent):
            yield from ((it, *document) for it in commands)


def with_processors(text, processors):
    """Returns a document of version 2 in which each task line ends with the next of these texts."""
    lines, is_diagram = [], True
    for line in text.decode("ascii").split("\n"):
        code, sign, comment = line.partition("#")
        words = code.split()
        is_diagram = is_diagram and words not in (["trace"], ["script"])
        if is_diagram and words[:1] == ["dbp"]:
            code = "dbp 2 "
        elif is_diagram and words[:1] == ["task"]:
            code = f"{code.rstrip()}{next(processors)} "
        lines.append(code + sign + comment)
    return "\n".join(lines).encode("ascii")


def from_processor(first):
    """Yields the ends of task lines whose processors follow one another, from one on."""
    return (f" cpu {number % len(PROCESSORS)}" for number in itertools.count(first))


def printed(command, stdout, processors):
    """Returns what is printed of a document with processors, of what is printed without: written documents have them too."""
    if command[0] not in WRITING:
        return stdout
    return re.sub(rb" $", b"", with_processors(stdout, processors), flags=re.MULTILINE)


def cases():
    for command, file, status, stdout in tried():
        text, name = file.read_bytes(), f"{' '.join(command)} of {file.relative_to(TOP)}"
        wanted = printed(command, stdout, itertools.repeat(" cpu 0"))
        yield f"{name}, none", command, with_processors(text, itertools.repeat("")), status, wanted
        for first in PROCESSORS:
            wanted = printed(command, stdout, from_processor(first))
            yield f"{name}, from {first}", command, with_processors(text, from_processor(first)), status, wanted
