"""`upgrade` of each document of a case of `form`: the same refusal, or the canonical text in version 2. Such a text is what
`upgrade` and `form` make of it."""

import importlib.util
import pathlib

MADE = pathlib.Path(__file__).resolve().parent
TOP = MADE.parents[1]

# The modules that make cases of `form`, but for those whose documents are in files.
MODULES = (
    "generated",
    "limits",
    "reading_limits",
    "reading_long_texts",
    "reading_prefixes",
    "task_lines_of_version_1",
    "task_lines_of_version_2",
)


def cases_of_files():
    """Yields the cases of the folders whose command is `form`: a name, the document, the status and what is printed."""
    for words in sorted([*TOP.glob("examples/**/words"), *TOP.glob("cases/**/words")]):
        if words.read_text().split() == ["form"]:
            status = int((words.parent / "status").read_text())
            for document in sorted(words.parent.glob("*.dbp")):
                printed = pathlib.Path(f"{document}.stdout").read_bytes()
                yield str(document.relative_to(TOP)), document.read_bytes(), status, printed


def cases_of_modules():
    """Yields the same of the modules."""
    for module in MODULES:
        spec = importlib.util.spec_from_file_location(module, MADE / f"{module}.py")
        made = importlib.util.module_from_spec(spec)
        spec.loader.exec_module(made)
        for name, words, document, status, printed in made.cases():
            if words == ["form"]:
                yield f"{module}, {name}", document, status, printed


def in_version_2(text):
    """Returns a canonical text in version 2, where each task line ends with a processor."""
    first, *lines = text.decode("ascii").splitlines()
    if first == "dbp 2":
        return text
    ends = [place for place, line in enumerate(lines) if line in ("trace", "script", "done")]
    found = ["dbp 2"]
    for place, line in enumerate(lines):
        found.append(f"{line} cpu 0" if line.startswith("task ") and place < ends[0] else line)
    return "".join(f"{line}\n" for line in found).encode("ascii")


def cases():
    for name, document, status, printed in [*cases_of_files(), *cases_of_modules()]:
        if status:
            yield f"{name}, refused", ["upgrade"], document, status, printed
        else:
            text = in_version_2(printed)
            yield name, ["upgrade"], document, 0, text
            yield f"{name}, upgraded again", ["upgrade"], text, 0, text
            yield f"{name}, upgraded, its canonical text", ["form"], text, 0, text
