"""Each canonical text that a case of `form`, `need` or `rank` wants is its own canonical text."""

import pathlib

TOP = pathlib.Path(__file__).resolve().parents[2]
COMMANDS = ("form", "need", "rank")


# The folders whose documents one of these accepts.
def folders():
    for words in sorted([*TOP.glob("examples/**/words"), *TOP.glob("cases/**/words")]):
        folder = words.parent
        if words.read_text().split()[0] in COMMANDS and (folder / "status").read_text().strip() == "0":
            yield folder


def cases():
    for folder in folders():
        for wanted in sorted(folder.glob("*.dbp.stdout")):
            text = wanted.read_bytes()
            yield wanted.name[: -len(".dbp.stdout")], ["form"], text, 0, text
