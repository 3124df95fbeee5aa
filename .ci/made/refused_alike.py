"""`rta`, `need` and `cpus` refuse each document that `mean` refuses, by the same line: all faults of a document come before
their own refusals, also before the one that there is no such task. So does `rank`, but for the faults of ranks."""

import pathlib
import re

TOP = pathlib.Path(__file__).resolve().parents[2]
REFUSED = 1
COMMANDS = (["rta"], ["need", "a"], ["need", "no_such_task_is_declared"], ["cpus"], ["cpus", "--record"])
RANK = ["rank"]
OF_RANKS = re.compile(rb"refused: line \d+: (14|15|18) ")


def cases():
    for words in sorted([*TOP.glob("examples/**/words"), *TOP.glob("cases/**/words")]):
        if words.read_text().split() != ["mean"]:
            continue
        status = (words.parent / "status").read_text()
        for document in sorted(words.parent.glob("*.dbp")):
            own = pathlib.Path(f"{document}.status")
            if int(own.read_text() if own.is_file() else status) == REFUSED:
                refusal = pathlib.Path(f"{document}.stdout").read_bytes()
                for command in COMMANDS if OF_RANKS.match(refusal) else (*COMMANDS, RANK):
                    name = f"{' '.join(command)} of {document.relative_to(TOP)}"
                    yield name, command, document.read_bytes(), REFUSED, refusal
