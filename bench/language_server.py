#!/usr/bin/env python3
"""Measures how long tools/language_server takes for each request, on each example and on documents of about one MiB.

  bench/language_server.py [--program PROGRAM] [--large | --mutants N] [--seed N]

Prints for each request the longest time of an answer, in seconds by the clock and of the processor, and the document; the
limits are 0.3 s on examples, 2 s on one MiB and 3 s for its diagnostics, on a machine that does nothing else. With --mutants
each example has N mutants (bench/mutants.py), which are asked about too. The exit status is 1 if a request failed.
"""

import os
import random
import sys
import time
from pathlib import Path

TOP = Path(__file__).resolve().parent.parent
sys.path[:0] = [str(TOP / ".ci"), str(TOP / "tools")]

import documents  # noqa: E402
from editor_texts import position_at  # noqa: E402
from language_client import Client  # noqa: E402
from mutants import mutant_of  # noqa: E402
from running import parser_of  # noqa: E402

POSITIONED = ("hover", "definition", "references", "documentHighlight", "prepareRename", "completion", "rename")
WHOLE = ("documentSymbol", "foldingRange", "semanticTokens/full", "codeLens", "formatting", "codeAction")
SPOTS = 12  # positions of an example
MORE = {"references": {"context": {}}, "formatting": {"options": {}}, "rename": {"newName": "a_new_name_"}}
LARGE = {
    "long expressions": documents.longest_lets,
    "a trace of 50,000 rows": lambda: documents.trace(50_000, 2, 2),
    "a script of one task": lambda: documents.instances(16_000),
    "a script of 32 tasks": lambda: documents.chain_script(32),
    "a script that is wrong": lambda: documents.script_of("start a"),
    "comments": lambda: documents.text_of("policy fp", "until 1", *["# a comment"] * 87_000),
}
TICKS = os.sysconf("SC_CLK_TCK")


def processor_seconds(pid):
    """Returns the seconds of the processor that a process and its children that have ended took."""
    fields = Path(f"/proc/{pid}/stat").read_text().rsplit(")", 1)[1].split()
    return sum(map(int, fields[11:15])) / TICKS


class Measured:
    """The longest answers, by request."""

    def __init__(self):
        self.longest = {}
        self.failed = 0

    def ask(self, client, name, method, document, call):
        """Measures a call, which asks for something."""
        start, used = time.perf_counter(), processor_seconds(client.process.pid)
        try:
            call()
        except ValueError as error:  # a name that can't be renamed isn't a failure
            if "-32803" not in str(error):
                self.failed += 1
                print(f"{method} of {document}: {error}")
        found = (time.perf_counter() - start, processor_seconds(client.process.pid) - used, document)
        self.longest[name, method] = max(self.longest.get((name, method), found), found)

    def print(self):
        """Prints the longest answers."""
        for (name, method), (seconds, used, document) in self.longest.items():
            print(f"{name:10} {method:22} {seconds:8.3f} s {used:8.2f} s of the processor, {document}")


def measure(client, measured, kind, name, text, spots):
    """Measures all requests about a document, which is then closed."""
    uri = "file:///measured.dbp"
    client.told.clear()

    def first():
        client.open(uri, text)
        client.diagnostics(uri, 1)

    measured.ask(client, kind, "diagnostics", name, first)
    measured.ask(client, kind, "first answer", name, lambda: (client.change(uri, 2, (None, text)), client.at("hover", uri, 0, 0)))
    everything = {"start": {"line": 0, "character": 0}, "end": {"line": 10**9, "character": 0}}
    for at in spots:
        place = position_at(text[:at], at)
        for it in POSITIONED:
            measured.ask(client, kind, it, name, lambda it=it: client.at(it, uri, **place, **MORE.get(it, {})))
    for it in WHOLE:
        more = {"range": everything, "context": {}} if it == "codeAction" else MORE.get(it, {})
        measured.ask(client, kind, it, name, lambda it=it, more=more: client.of(it, uri, **more))
    measured.ask(client, kind, "workspace/symbol", name, lambda: client.request("workspace/symbol", query="a"))
    client.notify("textDocument/didClose", textDocument={"uri": uri})


def main():
    """Measures what the words ask for, and returns the exit status."""
    parser = parser_of(__doc__)
    parser.add_argument("--large", action="store_true", help="large documents alone")
    parser.add_argument("--mutants", type=int, default=0, help="of each example (0)")
    parser.add_argument("--seed", type=int, default=1, help="what the changes are drawn from (1)")
    options = parser.parse_args()
    measured, draw = Measured(), random.Random(options.seed)
    with Client(options.program, "--tick", "5ms") as client:
        client.begin(workspaceFolders=[{"uri": (TOP / "examples").as_uri(), "name": "examples"}])
        for file in [] if options.large else sorted((TOP / "examples").rglob("*.dbp")):
            for text in [file.read_bytes(), *(mutant_of(draw, file.read_bytes()) for _ in range(options.mutants))]:
                text = text.decode("utf-8", "replace")
                spots = range(0, len(text) + 1, max(1, len(text) // SPOTS))
                measure(client, measured, "examples", file.name, text, spots)
        for name, made in LARGE.items() if not options.mutants else ():
            text = made().decode()
            measure(client, measured, "one MiB", name, text, (text.index("\n", 25) + 8, len(text) // 2))
        is_quiet = client.end() == 0 and not client.said
    measured.print()
    return 0 if is_quiet and not measured.failed else 1


if __name__ == "__main__":
    sys.exit(main())
