"""Every example that `mean` accepts, run in threads, and on one thread in orders of turns that are drawn from numbers: all
print the lines of `mean`."""

import pathlib

TOP = pathlib.Path(__file__).resolve().parents[2]

# The words of a run: in threads, and by the numbers 0 to 20; then other spellings, with the greatest number among them.
RUNS = [["run"]] + [["run", "--turns", str(number)] for number in range(21)]
SPELLED = [["run", "--turns=9"], ["run", "--turns", "18446744073709551615"], ["run", "--turns=00000000000000000009"]]

# The folders of documents whose lines `mean` prints, the first one with the documents that readers see.
FOLDERS = ["examples", "cases/mean/documents", "cases/run/documents"]


def documents():
    for folder in FOLDERS:
        for document in sorted((TOP / folder).glob("*.dbp")):
            yield document, pathlib.Path(f"{document}.stdout").read_bytes()


def cases():
    for place, (document, lines) in enumerate(documents()):
        for words in RUNS + (SPELLED if place == 0 else []):
            yield f"{document.name}: {' '.join(words)}", words, document.read_bytes(), 0, lines
