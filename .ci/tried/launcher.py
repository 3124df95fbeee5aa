"""The launcher ./dbp: if a word is a file's name, a line after the program's own says how a document is handed in."""

import subprocess
import tempfile
from functools import partial
from pathlib import Path

TOP = Path(__file__).resolve().parents[2]
NOTE = b"dbp: the document comes on standard input: dbp "
TEXT = b"dbp 1\npolicy fp\nuntil 1\ndone\n"

# The words of a call in a folder with the files of FILES, its status, and how the note goes on if there is one.
FILES = ("speed.dbp", "a b.dbp", "-x.dbp", "5", "speed")
CALLS = (
    (["mean", "speed.dbp"], 2, b"mean < speed.dbp\n"),
    (["mean", "a b.dbp"], 2, b"mean < a\\ b.dbp\n"),
    (["run", "--turns", "5", "speed.dbp"], 2, b"run --turns 5 < speed.dbp\n"),
    (["need", "pulse", "speed.dbp"], 2, b"need pulse < speed.dbp\n"),
    (["need", "speed.dbp"], 2, b"need < speed.dbp\n"),
    (["speed.dbp"], 2, b"COMMAND < speed.dbp\n"),
    (["mean", "none.dbp"], 2, None),
    (["mean", "-x.dbp"], 2, None),
    (["men"], 2, None),
    (["need", "speed"], 1, None),
    (["run", "--turns", "5"], 0, None),
    (["gen", "5"], 0, None),
    (["mean"], 0, None),
)


def call(words, status, ending):
    """Returns how a call of the launcher differs from what is wanted, or nothing."""
    with tempfile.TemporaryDirectory() as room:
        for name in FILES:
            (Path(room) / name).write_bytes(TEXT)
        ran = subprocess.run([TOP / "dbp", *words], cwd=room, input=TEXT, capture_output=True, check=False)
    said = ran.stderr.splitlines(True)[-1:] if NOTE in ran.stderr else []
    wanted = [NOTE + ending] if ending else []
    if (ran.returncode, said) != (status, wanted):
        return f"the status is {ran.returncode}, and it says {ran.stderr[-200:]!r}; {status} and {wanted} are wanted"
    return None


def trials(_program):
    """Yields the trials of the launcher, each a name and a call that returns what differs, or nothing."""
    for words, status, ending in CALLS:
        yield " ".join(["dbp", *words]), partial(call, words, status, ending)
