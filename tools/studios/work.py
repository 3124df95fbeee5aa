"""What the page asks for that takes a while: the report of a text, the words after each step of its script, and the lines of
`run --turns N`."""

import time
from functools import partial
from hashlib import sha256
from pathlib import Path

from checking.printed import objects
from ending import Status
from program import run_program
from reports.asked import asked_of_file
from reports.page import Shape, headline, page_html
from studios.first import first_pages
from studios.steps import replayed

FRAME = Path(__file__).resolve().parent / "page" / "frame.js"
MOST_MESSAGES = 1000  # that are marked in the text
MOST_LINES = 300  # of a run that are shown
LEFT_OUT = ("document",)  # parts of a report: the text is beside it


def page_of(asked, program, left_out=LEFT_OUT, remark=""):
    """Returns the bytes of a report's page."""
    shape = Shape(left_out, FRAME.read_text(), remark)
    return "".join(page_html([asked], program, shape)).encode("utf-8", "backslashreplace")


class Progress:
    """Tells what is done."""

    def __init__(self, events):
        self.events = events
        self.start = time.monotonic()

    def tell(self, what, _=0):
        """Tells what is done next."""
        self.events.tell("progress", what=what, seconds=round(time.monotonic() - self.start, 1))


def report(given, text, events):
    """Tells the messages of a document, and its report; of a large one first what is soon there."""
    program, name = given["program"], given["name"]
    tell = Progress(events).tell
    for asked, left_out, remark in first_pages(program, name, text):
        events.page("report", page_of(asked, program, left_out, remark), is_whole=False)
    asked = asked_of_file(program, name, text, tell, partial(tell_messages, events))
    tell("page")
    events.page("report", page_of(asked, program), is_whole=True, headline=headline(asked), good=asked.status == Status.DONE)


def tell_messages(events, verdict):
    """Tells the messages of a document, with the width of each."""
    messages = verdict.messages[:MOST_MESSAGES]
    marked = [{**shown, "width": it.width} for shown, it in zip(objects("", messages), messages)]
    events.tell("messages", messages=marked, count=len(verdict.messages))


def steps(given, text, events):
    """Tells the shared words after each step of a document's script."""
    events.tell("steps", **replayed(given["program"], text, Progress(events).tell))


def turns(given, text, events):
    """Tells the lines of a run whose order of turns is drawn from a number, and whether they are those of the meaning."""
    ran = run_program(given["program"], ["run", "--turns", given["number"]], text)
    lines = ran.stdout.decode("ascii", "replace").splitlines()
    if ran.status != Status.DONE:
        events.tell("refused", text="; ".join(lines) or f"`dbp run --turns` ends with status {ran.status}")
        return
    same = run_program(given["program"], ["mean"], text).stdout == ran.stdout
    digest = sha256(ran.stdout).hexdigest()
    events.tell("lines", number=given["number"], same=same, count=len(lines), digest=digest, lines=lines[:MOST_LINES])


WORKS = {"report": report, "steps": steps, "turns": turns}
