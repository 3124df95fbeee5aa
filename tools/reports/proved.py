"""What of a report is proved and what isn't: the figures with whose they are, the program, and what is trusted."""

from hashlib import sha256
from html import escape
from pathlib import Path
from shutil import which

from program import BUILT, LAUNCHER, logic_in
from reports.markup import code, table, tag

PROVED, COMPARED, UNPROVED = "yes", "no, but compared", "no"

FIGURES = (
    ("whether the document is accepted; else line and code of the first error", "dbp plan, dbp replay", PROVED, ""),
    ("the outs of each instance", "dbp mean", PROVED, "the one table that meets the zero-time equations of the diagram"),
    ("how many slots a task has", "dbp plan", PROVED, ""),
    ("the overrun, or that there is none", "dbp sim, dbp cpus", PROVED,
     "costs are taken as exact; by dbp cpus where a processor isn't 0"),
    ("bounds on response times", "dbp rta", PROVED, "for all offsets, under fixed priorities, on one processor"),
    ("bounds of tasks on several processors", "tools/response", UNPROVED, "for all offsets, under fixed priorities"),
    ("priorities by links", "dbp rank", PROVED, "the document with them is accepted and means the same"),
    ("scenarios", "dbp need", PROVED, "all slots of the task are in use at once"),
    ("who is served when, reads and their values, slots over time", "this tool", COMPARED,
     "with each step of dbp sim --record or dbp cpus --record; with an overrun, of the releases before it"),
    ("response times seen, and missed deadlines", "this tool", UNPROVED, "computed from the order of service"),
    ("ranks, loads, links", "this tool", UNPROVED, "computed from dbp form"),
    ("other errors, all texts of messages, warnings and notes", "tools/check", UNPROVED, ""),
    ("pictures, plots and this page", "this tool", UNPROVED, ""),
)

TRUSTED = (
    "The toolchain and the C library.",
    "The contracts of std and of the kit's crates.",
    "Memory that the allocator hands out, and streams that behave as their traits say.",
    "That the program read exactly the bytes of the document: standard input doesn't say which it has.",
    "For a run by threads, that atomic steps are sequentially consistent.",
    "That the costs of the document are those of the tasks, where times are concerned.",
    "This tool, for all that isn't proved above, and the browser that shows the page.",
)


def program_file(program):
    """Returns the file of a program; that of the launcher is what it has built."""
    return BUILT if program == str(LAUNCHER) else Path(which(program) or program)


def about_program(program):
    """Returns the checksum of a program, and the logic of the kit that is named inside of it."""
    try:
        found = program_file(program).read_bytes()
    except OSError:
        return "unknown, since its file can't be read", "unknown"
    return sha256(found).hexdigest(), logic_in(found) or "unknown: the file names none"


def proved_html(asked, program):
    """Returns what is proved of a report, and by what it was made."""
    rows = [[escape(what), code(by), escape(proved), escape(about)] for what, by, proved, about in FIGURES]
    checksum, logic = about_program(program)
    made_by = [
        ["document, SHA-256", code(sha256(asked.text).hexdigest())],
        ["program, SHA-256", code(checksum)],
        ["logic of the kit, as the program's file names it", code(logic)],
    ]
    return "\n".join([
        table(("figure", "by", "proved", "remark"), rows, "What is proved, if the program is the one that was proved"),
        table(("what", "value"), made_by, "What the report was made of and by"),
        tag("p", "That the program's file is the one that was proved isn't checked here. Trusted are:"),
        tag("ul", *(tag("li", escape(it)) for it in TRUSTED)),
    ])
