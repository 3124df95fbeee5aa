"""The command line of tools/report."""

import argparse
import time
from functools import partial

from command_line import Parser, read_bytes, write_text
from ending import say, status_of, status_of_all
from pictures.commands import shown_name
from program import add_program_option
from reports.asked import asked_of_file
from reports.page import headline, page_html

ABOUT = """Writes a report of documents as one HTML page, which takes nothing from elsewhere: the verdict, the diagram,
the timeline, the values of all outs, tasks, links and scenarios, and what of it is proved.

exit status: 0 accepted and in time; 1 a document is refused, overruns, misses a deadline or has a bound above it;
2 wrong words; 4 a file can't be read; 5 the page can't be written; 6 the program's memory ran out; 7 a document is too
large; 70 it can't be run; 130 interrupted."""

LARGE = 100_000  # bytes of a document and of its table; above it is said what is done


def parser():
    """Returns the parser of the words."""
    made = Parser(prog="report", description=ABOUT, formatter_class=argparse.RawDescriptionHelpFormatter)
    made.add_argument("files", nargs="+", metavar="FILE", help="a document; - is standard input")
    made.add_argument("-o", dest="out", metavar="REPORT.html", help="the file of the page (standard output)")
    add_program_option(made)
    return made


class Progress:
    """Says on standard error what is done with a document, if that or its table is large."""

    def __init__(self, name, size):
        self.name = name
        self.size = size
        self.start = time.monotonic()

    def tell(self, what, size=0):
        """Says what is done next, after something of this size was read."""
        self.size += size
        if self.size > LARGE:
            say(f"report: {self.name}: {time.monotonic() - self.start:.0f} s: {what}")


def report_of(program, file):
    """Returns what is said of a file, and what says what is done with it."""
    name, text = shown_name(file), read_bytes(file)
    tell = Progress(name, len(text)).tell
    return asked_of_file(program, name, text, tell), tell


def page_of(reports, program):
    """Yields the pieces of the page."""
    reports[-1][1]("page")
    yield from page_html([asked for asked, _ in reports], program)
    reports[-1][1]("done")


def run(words):
    """Writes the report that the words ask for, and returns the exit status."""
    options = parser().parse_args(words)
    reports = [report_of(options.program, file) for file in options.files]
    write_text(page_of(reports, options.program), options.out)
    for asked, _ in reports:
        if asked.status:
            say(f"report: {asked.name}: {headline(asked)}")
    return status_of_all([asked.status for asked, _ in reports])


def main(words=None):
    """Serves a call of the command with these words, and returns its status."""
    return status_of("report", partial(run, words))
