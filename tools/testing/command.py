"""The command line of tools/test."""

import argparse
import os
import re
from functools import partial

from command_line import Parser, write_errors, write_text
from ending import Ended, Status, reason_of, say, status_of
from pictures.asking import Refused, simulated
from pictures.commands import shown_name
from pictures.record import Disagreement
from pictures.timeline import draw_timeline
from program import add_program_option
from testing.coverage import coverage_lines, lcov_lines
from testing.marked import marked_page
from testing.suite import Asked, Share, documents_of, outcomes_of
from testing.ways import COMMANDS, MEAN, ways_of
from testing.written import junit_text, summary, tap_lines

ABOUT = """Tests documents of dbp by what stands beside each FILE.dbp: FILE.expect, a table of outs at times, and
FILE.props, properties of outs, of the document's own trace and of drawn ones. docs/TESTING.md has an example. What fails
goes to standard error, the count to standard output.

exit status: 0 no test fails; 1 one fails, or a document is refused; 2 wrong words, or the program lacks a command;
4 a file can't be read; 5 a file can't be written; 6 the program's memory ran out; 7 a document is too large;
70 it can't be run; 130 interrupted."""

MOST_TURNS, MOST_JOBS, MOST_SHARDS, MOST_TRACES = 1000, 256, 1_000_000, 1_000_000
MOST_DIGITS = 20
MOST_SEED = 2**64


def number(least, most):
    """Returns what reads a number within limits."""

    def read(word):
        if not (word.isascii() and word.isdigit()) or len(word) > MOST_DIGITS or not least <= int(word) <= most:
            raise argparse.ArgumentTypeError(f"{word} isn't a number from {least} to {most}")
        return int(word)

    return read


def turns(word):
    """Returns the numbers of a list, as 1,2,7 or 1..8."""
    found = []
    for part in word.split(","):
        first, between, last = part.partition("..")
        read = number(0, MOST_SEED - 1)
        least, greatest = read(first), read(last if between else first)
        if not 0 <= greatest - least < MOST_TURNS:
            raise argparse.ArgumentTypeError(f"{part} has no numbers, or more than {MOST_TURNS}")
        found += range(least, greatest + 1)
    return found


def shard(word):
    """Returns the part of all work that a word names, as 2/4."""
    found = re.fullmatch(r"([0-9]{1,7})/([0-9]{1,7})", word)
    if not found or not 1 <= int(found[1]) <= int(found[2]) <= MOST_SHARDS:
        raise argparse.ArgumentTypeError(f"{word} isn't of the form K/N, with K from 1 to N")
    return Share(int(found[1]) - 1, int(found[2]))


def parser():
    """Returns the parser of the words."""
    made = Parser(prog="test", description=ABOUT, formatter_class=argparse.RawDescriptionHelpFormatter)
    made.add_argument("files", nargs="+", metavar="FILE", help="a document, or a folder: all below it with tests")
    made.add_argument("--by", dest="commands", action="append", choices=COMMANDS, help="the command that runs them (mean)")
    made.add_argument("--turns", type=turns, default=[], metavar="N,..", help="for --by run: its turns, as 1,2 or 1..8")
    made.add_argument("--traces", type=number(0, MOST_TRACES), default=0, metavar="N", help="draw so many traces of each")
    made.add_argument("--seed", type=number(0, MOST_SEED - 1), default=1, metavar="S", help="the number they come from (1)")
    made.add_argument("--keep", metavar="FOLDER", help="where failing traces are kept (beside the properties)")
    made.add_argument("--update", action="store_true", help="write what is found into FILE.expect")
    made.add_argument("--coverage", action="store_true", help="print what of each document was taken")
    made.add_argument("--html", metavar="OUT", help="write the coverage as marks on the documents")
    made.add_argument("--lcov", metavar="OUT", help="write the coverage for lcov")
    made.add_argument("--picture", metavar="FOLDER", help="draw a timeline around each failure")
    made.add_argument("--junit", metavar="OUT", help="write the tests as JUnit's XML")
    made.add_argument("--tap", action="store_true", help="print the tests as TAP")
    made.add_argument("--jobs", type=number(1, MOST_JOBS), default=1, metavar="N", help="how many processes there are (1)")
    made.add_argument("--shard", type=shard, default=Share(0, 1), metavar="K/N", help="the K-th of N parts of all tests")
    add_program_option(made)
    return made


def options_of(words):
    """Returns the options that the words give."""
    made = parser()
    options = made.parse_args(words)
    options.commands = options.commands or [MEAN]
    if options.turns and "run" not in options.commands:
        made.error("--turns is for --by run")
    return options


def picture_name(test, number):
    """Returns the name of the picture of a test that failed."""
    return f"{number}-{re.sub(r'[^A-Za-z0-9_.]+', '-', f'{shown_name(test.file)}-{test.title}')[:80].strip('-')}.svg"


def write_pictures(program, tests, folder):
    """Draws the timeline around each test that failed and whose document can be simulated."""
    try:
        os.makedirs(folder, exist_ok=True)
    except OSError as error:
        raise Ended(Status.WRITE_FAILED, f"{folder}: {reason_of(error)}") from error
    for place, test in enumerate(tests, 1):
        if test.told is None or test.told.window is None:
            continue
        try:
            found = simulated(program, test.told.document)
        except (Refused, Disagreement) as error:
            say(f"test: {test.file}: no picture: {error}")
            continue
        start, stop = test.told.window
        if found.overrun:
            stop = max(start + 1, min(stop, found.overrun.time))
        picture, _ = draw_timeline(found, f"{shown_name(test.file)}, {test.title}", (start, stop))
        write_text([picture], os.path.join(folder, picture_name(test, place)))


def write_coverage(options, outcomes):
    """Writes the coverage of the documents as is asked for."""
    found = [it for it in outcomes if it.coverage is not None]
    if options.coverage:
        lines = [line for it in found for line in coverage_lines(it.file, it.coverage)]
        write_text([("# " if options.tap else "") + line + "\n" for line in lines])
    if options.html is not None:
        write_text(marked_page([(it.file, it.text, it.coverage) for it in found]), options.html)
    if options.lcov is not None:
        write_text([line + "\n" for it in found for line in lcov_lines(it.file, it.coverage)], options.lcov)


def run(words):
    """Tests the documents that the words name, and returns the exit status."""
    options = options_of(words)
    files = documents_of(options.files)
    if not files:
        raise Ended(Status.REFUSED, f"{options.files[0]}: no document with tests is below it")
    ways = tuple(ways_of(options.commands, options.turns))
    asked = Asked(options.program, files, ways, options.traces, options.seed, options.update, options.keep)
    outcomes = [*outcomes_of(asked, options.shard.split(options.jobs))]
    tests = [test for it in outcomes for test in it.tests]
    write_errors("".join(it.told.text for it in tests if it.told and not options.tap))
    if options.picture is not None:
        write_pictures(options.program, tests, options.picture)
    if options.junit is not None:
        write_text([junit_text(tests)], options.junit)
    if options.tap:
        write_text([f"{line}\n" for line in tap_lines(tests)])
    write_coverage(options, outcomes)
    if not options.tap:
        write_text([f"{summary(tests)}\n"])
    return Status.REFUSED if any(it.told for it in tests) else Status.DONE


def main(words=None):
    """Serves a call of the command with these words, and returns its status."""
    return status_of("test", partial(run, words))
