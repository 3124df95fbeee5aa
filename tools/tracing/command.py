"""The command `trace`."""

import argparse
from decimal import Decimal
from functools import partial

from canonical import read_document
from command_line import MOST_BYTES, STANDARD_INPUT, Parser, read_bytes, write_errors, write_text
from ending import Ended, Status, status_of
from layout import formed
from program import add_program_option, read_as_answer, run_program
from tracing.columns import Wanted, columns_of, told_of
from tracing.log import opened_log
from tracing.numbers import number_of, seconds_of
from tracing.placing import with_section
from tracing.section import Clock, Maker
from tracing.told import Told
from waveforms.lengths import femtoseconds_of

DESCRIPTION = """Writes a document with the log of a real system as its trace, by the columns that have the names of inputs
and events. Times are in seconds. They are rounded to ticks, and numbers to whole ones; what is rounded, saturated or
dropped is told on standard error. The program must accept what is written.

exit status: 0 it is written; 1 the log or the document is refused; 2 wrong words; 4, 5 a file can't be read or written;
6 the program's memory ran out; 7 the document is too large; 70 the program can't be run; 130 interrupted."""

TAB = "tab"


def tick_length(text):
    """Returns the seconds of a tick."""
    length = femtoseconds_of(text)
    if not length:
        raise argparse.ArgumentTypeError("a tick is longer than 0")
    return seconds_of(length)


def finite_number(text):
    """Returns the number that a word is."""
    number = number_of(text)
    if number is None or not number.is_finite():
        raise argparse.ArgumentTypeError("it is a number, as 12 or -0.5")
    return number


def named(text):
    """Returns a name and what is given to it, of a word as NAME=COLUMN."""
    name, sign, given = text.partition("=")
    if not (name and sign and given):
        raise argparse.ArgumentTypeError("it is a name, `=` and what is given to it")
    return name, given


def named_factor(text):
    """Returns a name and a factor, of a word as NAME=K."""
    name, given = named(text)
    factor = finite_number(given)
    if not factor:
        raise argparse.ArgumentTypeError("a factor isn't 0")
    return name, factor


def one_separator(text):
    """Returns the character that a word names."""
    separator = "\t" if text == TAB else text
    if len(separator) != 1 or separator in '\r\n"':
        raise argparse.ArgumentTypeError("it is one character, or tab")
    return separator


def options_of(words):
    """Returns the options that the words give."""
    parser = Parser(prog="trace", description=DESCRIPTION, formatter_class=argparse.RawDescriptionHelpFormatter)
    parser.add_argument("log", metavar="LOG", help="a table with a header; - is standard input")
    parser.add_argument("file", metavar="FILE", help="a document; - is standard input")
    parser.add_argument("--tick", type=tick_length, required=True, metavar="LENGTH", help="how long a tick is, as 5ms")
    add_named = partial(parser.add_argument, action="append", default=[])
    add_named("--scale", type=named_factor, metavar="NAME=K", help="multiply the values of an input by K")
    add_named("--input", type=named, metavar="NAME=COLUMN", help="the column of an input, if its name is another")
    add_named("--event", type=named, metavar="NAME=COLUMN", help="the column of an event, if its name is another")
    about_time = "the column of the times (that with the name time, else the first)"
    parser.add_argument("--time", metavar="COLUMN", help=about_time)
    parser.add_argument("--start", type=finite_number, default=Decimal(0), metavar="SECONDS", help="the time of tick 0 (0)")
    about_separator = "what stands between cells, or tab (what the header has)"
    parser.add_argument("--separator", type=one_separator, metavar="CHARACTER", help=about_separator)
    parser.add_argument("--section", action="store_true", help="write the trace section alone")
    parser.add_argument("--all", action="store_true", help="tell each line, where many have the same")
    parser.add_argument("-o", dest="out", metavar="OUT", help="the file (standard output)")
    add_program_option(parser)
    options = parser.parse_args(words)
    if options.log == options.file == STANDARD_INPUT:
        parser.error("the log and the document can't both be standard input")
    return options


def section_of(options, document):
    """Returns the section that the log gives, and the lines that are told of it."""
    wanted = Wanted(options.time, dict(options.input), dict(options.event), dict(options.scale))
    clock = Clock(options.start, options.tick, document.until)
    with opened_log(options.log, options.separator) as log:
        columns = columns_of(log, document, wanted)
        told = Told(log.name, options.all)
        section = Maker(log, columns, document, wanted.factors, clock, told).section()
        return section, [*told_of(log, columns, document, wanted), *told.lines()]


def judge(options, text):
    """Ends the tool if the program doesn't accept a document."""
    ran = run_program(options.program, ["plan"], text)
    if ran.status == Status.TOO_LARGE:
        raise Ended(ran.status, f"{options.file}: with this trace it has more than {MOST_BYTES:,} bytes")
    if ran.status != Status.DONE:
        said = (ran.stdout or ran.stderr).decode(errors="replace").strip()
        raise Ended(ran.status, f"{options.file}: with this trace the program doesn't accept it: {said}")


def write_traced(words):
    """Writes the document with its new trace, or that alone."""
    options = options_of(words)
    text = read_bytes(options.file)
    form = formed(options.program, text, options.file)
    with read_as_answer(options.program):
        document = read_document(form)
    section, told = section_of(options, document)
    write_errors("".join(told))
    with read_as_answer(options.program):
        made = with_section(text, section.lines())
    judge(options, made)
    shown = "".join(f"{line}\n" for line in section.lines()) if options.section else made.decode("ascii")
    write_text([shown], options.out)
    return Status.DONE


def main(words=None):
    """Serves a call of the command with these words, and returns its status."""
    return status_of("trace", partial(write_traced, words))
