"""The command line of tools/response."""

import argparse
from dataclasses import dataclass
from functools import partial
from typing import Optional, Tuple

from canonical import Document
from command_line import Parser, read_bytes, write_text
from ending import Ended, Status, say, status_of
from pictures.asking import Refused, simulated
from pictures.commands import shown_name
from pictures.record import Disagreement
from pictures.service import Command
from pictures.timeline import draw_timeline
from program import add_program_option
from responses.bounds import Assumed, Bounds, Demand, bounds_of, demands_of
from responses.chains import Span, chain_spans, ports_of
from responses.histogram import draw_histogram
from responses.lateness import limit_of
from responses.measure import Figures, Measured, courses_of, figures_of, measured
from responses.tables import csv_text, json_text, plain_text
from responses.verdicts import verdicts_of

ABOUT = """Says of each task how long after their releases its instances end in the simulation, what bound the program
gives, and which deadlines are missed. The table goes to standard output, the verdicts to standard error.

exit status: 0 in time; 1 there is a verdict, or the document is refused; 2 wrong words; 4 a file can't be read;
5 a file can't be written; 6 the program's memory ran out; 7 the document is too large; 70 it can't be run;
130 interrupted."""

MOST_DIGITS = 10  # of a distance


@dataclass(frozen=True)
class Report:
    """What is known of a document, simulated by a command: for each task its figures and its demand, the bounds, and times of a
    chain."""

    document: Document
    command: Command
    figures: Tuple[Figures, ...]
    demands: Tuple[Optional[Demand], ...]
    bounds: Bounds
    assumed: Tuple[Assumed, ...]
    chain: Tuple[Tuple[str, Optional[Span]], ...]


def assumed_distance(word):
    """Returns the distance that a word assumes, as in e=5."""
    event, _, digits = word.partition("=")
    if not (digits.isascii() and digits.isdigit()) or len(digits) > MOST_DIGITS or int(digits) == 0:
        raise argparse.ArgumentTypeError(f"{word} isn't of the form EVENT=N, with N at least 1")
    return Assumed(event, int(digits))


def chain_word(word):
    """Returns the outs of a chain, as in a.y,b.z."""
    try:
        return ports_of(word)
    except ValueError as error:
        raise argparse.ArgumentTypeError(f"{word} isn't of the form TASK.OUT,TASK.OUT,..") from error


def parser():
    """Returns the parser of the words."""
    made = Parser(prog="response", description=ABOUT, formatter_class=argparse.RawDescriptionHelpFormatter)
    made.add_argument("file", metavar="FILE", help="the document, or - for standard input")
    made.add_argument("-o", dest="out", metavar="OUT", help="the file that is written (standard output)")
    form = made.add_mutually_exclusive_group()
    form.add_argument("--csv", action="store_true", help="write the table as comma-separated values")
    form.add_argument("--json", action="store_true", help="write all that is known as JSON")
    form.add_argument("--worst", metavar="TASK", help="draw the timeline around the task's greatest response time")
    form.add_argument("--histogram", metavar="TASK", help="draw how often each response time of the task occurs")
    about = "count the tasks on this event as if it came each N ticks, and check that no two in the trace are nearer"
    made.add_argument("--assume-distance", dest="assumed", type=assumed_distance, action="append", default=[],
                      metavar="EVENT=N", help=about)
    about = "the greatest age and reaction time along this chain of reads"
    made.add_argument("--chain", type=chain_word, metavar="TASK.OUT,..", help=about)
    add_program_option(made)
    return made


def place_of(document, name):
    """Returns the place of the task of this name, if the document has it."""
    names = [task.name for task in document.tasks]
    if name not in names:
        raise Ended(Status.WRONG_WORDS, f"the document has no task {name}")
    return names.index(name)


def must_be_events(document, assumed):
    """Ends the tool if a distance is assumed of something that isn't an event, or twice of one."""
    events = [it.event for it in assumed]
    for event in events:
        if event not in document.events:
            raise Ended(Status.WRONG_WORDS, f"the document has no event {event}")
        if events.count(event) > 1:
            raise Ended(Status.WRONG_WORDS, f"two distances are assumed of the event {event}")


def judged(program, text, assumed=(), chain=None):
    """Returns what is known of a document, and the lines of the verdicts against it."""
    found = measured(program, text)
    document, places = found.document, range(len(found.document.tasks))
    must_be_events(document, assumed)
    bounds = bounds_of(program, text, document, assumed)
    spans = chain_spans(found, chain) if chain else ()
    figures = tuple(figures_of(found, place) for place in places)
    report = Report(document, found.service.command, figures, tuple(demands_of(document, assumed)), bounds, tuple(assumed), spans)
    return report, [*verdicts_of(found, bounds, assumed)]


def window_around(course):
    """Returns the ticks around the course of an instance, half as many before and after it as it took; all if it is none."""
    if course is None:
        return None, None
    room = 1 + course.response // 2
    return max(0, course.instance.release - room), course.end + room


def worst_picture(options, text, name):
    """Returns the timeline around the greatest response time of a task."""
    found = simulated(options.program, text, None)
    place = place_of(found.document, options.worst)
    courses = courses_of(found.document, found.service)
    course = Measured(found.document, found.service, courses).worst(place)
    about = f"{name}, {options.worst} {course.instance.number}" if course else name
    return draw_timeline(found, about, window_around(course))[0]


def histogram_picture(options, text, name):
    """Returns the histogram of the response times of a task."""
    found = measured(options.program, text)
    place = place_of(found.document, options.histogram)
    bound = bounds_of(options.program, text, found.document, options.assumed).of_tasks[place]
    limit = limit_of(found.document, found.document.tasks[place])
    responses = [course.response for course in found.courses[place]]
    return draw_histogram(name, options.histogram, responses, limit, bound)


def write_report(options, text):
    """Writes the table of a document, and its verdicts to standard error; returns the exit status."""
    report, verdicts = judged(options.program, text, options.assumed, options.chain)
    if options.json:
        written = json_text(report, verdicts)
    else:
        written = csv_text(report) if options.csv else plain_text(report)
    write_text([written], options.out)
    for line in verdicts:
        say(line)
    return Status.REFUSED if verdicts else Status.DONE


def write_asked(options, text, name):
    """Writes what the words ask for, and returns the exit status."""
    draw = worst_picture if options.worst else histogram_picture if options.histogram else None
    if draw is None:
        return write_report(options, text)
    write_text([draw(options, text, name)], options.out)
    return Status.DONE


def run(words):
    """Writes what the words ask for; what refuses the document stands on standard error."""
    options = parser().parse_args(words)
    text, name = read_bytes(options.file), shown_name(options.file)
    try:
        return write_asked(options, text, name)
    except Refused as refused:
        raise Ended(refused.status, f"{name}: {refused}") from refused
    except Disagreement as differing:
        said = f"{name}: the record and the computed order differ at {differing}"
        raise Ended(Status.REFUSED, said) from differing


def main(words=None):
    """Serves a call of the command with these words, and returns its status."""
    return status_of("response", partial(run, words))
