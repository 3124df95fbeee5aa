"""The command lines of tools/timeline and tools/diagram."""

import argparse
from dataclasses import replace
from functools import partial
from pathlib import Path

from command_line import Parser, read_bytes, write_text
from ending import Ended, Status, name_of, say, status_of
from pictures.asking import Refused, checked_document, simulated
from pictures.diagram import draw_diagram
from pictures.dot import dot_text
from pictures.record import Disagreement
from pictures.service import Command, rank_order
from pictures.slot_rows import draw_slots
from pictures.timeline import draw_timeline
from program import add_program_option


MOST_DIGITS = 12  # of a tick that is asked for; a document has 10 at most


class NoTask(Exception):
    """A word of a command names no task of the document."""


def add_file_options(parser):
    """Adds the document and the picture to the words of a command."""
    parser.add_argument("file", metavar="FILE", help="the document, or - for standard input")
    parser.add_argument("-o", dest="out", metavar="OUT", help="the file of the picture (standard output)")
    parser.add_argument("--tasks", type=names, metavar="TASK,..", help="draw these tasks alone")
    add_program_option(parser)


def names(word):
    """Returns the names that a word of a command lists."""
    return word.split(",")


def tick(word):
    """Returns the tick that a word of a command names."""
    if not (word.isascii() and word.isdigit()) or len(word) > MOST_DIGITS:
        raise argparse.ArgumentTypeError(f"{word} is no tick")
    return int(word)


def must_name_tasks(document, asked):
    """Refuses a name that isn't one of the document's tasks."""
    for name in asked:
        if name is not None and name not in {task.name for task in document.tasks}:
            raise NoTask(f"it has no task {name}")


def places_of(document, asked):
    """Returns the places of the tasks that are asked for in the order of ranks, or nothing if all are."""
    if asked is None:
        return None
    must_name_tasks(document, asked)
    return [at for at in rank_order(document) if document.tasks[at].name in asked]


def shown_name(name):
    """Returns the name of a document as pictures show it."""
    last = "document" if name == "-" else Path(name).name
    return "".join(letter if letter.isprintable() else "?" for letter in last)


def run(options, draw):
    """Draws the picture of a document and returns the exit status."""
    text, name = read_bytes(options.file), shown_name(options.file)
    try:
        picture = draw(text, name)
    except Refused as refused:
        raise Ended(refused.status, f"{name}: {refused}") from refused
    except Disagreement as differing:
        text = f"{name}: the record and the computed order differ at {differing}"
        raise Ended(Status.REFUSED, text) from differing
    except NoTask as error:
        raise Ended(Status.WRONG_WORDS, f"{name}: {error}") from error
    write_text([picture], options.out)
    return Status.DONE


def timeline(words=None):
    """Draws a timeline, and returns the exit status."""
    return status_of("timeline", partial(run_timeline, words))


def run_timeline(words):
    """Draws the timeline that the words ask for."""
    parser = Parser("timeline", description="Draws the simulation of a document as SVG.")
    add_file_options(parser)
    commands = [it.value for it in Command]
    about_command = "what simulates it: on one processor, or each task on its own (sim)"
    parser.add_argument("--command", choices=commands, default=Command.SIM.value, help=about_command)
    parser.add_argument("--from", dest="start", type=tick, metavar="T", help="the first tick that is shown (0)")
    about_stop = "the last tick that is shown (up to the overrun, or as far as 60 instances go)"
    parser.add_argument("--to", dest="stop", type=tick, metavar="T", help=about_stop)
    parser.add_argument("--claims", metavar="TASK", help="draw the claims of this task and on its outs alone")
    parser.add_argument("--slots", metavar="TASK", help="draw this task, its readers, and its slots over time")
    options = parser.parse_args(words)
    asked = (options.start, options.stop)
    if options.stop is not None and (options.start or 0) >= options.stop:
        parser.error("--to must be after --from")
    if options.slots and options.tasks:
        parser.error("--slots shows a task and its readers, and --tasks others")

    def draw(text, name):
        found = simulated(options.program, text, Command(options.command))
        must_name_tasks(found.document, (options.claims, options.slots))
        if options.slots:
            picture, window = draw_slots(found, name, asked, options.slots)
        else:
            places = places_of(found.document, options.tasks)
            picture, window = draw_timeline(found, name, asked, options.claims, places)
        if window.is_cut:
            say(f"{name_of('timeline')}: {name}: drawn are ticks {window.start} to {window.stop}; --from and --to choose others")
        return picture

    return run(options, draw)


def diagram(words=None):
    """Draws a diagram, and returns the exit status."""
    return status_of("diagram", partial(run_diagram, words))


def run_diagram(words):
    """Draws the diagram that the words ask for."""
    parser = Parser("diagram", description="Draws the tasks of a document and their links as SVG.")
    add_file_options(parser)
    parser.add_argument("--dot", action="store_true", help="write text for Graphviz's dot in place of SVG")
    options = parser.parse_args(words)

    def draw(text, name):
        document = checked_document(options.program, text)
        places = places_of(document, options.tasks)
        if places is not None:
            document = replace(document, tasks=tuple(document.tasks[at] for at in sorted(places)))
        return dot_text(document, name) if options.dot else draw_diagram(document, name)

    return run(options, draw)
