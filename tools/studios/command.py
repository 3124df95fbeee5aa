"""The command line of tools/studio."""

import argparse
import gc
import os
import webbrowser
from functools import partial
from threading import Thread

from command_line import Parser, write_text
from ending import Ended, Status, reason_of, status_of
from program import add_program_option, run_program
from studios.documents import Documents
from studios.jobs import Jobs
from studios.server import ADDRESS, Studio
from studios.work import WORKS

ABOUT = """Serves a page for editing a document, with its report beside it: both are new as you type. The page is for this
machine and its user alone: the address that is printed has a token. An interrupt (Ctrl-C) ends it.

exit status: 2 wrong words, or the port is taken; 4 FILE can't be read; 5 the address can't be written; 70 the program can't
be run; 130 interrupted."""

PORT = 8417


def parser():
    """Returns the parser of the words."""
    made = Parser(prog="studio", description=ABOUT, formatter_class=argparse.RawDescriptionHelpFormatter)
    about_given = "a document, which is saved to this file alone, or a folder with documents; without it examples can be opened"
    made.add_argument("given", nargs="?", metavar="FILE|FOLDER", help=about_given)
    made.add_argument("--port", type=int, default=PORT, help=f"the port on {ADDRESS} ({PORT}); 0 is one that is free")
    made.add_argument("--no-browser", action="store_true", help="print the address alone, and open no browser")
    add_program_option(made)
    return made


def must_answer(program):
    """Ends the tool if the program isn't there, or isn't dbp."""
    if run_program(program, [], b"").status != Status.WRONG_WORDS:
        raise Ended(Status.CANNOT_RUN, f"{program}: its answer isn't one of dbp")


def studio_of(options):
    """Returns the server that the words ask for."""
    documents, jobs = Documents(options.given), Jobs(WORKS)
    try:
        return Studio(options.port, options.program, documents, jobs)
    except (OSError, OverflowError) as error:
        reason = reason_of(error) if isinstance(error, OSError) else "no such port"
        raise Ended(Status.WRONG_WORDS, f"port {options.port}: {reason}; --port names another") from error


def run(words):
    """Serves the page until an interrupt."""
    options = parser().parse_args(words)
    must_answer(options.program)
    studio = studio_of(options)
    gc.enable()  # a server runs for hours
    write_text([f"{studio.address}\n"])
    if not options.no_browser:  # one in the terminal goes on until it is left
        Thread(target=webbrowser.open, args=(studio.first_address,), daemon=True).start()
    studio.serve_forever(poll_interval=60)
    return os.EX_OK


def main(words=None):
    """Serves a call of the command with these words, and returns its status."""
    return status_of("studio", partial(run, words))
