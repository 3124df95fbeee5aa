"""The command line of tools/check."""

import argparse
from functools import partial

from checking.messages import Message, Severity
from checking.printed import json_text, plain
from checking.regions import Checked
from checking.services import quality_text, sarif_text
from checking.text import lines_of
from checking.verdicts import Command, Judged
from command_line import Parser, bytes_of, write_errors, write_text
from ending import Ended, Status, reason_of, status_of_all
from program import CannotRun, add_program_option, run_program
from testing.checked import faults_beside, is_beside

ABOUT = """Checks documents of dbp: says of each error where it is and what stands there, and warns of what is
accepted and hardly meant. Each verdict is the program's. Tests beside documents, FILE.expect and FILE.props, are checked
too. Messages go to standard error.

exit status: 0 no error; 1 a document is refused; 7 it is too large; 2 wrong words; 4 a file can't be read;
5 the messages can't be written; 6 the program's memory ran out; 70 it can't be run; 130 interrupted."""


def parser():
    """Returns the parser of the words."""
    as_written = argparse.RawDescriptionHelpFormatter
    made = Parser(prog="check", description=ABOUT, formatter_class=as_written)
    made.add_argument("files", nargs="+", metavar="FILE", help="a document, or tests of one; `-` is standard input")
    printers = made.add_mutually_exclusive_group()
    for option, text_of, what in (
        ("--json", json_text, "one JSON list"),
        ("--sarif", sarif_text, "a log of SARIF 2.1.0"),
        ("--code-quality", quality_text, "a code quality report, as GitLab reads it,"),
    ):
        about = f"print {what} on standard output instead"
        printers.add_argument(option, dest="text_of", action="store_const", const=text_of, help=about)
    made.add_argument("--no-warnings", action="store_true", help="print errors alone")
    commands = [it.value for it in Command]
    about_as = "judge as `dbp plan`, `dbp replay` or `dbp replay --ranked`"
    made.add_argument("--as", dest="command", choices=commands, help=about_as)
    add_program_option(made)
    return made


def judged(program, file, command):
    """Returns the status, the lines and the messages of a file. What is wrong with the program is no message of it."""
    try:
        text = bytes_of(file)
    except OSError as failed:
        return Status.READ_FAILED, [], (Message(1, 1, Severity.ERROR, None, "CannotRead", reason_of(failed)),)
    if is_beside(file):
        status, found = faults_beside(file, text)
        return status, lines_of(text), found
    try:
        verdict = Judged(partial(run_program, program), text).verdict(command)
    except CannotRun:
        raise
    except Ended as ended:
        raise Ended(ended.status, f"{file}: {ended}") from ended
    return verdict.status, lines_of(text) if verdict.status in (0, 1) else [], verdict.messages


def main(words=None):
    """Checks the files that the words name, and returns the exit status."""
    given = parser().parse_args(words)
    command = Command(given.command) if given.command else None
    found = []
    for file in given.files:
        status, lines, messages = judged(given.program, file, command)
        kept = [it for it in messages if it.severity is Severity.ERROR or not given.no_warnings]
        found.append(Checked(file, status, lines, kept))
        if given.text_of is None:
            write_errors(plain(file, lines, kept))
    if given.text_of is not None:
        write_text([given.text_of(found)])
    return status_of_all([it.status for it in found])
