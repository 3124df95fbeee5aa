"""The command `contracts`."""

from functools import partial

from clauses.items import Unreadable
from clauses.page import FILE, contracts_page
from command_line import Parser, write_text
from ending import Ended, Status, status_of

DESCRIPTION = """Makes docs/CONTRACTS.md anew: of each library crate the public types, calls and laws, with the first
sentence of each doc comment and the names of the clauses. The exit status is 4 if a source can't be read, and 5 if the
page can't be written."""


def main(words=None):
    """Makes the page, and returns the exit status."""
    return status_of("contracts", partial(make_page, words))


def make_page(words):
    """Makes the page; the words may only ask for help."""
    Parser("contracts", description=DESCRIPTION).parse_args(words)
    try:
        page = contracts_page()
    except (OSError, UnicodeError, Unreadable) as error:
        raise Ended(Status.READ_FAILED, str(error)) from error
    write_text([page], str(FILE))
    return Status.DONE
