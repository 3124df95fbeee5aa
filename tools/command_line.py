"""The words of a tool, the documents that it reads, and the files that it writes.

What can't be read or written ends the tool by `Ended`, with the status of ending.py.
"""

import argparse
import errno
import os
import stat
from contextlib import ExitStack, suppress
from itertools import count

from ending import (ERRORS, OUTPUT, Ended, Status, held_stops, kept_in, name_of, reason_of, say, unfinished_files,
                    write_all)

MOST_BYTES = 1_048_576  # that a document may have; one more is read, so that the program refuses a longer one
STANDARD_INPUT = "-"
DEVICES = ("/dev/", "/proc/")  # files that are written in place

numbers = count()


class Parser(argparse.ArgumentParser):
    """A parser of a tool's words."""

    def __init__(self, prog, **how):
        super().__init__(name_of(prog), **how)

    def error(self, message):
        """Ends the tool, since its words are wrong."""
        say(self.format_usage().rstrip())
        raise Ended(Status.WRONG_WORDS, message)

    def print_help(self, file=None):
        """Writes the help to standard output."""
        write_text([self.format_help()])


def bytes_of(name):
    """Returns the bytes of a file, or of standard input, up to one more than a document may have."""
    is_file = name != STANDARD_INPUT
    found = bytearray()
    with open(name if is_file else 0, "rb", buffering=0, closefd=is_file) as source:
        while len(found) <= MOST_BYTES:
            part = source.read(MOST_BYTES + 1 - len(found))
            if not part:
                break
            found += part
    return bytes(found)


def read_bytes(name):
    """Returns the bytes of a document, as `bytes_of`; if they can't be read, the tool ends."""
    try:
        return bytes_of(name)
    except OSError as error:
        raise Ended(Status.READ_FAILED, f"{name}: {reason_of(error)}") from error


def write_text(pieces, name=None):
    """Writes the pieces of a text to a file, or to standard output if there is no name."""
    try:
        if name is None:
            write_all(OUTPUT, "".join(pieces))
        elif is_replaced(name):
            replace(os.path.realpath(name), pieces)
        else:
            with open(name, "wb") as sink:
                write_pieces(sink, pieces)
    except OSError as error:
        raise Ended(Status.WRITE_FAILED, f"{name or 'standard output'}: {reason_of(error)}") from error


def write_errors(text):
    """Writes the answer of a tool to standard error."""
    try:
        write_all(ERRORS, text)
    except OSError as error:
        raise Ended(Status.WRITE_FAILED, f"standard error: {reason_of(error)}") from error


def write_pieces(sink, pieces):
    """Writes pieces, each a text or bytes, to an open file."""
    for piece in pieces:
        sink.write(piece if isinstance(piece, bytes) else piece.encode("utf-8", "surrogateescape"))


def is_replaced(name):
    """Whether a file is written beside and renamed: one that is there and no device, or one that isn't there."""
    if name.startswith(DEVICES):
        return False
    return os.path.isfile(name) or not (os.path.lexists(os.path.realpath(name)) or name.endswith("/"))


def replace(name, pieces):
    """Writes a file beside another, and renames it then: until then the old one stands."""
    replace_all({name: pieces})


def replace_all(texts):
    """Writes a file beside each of these, by their names, and renames all of them then: until then the old ones stand."""
    with ExitStack() as kept:
        places = {}
        try:
            for name, pieces in texts.items():
                places[name] = kept.enter_context(kept_in(unfinished_files, place_beside(name)))
                write_beside(name, places[name], pieces)
            with held_stops():
                for name, place in places.items():
                    os.replace(place, name)
        except BaseException:
            for place in places.values():
                with suppress(OSError):
                    os.unlink(place)
            raise


def place_beside(name):
    """Returns the name of a file that isn't there, in the folder of another that may be written."""
    if os.path.exists(name) and not os.access(name, os.W_OK):
        raise PermissionError(errno.EACCES, os.strerror(errno.EACCES))
    folder = os.path.dirname(name)
    beside = next(it for it in map(beside_name, numbers) if not os.path.lexists(os.path.join(folder, it)))
    return os.path.join(folder, beside)


def write_beside(name, place, pieces):
    """Writes a new file, with the owner and the rights of the one that it is to replace, if that is there."""
    with open(place, "xb") as sink:
        write_pieces(sink, pieces)
    if os.path.exists(name):
        keep_rights(place, os.stat(name))


def beside_name(number):
    """Returns the name of a file that is being written."""
    return f".dbp-{os.getpid()}-{number}.unfinished"


def keep_rights(name, old):
    """Gives a file the owner and the rights of the one that it replaces."""
    with suppress(OSError):
        os.chown(name, old.st_uid, old.st_gid)
    os.chmod(name, stat.S_IMODE(old.st_mode))
