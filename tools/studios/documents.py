"""The documents that the page may open: the user's own, each of which may be saved to its file and to nothing else, and the
examples."""

import os
import stat
from dataclasses import dataclass
from hashlib import sha256
from threading import Lock

from command_line import MOST_BYTES, read_bytes, write_text
from ending import Ended, Status, reason_of
from program import TOP

EXAMPLES = TOP / "examples"
MOST_OWN = 1000  # documents of a folder that are listed
ENDING = ".dbp"


class Changed(Exception):
    """The file isn't what the page has read: somebody else has written it."""


@dataclass(frozen=True)
class Place:
    """A document: what it is called in the page, its file, and whether it may be saved."""

    name: str
    file: str
    is_own: bool


@dataclass(frozen=True)
class Content:
    """What is in a file: its bytes, or nothing if there is no file yet."""

    bytes: bytes
    is_there: bool

    @property
    def version(self):
        """Returns what tells one content from another."""
        return sha256(self.bytes).hexdigest() if self.is_there else "none"


def own_places(given):
    """Returns the places of the user's own documents: the file that is named, those of a folder, or none."""
    if given is None:
        return []
    if not os.path.isdir(given):
        must_be_readable(given)
        return [Place(os.path.basename(given), os.path.realpath(given), True)]
    try:
        names = sorted(it.name for it in os.scandir(given) if it.name.endswith(ENDING) and is_regular(it.path))
    except OSError as error:
        raise Ended(Status.READ_FAILED, f"{given}: {reason_of(error)}") from error
    if not names:
        raise Ended(Status.READ_FAILED, f"{given}: it has no document, a file *{ENDING}")
    return [Place(name, os.path.join(os.path.realpath(given), name), True) for name in names[:MOST_OWN]]


def must_be_readable(file):
    """Ends the tool if a file can't be read. It may not be there yet, if its folder is."""
    real = os.path.realpath(file)
    folder = os.path.dirname(real)
    if not os.path.isdir(folder):
        raise Ended(Status.READ_FAILED, f"{file}: there is no folder {folder}")
    if os.path.lexists(real) and not is_regular(real):
        raise Ended(Status.READ_FAILED, f"{file}: it is no file")
    if is_too_large(content_of(file)):
        raise Ended(Status.TOO_LARGE, f"{file}: the document has more than {MOST_BYTES:,} bytes")


def is_regular(file):
    """Whether a path is a file itself, and no link to one elsewhere."""
    try:
        return stat.S_ISREG(os.lstat(file).st_mode)
    except OSError:
        return False


def example_places():
    """Returns the places of the examples."""
    files = sorted(EXAMPLES.rglob(f"*{ENDING}")) if EXAMPLES.is_dir() else []
    return [Place(f"examples/{it.relative_to(EXAMPLES).as_posix()}", str(it), False) for it in files]


def content_of(file):
    """Returns what is in a file."""
    if not os.path.lexists(file):
        return Content(b"", False)
    return Content(read_bytes(file), True)


class Documents:
    """All documents that the page may open, by their names."""

    def __init__(self, given):
        self.own = own_places(given)
        self.examples = example_places()
        self.places = {it.name: it for it in (*self.examples, *self.own)}
        self.lock = Lock()

    def read(self, name):
        """Returns what is in the file of a document."""
        return content_of(self.places[name].file)

    def save(self, name, text, version):
        """Writes a text to the file of an own document, if that has still the version that the page knows; returns the new
        version."""
        place = self.places[name]
        if not place.is_own:
            raise Ended(Status.WRITE_FAILED, f"{name}: an example isn't saved")
        with self.lock:
            there = content_of(place.file)
            if there.version != version:
                raise Changed
            if there.is_there and not is_regular(place.file):
                raise Ended(Status.WRITE_FAILED, f"{name}: it is no file any more")
            write_text([text], place.file)
        return Content(text, True).version


def is_too_large(content):
    """Whether a file has more bytes than a document may have."""
    return len(content.bytes) > MOST_BYTES
