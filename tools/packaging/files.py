"""What an installation is made of: files and links."""

import gzip
import io
from dataclasses import dataclass


@dataclass(frozen=True)
class File:
    """A file: its bytes, and whether it is run as a program."""

    content: bytes
    is_run: bool = False


@dataclass(frozen=True)
class Link:
    """A link, and where it leads."""

    target: str


def gzipped(content):
    """Returns bytes compressed, without a date and alike by each version of Python."""
    sink = io.BytesIO()
    with gzip.GzipFile("", "wb", 9, sink, mtime=0) as packed:
        packed.write(content)
    return sink.getvalue()


def compressed(text):
    """Returns a text as a compressed file."""
    return File(gzipped(text.encode()))
