"""A log of a real system: a table with a header, its cells apart by any separator."""

import csv
import io
import re
from codecs import BOM_UTF16_BE, BOM_UTF16_LE
from contextlib import contextmanager
from dataclasses import dataclass
from functools import partial
from itertools import chain
from typing import Iterator, NamedTuple, Tuple

from checking.printed import shown
from command_line import STANDARD_INPUT
from ending import Ended, Status, reason_of

MOST_CHARACTERS = 1_048_576  # of a line
MOST_SHOWN = 40  # characters of a cell in a message
SEPARATORS = "\t;,|"  # that a header tells by standing in it; of two that stand as often the first
BLANK = " "
QUOTED = re.compile('"[^"]*"')


class LogRow(NamedTuple):
    """A row of a log: the line at which it begins, and its cells without the blanks around them."""

    line: int
    cells: Tuple[str, ...]


@dataclass(frozen=True)
class Log:
    """A log: its name, its separator, the line and the names of its header, and the rows below."""

    name: str
    separator: str
    line: int
    columns: Tuple[str, ...]
    rows: Iterator[LogRow]

    def fault(self, line, text):
        """Returns the end of the tool for what a line has."""
        return fault_at(self.name, line, text)


def fault_at(name, line, text):
    """Returns the end of the tool for what a line of a log has."""
    return Ended(Status.REFUSED, f"{name}:{line}: {text}")


def printable(text):
    """Returns a cell or a name as a terminal shows it, or its start if it is long."""
    part = text if len(text) <= MOST_SHOWN else f"{text[:MOST_SHOWN]}.."
    return shown(part.encode("utf-8", "surrogateescape"))


def quoted(text):
    """Returns a cell or a name for a message."""
    return f"`{printable(text)}`"


@contextmanager
def text_of(name):
    """Opens the text of a file, or of standard input. A byte that is no UTF-8 stays as an escape."""
    is_file = name != STANDARD_INPUT
    try:
        with open(name if is_file else 0, "rb", closefd=is_file) as source:
            is_wide = source.peek(2)[:2] in (BOM_UTF16_LE, BOM_UTF16_BE)
            encoding, errors = ("utf-16", "replace") if is_wide else ("utf-8-sig", "surrogateescape")
            yield io.TextIOWrapper(source, encoding, errors, newline="")
    except OSError as error:
        raise Ended(Status.READ_FAILED, f"{name}: {reason_of(error)}") from error


def lines_of(source, name):
    """Yields the lines of a text, each with its end."""
    for number, line in enumerate(iter(partial(source.readline, MOST_CHARACTERS + 1), ""), 1):
        if len(line) > MOST_CHARACTERS:
            raise fault_at(name, number, f"the line has more than {MOST_CHARACTERS:,} characters")
        yield line


def separator_in(header):
    """Returns the separator that stands in a header most often, outside of quotes."""
    bare = QUOTED.sub("", header.strip("\r\n "))
    most = max(SEPARATORS, key=bare.count)
    if most in bare:
        return most
    return BLANK if BLANK in bare else ","


def rows_of(lines, name, separator):
    """Yields the rows that aren't blank, each with the line at which it begins."""
    reader = csv.reader(lines, delimiter=separator, strict=True, skipinitialspace=separator != BLANK)
    line = 1
    try:
        for cells in reader:
            inside = tuple(cell.strip() for cell in cells)
            found = tuple(filter(None, inside)) if separator == BLANK else inside
            if any(found):
                yield LogRow(line, found)
            line = reader.line_num + 1
    except csv.Error as error:
        raise fault_at(name, line, f"it can't be read as a table: {error}") from error


@contextmanager
def opened_log(name, separator):
    """Opens a log; without a separator its header tells it."""
    with text_of(name) as source:
        lines = lines_of(source, name)
        first = []
        for line in lines:
            first.append(line)
            if line.strip():
                break
        separator = separator or separator_in("".join(first))
        rows = rows_of(chain(first, lines), name, separator)
        header = next(rows, None)
        if header is None:
            raise fault_at(name, 1, "the log is empty; its first row has the names of its columns")
        yield Log(name, separator, header.line, header.cells, rows)
