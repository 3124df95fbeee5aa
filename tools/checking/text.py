"""A document as its lines, and lists of names in messages."""

from typing import NamedTuple

from checking.nearest import MOST_LISTED, by_nearness, is_near


class Line(NamedTuple):
    """A line without its end; lines are counted from 1."""

    number: int
    text: bytes

    @property
    def is_blank(self):
        """Whether only spaces and tabs stand here."""
        return not self.text.strip(b" \t")


def lines_of(document):
    """Returns the lines of a document. Bytes after the last line feed are a line too."""
    parts = document.split(b"\n")
    ended, rest = parts[:-1], parts[-1]
    lines = [Line(number, part[:-1] if part.endswith(b"\r") else part) for number, part in enumerate(ended, 1)]
    return lines + [Line(len(parts), rest)] * (rest != b"")


def listed(names, join="and"):
    """Returns names for a sentence: `a`, `b` and `c`."""
    quoted = [f"`{name}`" for name in names]
    if len(quoted) < 2:
        return "".join(quoted)
    return f"{', '.join(quoted[:-1])} {join} {quoted[-1]}"


def what_there_is(kind, names, owner=None, wrong=None):
    """Returns which names of a kind there are, of an owner or of the document: the tasks are `a` and `b`.

    If a wrong name is given, the nearest ones come first, and the one that it may be meant for is told.
    """
    names = by_nearness(wrong, names) if wrong else list(dict.fromkeys(names))
    if not names:
        return f"`{owner}` has none" if owner else "none is declared"
    of = f" of `{owner}`" if owner else ""
    is_meant = wrong is not None and is_near(wrong, names[0])
    if len(names) == 1:
        return f"did you mean `{names[0]}`, the only {kind}{of}?" if is_meant else f"the only {kind}{of} is `{names[0]}`"
    meant = f"did you mean `{names[0]}`? " if is_meant else ""
    return f"{meant}the {kind}s{of} are {first_listed(names)}"


def first_listed(names):
    """Returns the first names for a sentence, and how many more there are."""
    left = len(names) - MOST_LISTED
    shown = ", ".join(f"`{name}`" for name in names[:MOST_LISTED])
    return f"{shown} and {left} more" if left > 0 else listed(names)


def times(count, one, many=None):
    """Returns a number with its noun: 1 cell, 2 cells."""
    return f"{count:,} {one if count == 1 else many or one + 's'}"
