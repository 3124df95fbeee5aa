"""What GTKWave shows first of a VCD file: a save file for it, beside the dump."""

import os
from itertools import groupby
from math import log2

from waveforms.signals import Kind
from waveforms.vcd import VARIABLES

SIGN = "[*] written by tools/waves"  # the first line; a file that begins otherwise is the user's
MOST_SHOWN = 48  # signals
PIXELS = 800  # in which all ticks are shown

# How GTKWave shows a row, as a sum of flags: aligned to the right, binary, with a sign, a text alone.
BIT, NUMBER, HEADING = "@28", "@420", "@200"


def save_name(dump):
    """Returns the name of the save file beside a dump."""
    base, ending = os.path.splitext(dump)
    return f"{base if ending.lower() == '.vcd' else dump}.gtkw"


def is_own(name):
    """Whether a file isn't there, or was written here, so that no user's settings are in it."""
    try:
        with open(name, "rb") as source:
            return source.readline(len(SIGN) + 1).rstrip() == SIGN.encode()
    except FileNotFoundError:
        return True
    except OSError:
        return False


def shown(signals):
    """Returns the signals that are shown: all of them, or if there are many the first ones that aren't row numbers."""
    if len(signals) > MOST_SHOWN:
        signals = [it for it in signals if it.kind is not Kind.INSTANCE]
    return signals[:MOST_SHOWN]


def row_of(signal):
    """Returns the line of a signal: its place in the dump, with its bits if it has more than one."""
    _, bits = VARIABLES[signal.kind]
    return f"{signal.scope}.{signal.name}" + (f"[{bits - 1}:0]" if bits > 1 else "")


def rows_of(signals):
    """Yields the lines of signals, those of the trace and of each task below a heading."""
    for scope, members in groupby(signals, key=lambda it: it.scope):
        yield from (HEADING, f"-{scope}")
        for is_event, group in groupby(members, key=lambda it: it.kind is Kind.EVENT):
            yield BIT if is_event else NUMBER
            yield from map(row_of, group)


def save_lines(waves, dump, length):
    """Yields the lines of the save file of a dump."""
    yield f"{SIGN}\n"
    name = os.path.basename(dump)
    if name.isprintable() and '"' not in name:
        yield f'[dumpfile] "{name}"\n'
    yield "[timestart] 0\n"
    yield f"*{log2(PIXELS / max(1, waves.until * length.times)):.6f} -1\n"
    yield from (f"{line}\n" for line in rows_of(shown(waves.signals)))
