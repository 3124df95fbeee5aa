"""Waves as a value change dump (VCD, IEEE 1364), which waveform viewers read."""

from dataclasses import dataclass
from itertools import groupby

from waveforms.signals import Change, Kind, by_tick

# The bytes of which the short names of signals are made: all that are printed, without the space.
FIRST_CODE, CODES = ord("!"), 94

# The type and the bits of a variable; viewers show an integer with its sign.
VARIABLES = {Kind.NUMBER: ("integer", 64), Kind.INSTANCE: ("integer", 64), Kind.EVENT: ("wire", 1)}


@dataclass(frozen=True)
class Tick:
    """How long a tick is: so many times a unit that a file may have, as 5 times `1 ms`."""

    times: int
    unit: str


ONE_NANOSECOND = Tick(1, "1 ns")


def code_of(index):
    """Returns the short name of a signal in the file."""
    rest, digit = divmod(index, CODES)
    return (code_of(rest - 1) if rest else "") + chr(FIRST_CODE + digit)


def change_text(signal, code, value):
    """Returns the line that gives a signal a value: one bit, or a number in two's complement."""
    _, bits = VARIABLES[signal.kind]
    return f"{value}{code}\n" if bits == 1 else f"b{value % (1 << bits):b} {code}\n"


def declarations(signals, codes):
    """Yields the lines that declare the signals, a scope for the trace and for each task."""
    for scope, members in groupby(zip(signals, codes), key=lambda member: member[0].scope):
        yield f"$scope module {scope} $end\n"
        for signal, code in members:
            variable, bits = VARIABLES[signal.kind]
            yield f"$var {variable} {bits} {code} {signal.name} $end\n"
        yield "$upscope $end\n"


def falls_of(waves):
    """Returns the changes of events to 0: at the tick after each at which they occur, unless they occur again then."""
    rises = {(it.tick, it.signal) for it in waves.changes if waves.signals[it.signal].kind is Kind.EVENT}
    return [Change(tick + 1, signal, 0) for tick, signal in rises if (tick + 1, signal) not in rises]


def vcd_lines(waves, command, length=ONE_NANOSECOND):
    """Yields the lines of the file: declarations, the values at the start, the changes by tick, and the end."""
    codes = [code_of(index) for index in range(len(waves.signals))]
    yield f"$version dbp {command} $end\n$timescale {length.unit} $end\n"
    yield from declarations(waves.signals, codes)
    yield "$enddefinitions $end\n#0\n$dumpvars\n"
    for signal, code in zip(waves.signals, codes):
        yield change_text(signal, code, signal.first)
    yield "$end\n"
    last = 0
    for tick, changes in by_tick(sorted([*waves.changes, *falls_of(waves)])):
        if tick > last:
            yield f"#{tick * length.times}\n"
        for change in changes:
            yield change_text(waves.signals[change.signal], codes[change.signal], change.value)
        last = tick
    if waves.until > last:
        yield f"#{waves.until * length.times}\n"
