"""How long a tick is, and numbers of ticks as times."""

from argparse import ArgumentTypeError
from fractions import Fraction

from waveforms.command import UNITS, tick_length


def length_of(text):
    """Returns a length as 5ms in femtoseconds, or nothing if it is none."""
    try:
        tick = tick_length(text)
    except (ArgumentTypeError, TypeError):
        return None
    power, unit = tick.unit.split()
    return tick.times * int(power) * UNITS[unit]


def time_text(ticks, length):
    """Returns how long so many ticks are, in the greatest unit of which there is at least one."""
    whole = ticks * length
    unit = next((unit for unit in reversed(UNITS) if whole >= UNITS[unit]), "s")
    value = Fraction(whole, UNITS[unit])
    digits = f"{value.numerator // value.denominator:,}"
    rest = value % 1
    if rest:
        digits += "." + f"{rest.numerator * 10**15 // rest.denominator:015}".rstrip("0")
    return f"{digits} {unit}"
