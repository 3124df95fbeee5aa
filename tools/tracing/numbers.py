"""Numbers of a log, computed exactly: as decimals that nothing rounds, but where a whole number is wanted.

A number has at most 200 characters and an exponent of four digits, so that each sum and product has few enough digits.
"""

import re
from decimal import ROUND_HALF_UP, Context, Decimal, Inexact, InvalidOperation
from typing import NamedTuple

from checking.language import GREATEST_VALUE, LEAST_VALUE

MOST_CHARACTERS = 200
NUMBER = re.compile(r"[+-]?(?:[0-9]+\.?[0-9]*|\.[0-9]+)(?:[eE][+-]?[0-9]{1,4})?")
INFINITY = re.compile(r"[+-]?inf(?:inity)?", re.IGNORECASE)
WORDS = {"false": Decimal(0), "true": Decimal(1)}
DIGITS = 50_000  # more than a sum of the greatest and the least number has
EXACT = Context(prec=DIGITS, traps=[Inexact, InvalidOperation])
FEMTOSECONDS = -15  # the power of ten of a femtosecond, in seconds
FAR = Decimal("1e20")  # outside of 64 bits, whatever is rounded


class Whole(NamedTuple):
    """A whole number of 64 bits that stands for another one, and whether that was rounded or saturated."""

    value: int
    is_rounded: bool
    is_saturated: bool


class Tick(NamedTuple):
    """The tick that stands for a time, and whether that was rounded."""

    number: int
    is_rounded: bool


def number_of(text, has_commas=False):
    """Returns the number that a text is, or nothing; with commas one may stand for the decimal point."""
    if has_commas and "." not in text:
        text = text.replace(",", ".")
    if len(text) > MOST_CHARACTERS:
        return None
    if NUMBER.fullmatch(text) or INFINITY.fullmatch(text):
        return Decimal(text)
    return WORDS.get(text.lower())


def seconds_of(femtoseconds):
    """Returns the seconds of a fraction of femtoseconds."""
    count = EXACT.divide(Decimal(femtoseconds.numerator), Decimal(femtoseconds.denominator))
    return EXACT.scaleb(count, FEMTOSECONDS)


def scaled(number, factor):
    """Returns a number times a factor."""
    return EXACT.multiply(number, factor)


def whole_of(number):
    """Returns the nearest whole number, halves away from 0, and of one outside of 64 bits the nearer end."""
    if number.copy_abs() >= FAR:
        return Whole(GREATEST_VALUE if number > 0 else LEAST_VALUE, False, True)
    nearest = int(number.to_integral_value(ROUND_HALF_UP))
    value = max(LEAST_VALUE, min(GREATEST_VALUE, nearest))
    return Whole(value, nearest != number, value != nearest)


def tick_of(time, start, length, most):
    """Returns the tick that is nearest to a time, halves away from 0. One that is far past `most` is that one."""
    since = EXACT.subtract(time, start)
    if since >= EXACT.multiply(length, Decimal(most)):
        return Tick(most, False)
    count = int(EXACT.divide_int(EXACT.fma(2, since.copy_abs(), length), EXACT.multiply(2, length)))
    tick = -count if since < 0 else count
    return Tick(tick, EXACT.multiply(tick, length) != since)
