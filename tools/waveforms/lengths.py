"""Lengths of time as a user writes them: a number and a unit, as 5ms or 2.5 us."""

import argparse
import re
from fractions import Fraction

UNITS = {"fs": 1, "ps": 10**3, "ns": 10**6, "us": 10**9, "ms": 10**12, "s": 10**15}  # femtoseconds
LENGTH = re.compile(r"([0-9]{1,12}(?:\.[0-9]{1,15})?) ?(s|ms|us|ns|ps|fs)")


def femtoseconds_of(text):
    """Returns the femtoseconds of a length, as a fraction."""
    found = LENGTH.fullmatch(text)
    if not found:
        raise argparse.ArgumentTypeError("it is a number and then s, ms, us, ns, ps or fs, as in 5ms")
    return Fraction(found[1]) * UNITS[found[2]]
