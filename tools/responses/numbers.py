"""Fractions as texts."""


def decimal(value):
    """Returns a fraction with three digits after the point, rounded up."""
    thousandths = -(-value.numerator * 1000 // value.denominator)
    return f"{thousandths // 1000}.{thousandths % 1000:03}"
