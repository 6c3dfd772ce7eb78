"""Numbers without loss: decimal texts, whole numbers and fractions as exact fractions."""

from __future__ import annotations

import numbers
import re
from decimal import Decimal
from fractions import Fraction
from typing import Union

#: A number: a text such as "49.0009722", an int, a Decimal, a Fraction, or a float.
Number = Union[str, int, Decimal, Fraction, float]

_DECIMAL = re.compile(r"\s*[+-]?(\d+(\.\d*)?|\.\d+)\s*", re.ASCII)


def to_fraction(number: Number) -> Fraction:
    """A number exactly; ValueError where a text or a float is none.

    A float is taken as the shortest decimal number that is that float, which is the one that was typed in a script.

    >>> to_fraction("49.1"), to_fraction(49.1), to_fraction(Fraction(49.1)) == to_fraction("49.1")
    (Fraction(491, 10), Fraction(491, 10), False)
    """
    if isinstance(number, str):
        if not _DECIMAL.fullmatch(number):
            raise ValueError(f"not a decimal number: {number!r}")
        return Fraction(number.strip())
    if isinstance(number, Decimal):
        if not number.is_finite():
            raise ValueError(f"not a number: {number}")
        return Fraction(number)
    if isinstance(number, numbers.Rational):
        return Fraction(number.numerator, number.denominator)
    if isinstance(number, numbers.Real):
        return to_fraction(Decimal(repr(float(number))))
    raise TypeError(f"not a number: {number!r}")


def nearest(fraction: Fraction) -> int:
    """The nearest whole number, halves away from zero.

    >>> nearest(Fraction(5, 2)), nearest(Fraction(-5, 2)), nearest(Fraction(12, 5))
    (3, -3, 2)
    """
    magnitude = (2 * abs(fraction.numerator) + fraction.denominator) // (2 * fraction.denominator)
    return -magnitude if fraction < 0 else magnitude
