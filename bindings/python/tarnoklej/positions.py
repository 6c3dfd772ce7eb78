"""Positions in whole steps, made from degrees, from degrees with minutes and seconds, and from metres."""

from __future__ import annotations

import re
from decimal import Context, Decimal
from fractions import Fraction
from typing import NamedTuple, Tuple, Union

from .decimals import Number, nearest, to_fraction

#: Steps of 0.0001 arc second in a degree (1023), and of 1 mm in a metre (1024).
STEPS_PER_DEGREE = 36_000_000
STEPS_PER_METRE = 1_000
#: Units of 0.1 mm in a metre, in which a datum step takes positions.
UNITS_PER_METRE = 10_000

_EXACT = Context(prec=60)

# Degrees, minutes and seconds with a sign or a letter: -17 45 0.5, 17:45:00.5S, 17°45'00.5"S.
_SEXAGESIMAL = re.compile(
    r"\s*([+-]?)(\d+)(?:\s*[°d:]\s*|\s+)([0-5]?\d)(?:\s*['′m:]\s*|\s+)"
    r"([0-5]?\d(?:\.\d*)?)\s*[\"″s]?\s*([NSEW]?)\s*",
    re.ASCII,
)


class Position(NamedTuple):
    """A position north and east in whole steps: of 0.0001 arc second for a 1023, of 1 mm for a 1024.

    It is given in the system of the grid: for a 1023 after the transformation of 1021 or 1022, for a 1024 after the
    projection.

    >>> Position.from_degrees("49.0009722", "11.00125")
    Position(north=1764034999, east=396045000)
    >>> Position.from_degrees("17 45 00.0001 S", "179 57 00 E")
    Position(north=-639000001, east=6478200000)
    >>> Position.from_metres("1004321.987", 993210)
    Position(north=1004321987, east=993210000)
    """

    north: int
    east: int

    @classmethod
    def from_degrees(cls, north: Number, east: Number, exact: bool = False) -> "Position":
        """The position of a latitude and a longitude, see steps_from_degrees."""
        return cls(
            steps_from_degrees(north, exact=exact, letters="NS"), steps_from_degrees(east, exact=exact, letters="EW")
        )

    @classmethod
    def from_metres(cls, north: Number, east: Number, exact: bool = False) -> "Position":
        """The position of a northing and an easting in metres, at the nearest millimetre, or exactly."""
        return cls(_steps(north, STEPS_PER_METRE, exact), _steps(east, STEPS_PER_METRE, exact))

    def in_degrees(self) -> Tuple[Fraction, Fraction]:
        """Latitude and longitude in degrees, exactly.

        >>> Position(1_764_000_000, 396_000_001).in_degrees()
        (Fraction(49, 1), Fraction(396000001, 36000000))
        """
        return Fraction(self.north, STEPS_PER_DEGREE), Fraction(self.east, STEPS_PER_DEGREE)

    def in_metres(self) -> Tuple[Decimal, Decimal]:
        """Northing and easting in metres, exactly.

        >>> Position(1_004_321_987, 993_210_000).in_metres()
        (Decimal('1004321.987'), Decimal('993210.000'))
        """
        return Decimal(self.north).scaleb(-3, _EXACT), Decimal(self.east).scaleb(-3, _EXACT)


class Geocentric(NamedTuple):
    """A geocentric position, X, Y and Z in whole units of 0.1 mm.

    >>> Geocentric.from_metres("4149871.2345", "798541.2345", "4789325.6789")
    Geocentric(x=41498712345, y=7985412345, z=47893256789)
    """

    x: int
    y: int
    z: int

    @classmethod
    def from_metres(cls, x: Number, y: Number, z: Number, exact: bool = False) -> "Geocentric":
        """The position of coordinates in metres, at the nearest 0.1 mm, or exactly."""
        return cls(*(_steps(number, UNITS_PER_METRE, exact) for number in (x, y, z)))

    def in_metres(self) -> Tuple[Decimal, Decimal, Decimal]:
        """The coordinates in metres, exactly."""
        x, y, z = (Decimal(number).scaleb(-4, _EXACT) for number in self)
        return x, y, z


#: What a call takes for a position: a Position, or any pair of whole numbers of steps.
AnyPosition = Union[Position, Tuple[int, int]]


def steps_from_degrees(angle: Number, exact: bool = False, letters: str = "NSEW") -> int:
    """The whole steps of 0.0001 arc second nearest to an angle in degrees, halves away from zero.

    A text is a decimal number, or degrees, minutes and seconds; a letter behind it, one of those allowed, is the
    direction, S and W negative. No float is involved. Where exact is True, an angle between two steps is a ValueError.

    >>> steps_from_degrees("48.9123456"), steps_from_degrees("48 54 44.44416")
    (1760844442, 1760844442)
    >>> steps_from_degrees("-0 00 00.0001"), steps_from_degrees("0°00'00.0001\\"W")
    (-1, -1)
    >>> steps_from_degrees("48.9123456", exact=True)
    Traceback (most recent call last):
    ValueError: between two steps: 48.9123456
    """
    return _whole(degrees_of(angle, letters) * STEPS_PER_DEGREE, angle, exact)


def degrees_of(angle: Number, letters: str = "NSEW") -> Fraction:
    """The degrees of an angle, exactly; a text is one that steps_from_degrees takes."""
    return _degrees_in(angle, letters) if isinstance(angle, str) else to_fraction(angle)


def _degrees_in(text: str, letters: str) -> Fraction:
    parts = _SEXAGESIMAL.fullmatch(text)
    if parts:
        sign, degrees, minutes, seconds, letter = parts.groups()
        magnitude = int(degrees) + Fraction(int(minutes), 60) + to_fraction(seconds) / 3_600
    else:
        decimal = text.strip()
        letter = decimal[-1:] if decimal[-1:] in tuple("NSEW") else ""
        magnitude = to_fraction(decimal[: len(decimal) - len(letter)])
        sign = "-" if letter and decimal[0] in "+-" else ""
    if letter and (sign or letter not in letters):
        raise ValueError(f"not an angle: {text!r}")
    return -magnitude if sign == "-" or letter in ("S", "W") else magnitude


def _steps(number: Number, in_one: int, exact: bool) -> int:
    return _whole(to_fraction(number) * in_one, number, exact)


def _whole(steps: Fraction, number: Number, exact: bool) -> int:
    if exact and steps.denominator != 1:
        raise ValueError(f"between two steps: {number}")
    return nearest(steps)
