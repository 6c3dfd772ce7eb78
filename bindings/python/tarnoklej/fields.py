"""The data fields of messages 1021 to 1027: DF number, name, bits, type, range, resolution and unit."""

from __future__ import annotations

from dataclasses import dataclass
from decimal import Context, Decimal
from fractions import Fraction
from typing import Dict, Optional, Tuple

from .decimals import Number, nearest, to_fraction

# No value in a unit has more digits, whatever the caller's own context is.
_EXACT = Context(prec=60)


@dataclass(frozen=True)
class Field:
    """One data field of the standard.

    A message holds a field as a whole number of its resolution, or None where it is not available.

    >>> mean = FIELDS[198]
    >>> mean.name, mean.bits, mean.resolution, mean.unit
    ('Mean Height Offset', 15, Decimal('0.01'), 'm')
    >>> mean.scaled(4692)
    Decimal('46.92')
    >>> mean.steps("46.92")
    4692
    """

    #: The number of the data field, 198 for DF198.
    df: int
    #: The standard's name.
    name: str
    #: The standard's type, such as int15.
    type: str
    #: The width on the wire.
    bits: int
    #: The smallest and the greatest value, in whole numbers of the resolution.
    least: int
    greatest: int
    #: What one step is worth, in the unit.
    resolution: Decimal
    #: "arc second", "degree", "m", "ppm", or "" where the field is a plain number.
    unit: str

    @property
    def signed(self) -> bool:
        """Whether the field is of type intN and so can be None, not available."""
        return self.type.startswith("int")

    def scaled(self, steps: Optional[int]) -> Optional[Decimal]:
        """A value in the field's unit, exactly, or None where it is not available."""
        return None if steps is None else _EXACT.multiply(Decimal(steps), self.resolution)

    def steps(self, value: Optional[Number], exact: bool = True) -> Optional[int]:
        """The whole steps of a value in the field's unit; None stays None.

        A value between two steps is a ValueError, or the nearest step where exact is False.

        >>> FIELDS[192].steps("176400.2")
        Traceback (most recent call last):
        ValueError: DF192 has steps of 0.5 arc second: 176400.2 is between two
        >>> FIELDS[192].steps("176400.2", exact=False)
        352800
        """
        if value is None:
            return None
        steps = to_fraction(value) / Fraction(self.resolution)
        if exact and steps.denominator != 1:
            raise ValueError(f"DF{self.df:03} has steps of {self.resolution:f} {self.unit}: {value} is between two")
        return nearest(steps)


def _signed(df: int, name: str, bits: int, resolution: str, unit: str, limit: Optional[int] = None) -> Field:
    greatest = 2 ** (bits - 1) - 1 if limit is None else limit
    return Field(df, name, f"int{bits}", bits, -greatest, greatest, Decimal(resolution), unit)


def _unsigned(
    df: int, name: str, bits: int, resolution: str = "1", unit: str = "", limit: Optional[int] = None
) -> Field:
    greatest = 2**bits - 1 if limit is None else limit
    return Field(df, name, f"uint{bits}", bits, 0, greatest, Decimal(resolution), unit)


def _other(df: int, name: str, kind: str, bits: int) -> Field:
    return Field(df, name, kind, bits, 0, 2**bits - 1, Decimal(1), "")


_SECOND, _DEGREE, _METRE, _PPM = "arc second", "degree", "m", "ppm"
# The resolution of the angles of projections.
_ANGLE = "0.000000011"
# 90, 180 and 360 degrees in whole steps of it.
_QUARTER, _HALF, _TURN = 8_181_818_181, 16_363_636_363, 32_727_272_727

_ALL: Tuple[Field, ...] = (
    _unsigned(2, "Message Number", 12),
    _unsigned(51, "Modified Julian Day (MJD) Number", 16),
    _unsigned(143, "Source-Name Counter", 5),
    _other(144, "Source-Name", "char8", 8),
    _unsigned(145, "Target-Name Counter", 5),
    _other(146, "Target-Name", "char8", 8),
    _unsigned(147, "System Identification Number", 8),
    _other(148, "Utilized Transformation Message Indicator", "bit(10)", 10),
    _unsigned(149, "Plate Number", 5),
    _unsigned(150, "Computation Indicator", 4),
    _unsigned(151, "Height Indicator", 2),
    _signed(152, "Latitude of Origin, Area of Validity", 19, "2", _SECOND, 162_000),
    _signed(153, "Longitude of Origin, Area of Validity", 20, "2", _SECOND, 324_000),
    _unsigned(154, "N/S Extension, Area of Validity", 14, "2", _SECOND),
    _unsigned(155, "E/W Extension, Area of Validity", 14, "2", _SECOND),
    _signed(156, "Translation in X-direction", 23, "0.001", _METRE),
    _signed(157, "Translation in Y-direction", 23, "0.001", _METRE),
    _signed(158, "Translation in Z-direction", 23, "0.001", _METRE),
    _signed(159, "Rotation Around the X-axis", 32, "0.00002", _SECOND),
    _signed(160, "Rotation Around the Y-axis", 32, "0.00002", _SECOND),
    _signed(161, "Rotation Around the Z-axis", 32, "0.00002", _SECOND),
    _signed(162, "Scale Correction", 25, "0.00001", _PPM),
    _signed(163, "X Coordinate for M-B Rotation Point", 35, "0.001", _METRE),
    _signed(164, "Y Coordinate for M-B Rotation Point", 35, "0.001", _METRE),
    _signed(165, "Z Coordinate for M-B Rotation Point", 35, "0.001", _METRE),
    _unsigned(166, "Semi-major Axis of Source System Ellipsoid", 24, "0.001", _METRE),
    _unsigned(167, "Semi-minor Axis of Source System Ellipsoid", 25, "0.001", _METRE),
    _unsigned(168, "Semi-major Axis of Target System Ellipsoid", 24, "0.001", _METRE),
    _unsigned(169, "Semi-minor Axis of Target System Ellipsoid", 25, "0.001", _METRE),
    _unsigned(170, "Projection Type", 6),
    _signed(171, "Latitude of Natural Origin", 34, _ANGLE, _DEGREE, _QUARTER),
    _signed(172, "Longitude of Natural Origin", 35, _ANGLE, _DEGREE, _HALF),
    _unsigned(173, "Scale Factor at Natural Origin", 30, "0.00001", _PPM),
    _unsigned(174, "False Easting", 36, "0.001", _METRE),
    _signed(175, "False Northing", 35, "0.001", _METRE),
    _signed(176, "Latitude of False Origin", 34, _ANGLE, _DEGREE, _QUARTER),
    _signed(177, "Longitude of False Origin", 35, _ANGLE, _DEGREE, _HALF),
    _signed(178, "Latitude of Standard Parallel No. 1", 34, _ANGLE, _DEGREE, _QUARTER),
    _signed(179, "Latitude of Standard Parallel No. 2", 34, _ANGLE, _DEGREE, _QUARTER),
    _unsigned(180, "Easting of False Origin", 36, "0.001", _METRE),
    _signed(181, "Northing of False Origin", 35, "0.001", _METRE),
    _other(182, "Rectification Flag", "bit(1)", 1),
    _signed(183, "Latitude of Projection Center", 34, _ANGLE, _DEGREE, _QUARTER),
    _signed(184, "Longitude of Projection Center", 35, _ANGLE, _DEGREE, _HALF),
    _unsigned(185, "Azimuth of Initial Line", 35, _ANGLE, _DEGREE, _TURN),
    _signed(186, "Difference, Angle from Rectified to Skew Grid", 26, _ANGLE, _DEGREE),
    _unsigned(187, "Scale factor on Initial Line", 30, "0.00001", _PPM),
    _unsigned(188, "Easting at Projection Center", 36, "0.001", _METRE),
    _signed(189, "Northing at Projection Center", 35, "0.001", _METRE),
    _other(190, "Horizontal Shift Indicator", "bit(1)", 1),
    _other(191, "Vertical Shift Indicator", "bit(1)", 1),
    _signed(192, "Latitude of Origin of Grids", 21, "0.5", _SECOND, 648_000),
    _signed(193, "Longitude of Origin of Grids", 22, "0.5", _SECOND, 1_296_000),
    _unsigned(194, "N/S Grid Area Extension", 12, "0.5", _SECOND),
    _unsigned(195, "E/W Grid Area Extension", 12, "0.5", _SECOND),
    _signed(196, "Mean Latitude Offset", 8, "0.001", _SECOND),
    _signed(197, "Mean Longitude Offset", 8, "0.001", _SECOND),
    _signed(198, "Mean Height Offset", 15, "0.01", _METRE),
    _signed(199, "Latitude Residual", 9, "0.00003", _SECOND),
    _signed(200, "Longitude Residual", 9, "0.00003", _SECOND),
    _signed(201, "Height Residual", 9, "0.001", _METRE),
    _signed(202, "Northing of Origin", 25, "10", _METRE),
    _unsigned(203, "Easting of Origin", 26, "10", _METRE),
    _unsigned(204, "N/S Grid Area Extension", 12, "10", _METRE),
    _unsigned(205, "E/W Grid Area Extension", 12, "10", _METRE),
    _signed(206, "Mean Local Northing Offset", 10, "0.01", _METRE),
    _signed(207, "Mean Local Easting Offset", 10, "0.01", _METRE),
    _signed(208, "Mean Local Height Offset", 15, "0.01", _METRE),
    _signed(209, "Residual in Local Northing", 9, "0.001", _METRE),
    _signed(210, "Residual in Local Easting", 9, "0.001", _METRE),
    _signed(211, "Residual in Local Height", 9, "0.001", _METRE),
    _unsigned(212, "Horizontal Interpolation Method Indicator", 2),
    _unsigned(213, "Vertical Interpolation Method Indicator", 2),
    _unsigned(214, "Horizontal Helmert/Molodenski Quality Indicator", 3),
    _unsigned(215, "Vertical Helmert/Molodenski Quality Indicator", 3),
    _unsigned(216, "Horizontal Grid Quality Indicator", 3),
    _unsigned(217, "Vertical Grid Quality Indicator", 3),
)

#: Every data field by its DF number.
FIELDS: Dict[int, Field] = {field.df: field for field in _ALL}
