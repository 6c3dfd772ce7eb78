"""Height grids: the message 1023 of sixteen wanted heights."""

from __future__ import annotations

from typing import Iterable, Optional, Sequence, Union

from . import buffers
from .decimals import Number, nearest, to_fraction
from .kinds import NODES
from .library import library
from .messages import Message1023
from .positions import degrees_of
from .refusals import check
from .rows import read_fields
from .sizes import MOST_BYTES


def millimetres(height: Number) -> int:
    """The whole millimetres nearest to a height in metres.

    >>> millimetres("46.921")
    46921
    """
    return nearest(to_fraction(height) * 1_000)


def write_heights(grid: Union[Message1023, Sequence[Optional[int]]], wanted: Iterable[int]) -> bytes:
    """Writes the message 1023 of sixteen wanted heights in whole millimetres, node 1 first.

    The rest is the grid given, a message or a row, whose own heights are not looked at. The mean is the smallest from
    which every height is at most 255 mm away, so at each node the message's shift is the wanted height exactly.
    Refusals in order: RANGE for other than sixteen heights or no row of 64 fields, OFF, METHOD, ORIGIN, SPACING,
    NOMEAN, RANGE for all else that no message holds.

    >>> from tarnoklej import shifts_at
    >>> from tarnoklej.examples import GRID_K
    >>> message = write_heights(GRID_K, [46_921 + node for node in range(16)])
    >>> shifts_at(message, (1_769_400_000, 390_600_000)).height.exact
    Decimal('46.9210')
    """
    row = grid.row() if isinstance(grid, Message1023) else grid
    out = buffers.room(MOST_BYTES)
    written = library().tarnoklej_write_heights(*buffers.row(row), *buffers.numbers(wanted), out, MOST_BYTES)
    check(written.refusal)
    return bytes(out[: written.length])


def height_grid(
    sin: int,
    latitude: Number,
    longitude: Number,
    spacing: Number,
    heights: Iterable[Number],
    spacing_east_west: Optional[Number] = None,
    exact: bool = False,
) -> Message1023:
    """Gives the height grid around a place in degrees, with a spacing in arc seconds and sixteen heights in metres.

    The spacing is that north-south, and east-west too where no other is given. Place and spacing go to the nearest half
    arc second, and heights to the nearest millimetre; where exact is True, one between two of these is a ValueError.
    Horizontal means and residuals are not available. Refusals: those of write_heights.

    >>> grid = height_grid(7, "49", "11", 360, ["46.921"] * 16)
    >>> grid.origin_latitude, grid.spacing_north_south, grid.horizontal_shift
    (352800, 720, 0)
    """
    fields = Message1023.fields()
    east_west = spacing if spacing_east_west is None else spacing_east_west
    none = (None,) * NODES
    grid = Message1023(
        sin=sin,
        vertical_shift=1,
        origin_latitude=fields["origin_latitude"].steps(degrees_of(latitude, "NS") * 3_600, exact),
        origin_longitude=fields["origin_longitude"].steps(degrees_of(longitude, "EW") * 3_600, exact),
        spacing_north_south=fields["spacing_north_south"].steps(spacing, exact) or 0,
        spacing_east_west=fields["spacing_east_west"].steps(east_west, exact) or 0,
        mean_latitude=None,
        mean_longitude=None,
        latitude_residuals=none,
        longitude_residuals=none,
    )
    message = write_heights(grid, [_millimetres(height, exact) for height in heights])
    return Message1023.from_row(read_fields(message))


def _millimetres(height: Number, exact: bool) -> int:
    if exact and (to_fraction(height) * 1_000).denominator != 1:
        raise ValueError(f"between two millimetres: {height}")
    return millimetres(height)
