"""Document 01's grid K, on which the worked numbers of the papers and of this package stand."""

from __future__ import annotations

from .messages import Message1023

#: A 1023 around 49 degrees north and 11 degrees east, heights alone: the mean is 46.92 m, node i has i mm.
GRID_K = Message1023(
    sin=7,
    vertical_shift=1,
    origin_latitude=352_800,
    origin_longitude=79_200,
    spacing_north_south=720,
    spacing_east_west=720,
    mean_height=4_692,
    height_residuals=tuple(range(1, 17)),
)
