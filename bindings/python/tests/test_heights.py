"""Height grids: the C example's calls."""

from __future__ import annotations

import unittest
from pathlib import Path
from typing import List

from tarnoklej import Refused, height_grid, millimetres, shifts_at, write_frame, write_heights
from tarnoklej.examples import GRID_K

from .asked import asked
from .places import EXAMPLES, ROOT, second_lines


def heights_of(path: Path) -> List[str]:
    """The sixteen heights of a file, northern line first."""
    return path.read_text().replace("\n", ",").rstrip(",").split(",")


class Example(unittest.TestCase):
    def test_every_call(self) -> None:
        printed = []
        for call in (EXAMPLES / "heights.calls").read_text().splitlines():
            name, sin, north, east, spacing = call.split(" ")
            try:
                grid = height_grid(int(sin), north, east, spacing, heights_of(ROOT / name))
                printed.append(write_frame(grid).hex())
            except Refused as refused:
                printed.append(f"refused {refused.name}")
        self.assertEqual(printed, second_lines("heights", "examples/heights.calls"))

    def test_the_shift_at_each_node_is_the_wanted_height(self) -> None:
        wanted = heights_of(EXAMPLES / "heights.csv")
        grid = height_grid(7, 49, 11, 360, wanted)
        for node, height in enumerate(wanted):
            row, column = divmod(node, 4)
            position = (1_769_400_000 - row * 3_600_000, 390_600_000 + column * 3_600_000)
            self.assertEqual(shifts_at(grid, position).height.count, 10 * millimetres(height), node + 1)


class Ends(unittest.TestCase):
    def test_millimetres(self) -> None:
        cases = {"1.001": 1_001, "46.9215": 46_922, "-46.9215": -46_922, "46.92149": 46_921, "-0.0004": 0}
        cases["9007199254740993.001"] = 9_007_199_254_740_993_001
        for text, millimetre in cases.items():
            self.assertEqual(millimetres(text), millimetre, text)

    def test_refusals(self) -> None:
        level = [46_920] * 16
        cases = {
            "RANGE": (GRID_K, level[1:]),
            "OFF": (GRID_K.replace(vertical_shift=0), level),
            "METHOD": (GRID_K.replace(vertical_method=1), level),
            "ORIGIN": (GRID_K.replace(origin_longitude=None), level),
            "SPACING": (GRID_K.replace(spacing_north_south=0), level),
            "NOMEAN": (GRID_K, [*level[1:], 2**70]),
        }
        for name, (grid, wanted) in cases.items():
            with self.assertRaises(Refused) as raised:
                write_heights(grid, wanted)
            self.assertEqual(raised.exception.name, name)

    def test_places_and_spacings(self) -> None:
        grid = height_grid(7, "17 45 00 S", "179.95E", 360, ["1"] * 16, spacing_east_west="600.5")
        self.assertEqual((grid.origin_latitude, grid.origin_longitude), (-127_800, 1_295_640))
        self.assertEqual((grid.spacing_north_south, grid.spacing_east_west), (720, 1_201))
        with self.assertRaises(ValueError):
            height_grid(7, "17 E", "1", 360, ["1"] * 16)

    def test_exact(self) -> None:
        self.assertEqual(asked(height_grid, 7, "49.00001", 11, 360, ["46.921"] * 16)[0], 0)
        between = [("49.00001", "360", "46.921"), ("49", "360.1", "46.921"), ("49", "360", "46.9215")]
        for latitude, spacing, height in between:
            with self.assertRaises(ValueError):
                height_grid(7, latitude, 11, spacing, [height] * 16, exact=True)
