"""Positions from degrees and metres, without loss."""

from __future__ import annotations

import unittest
from decimal import Decimal, localcontext
from fractions import Fraction
from typing import List

from tarnoklej import Geocentric, Number, Position, steps_from_degrees
from tarnoklej.decimals import nearest, to_fraction


class Degrees(unittest.TestCase):
    def test_decimal_texts(self) -> None:
        cases = {
            "49": 1_764_000_000,
            "11.0": 396_000_000,
            "-90": -3_240_000_000,
            "+180": 6_480_000_000,
            "179.9999999": 6_479_999_996,
            "180.0000001": 6_480_000_004,
            "-0.00000001": 0,
            "0.0000000139": 1,
            ".5": 18_000_000,
            " 7. ": 252_000_000,
            "49N": 1_764_000_000,
            "49.5 S": -1_782_000_000,
            "179.95W": -6_478_200_000,
        }
        for text, steps in cases.items():
            self.assertEqual(steps_from_degrees(text), steps, text)

    def test_halves_go_away_from_zero(self) -> None:
        # Half a step is 1/72,000,000 degree, which no decimal text is; a fraction can be.
        self.assertEqual(steps_from_degrees(Fraction(1, 72_000_000)), 1)
        self.assertEqual(steps_from_degrees(Fraction(-1, 72_000_000)), -1)
        self.assertEqual(Position.from_metres("0.0005", "-0.0005"), (1, -1))
        self.assertEqual(Position.from_metres("0.00049999", "-0.00049999"), (0, 0))
        self.assertEqual([nearest(Fraction(n, 2)) for n in (-3, -1, 0, 1, 3)], [-2, -1, 0, 1, 2])

    def test_minutes_and_seconds(self) -> None:
        texts = ["17 45 00.5 S", "-17 45 0.5", "17:45:00.5S", "17°45'00.5\"S", "17d45m0.5s S", "17° 45′ 00.5″ S"]
        for text in texts:
            self.assertEqual(steps_from_degrees(text), -639_005_000, text)
        self.assertEqual(steps_from_degrees("-0 0 1"), -10_000)
        self.assertEqual(steps_from_degrees("179 59 59.9999"), 6_479_999_999)

    def test_all_digits_count(self) -> None:
        # A float of 53 bits cannot hold these.
        self.assertEqual(steps_from_degrees("0." + "0" * 30 + "1"), 0)
        self.assertEqual(steps_from_degrees("100000000000000000.0000001"), 3_600_000_000_000_000_000_000_004)
        with localcontext() as context:
            context.prec = 5
            self.assertEqual(steps_from_degrees(Decimal("48.9123456")), 1_760_844_442)
            self.assertEqual(steps_from_degrees("48.9123456"), 1_760_844_442)
            self.assertEqual(Position(1_004_321_987, -1).in_metres(), (Decimal("1004321.987"), Decimal("-0.001")))

    def test_floats_are_their_shortest_decimals(self) -> None:
        self.assertEqual(steps_from_degrees(48.9123456), steps_from_degrees("48.9123456"))
        self.assertEqual(to_fraction(0.1), Fraction(1, 10))
        self.assertEqual(to_fraction(1e-7), Fraction(1, 10**7))

    def test_exact(self) -> None:
        self.assertEqual(steps_from_degrees("49.000625", exact=True), 1_764_022_500)
        for text in ("49.0009722", "0 0 0.00001"):
            with self.assertRaises(ValueError):
                steps_from_degrees(text, exact=True)
        with self.assertRaises(ValueError):
            Position.from_metres("0.0001", 0, exact=True)

    def test_what_is_no_angle(self) -> None:
        texts = ["", " ", "-", "N", "49,5", "1e3", "nan", "inf", "0x10", "49 60 0", "49 0 60", "49 0", "--1", "-49 N"]
        for text in [*texts, "49 0 -1", "-17 45 0.5 S", "+49N", "1_000", "49.0.0", "49 °", "N49", "٤٩"]:
            with self.assertRaises(ValueError, msg=text):
                steps_from_degrees(text)
        numbers: List[Number] = [float("nan"), float("inf"), Decimal("NaN"), Decimal("Infinity")]
        for number in numbers:
            with self.assertRaises(ValueError):
                steps_from_degrees(number)
        for wrong in (None, b"49", 1j, [49]):
            with self.assertRaises(TypeError):
                steps_from_degrees(wrong)  # type: ignore[arg-type]

    def test_letters_are_held_to_their_axis(self) -> None:
        self.assertEqual(Position.from_degrees("1N", "1W"), (36_000_000, -36_000_000))
        for north, east in (("1E", "1"), ("1", "1N"), ("1 0 0 W", "1"), ("1", "1 0 0 S")):
            with self.assertRaises(ValueError):
                Position.from_degrees(north, east)


class ThereAndBack(unittest.TestCase):
    def test_degrees(self) -> None:
        for position in (Position(1_764_000_001, -6_480_000_000), Position(-1, 0)):
            self.assertEqual(Position.from_degrees(*position.in_degrees(), exact=True), position)

    def test_metres(self) -> None:
        position = Position(-(10**12), 10**12 - 1)
        self.assertEqual(Position.from_metres(*position.in_metres(), exact=True), position)
        geocentric = Geocentric(41_498_712_345, -(10**11), 1)
        self.assertEqual(geocentric.in_metres()[0], Decimal("4149871.2345"))
        self.assertEqual(Geocentric.from_metres(*geocentric.in_metres(), exact=True), geocentric)
