"""Datum steps lie within one unit of the second program's exact ones."""

from __future__ import annotations

import unittest
from fractions import Fraction
from typing import List

from tarnoklej import Geocentric, Message1021, Message1025, Refusal, datum_step, read_message

from .asked import asked
from .places import SERVICES, second_lines


class Steps(unittest.TestCase):
    def test_the_second_programs_positions(self) -> None:
        message, compared = b"", 0
        for line in second_lines("datum", "60", "10"):
            words = line.split(" ")
            if words[0] == "set":
                message = bytes.fromhex(words[1])
                self.check_parameters(message, words[2:])
                continue
            target = datum_step(message, tuple(map(int, words[:3])))  # type: ignore[arg-type]
            for got, exact in zip(target, words[3:]):
                self.assertLessEqual(abs(got - Fraction(exact)), 1, line)
                compared += 1
        self.assertEqual(compared, 60 * 10 * 3)

    def check_parameters(self, data: bytes, words: List[str]) -> None:
        """The seven parameters in metres, arc seconds and ppm."""
        message = read_message(data)
        names = ["translation_x", "translation_y", "translation_z", "rotation_x", "rotation_y", "rotation_z"]
        scaled = [message.scaled(name) for name in [*names, "scale_correction"]]
        self.assertEqual([Fraction(str(value)) for value in scaled], [Fraction(word) for word in words])

    def test_refusals(self) -> None:
        origin = Geocentric(0, 0, 0)
        message = Message1021()
        far = [Geocentric(10**11 + 1, 0, 0), Geocentric(0, -(10**11) - 1, 0), Geocentric(0, 0, 2**64)]
        for position in far:
            self.assertEqual(asked(datum_step, message, position)[0], Refusal.POSITION)
        self.assertEqual(asked(datum_step, Message1025(), origin)[0], Refusal.KIND)
        self.assertEqual(asked(datum_step, message.replace(computation_indicator=1), origin)[0], Refusal.METHOD)
        self.assertEqual(asked(datum_step, message.replace(rotation_y=None), origin)[0], Refusal.ABSENT)
        self.assertEqual(asked(datum_step, message.to_bytes()[:-1], origin)[0], Refusal.LENGTH)
        oblique = (SERVICES / "d-oblique-mercator" / "1021.rtcm").read_bytes()
        self.assertEqual(asked(datum_step, oblique, origin)[0], Refusal.METHOD)
