"""Messages as dataclasses: what they take, what they refuse, and that they are values."""

from __future__ import annotations

import dataclasses
import unittest
from decimal import Decimal
from typing import Any, Dict, List, Optional

from tarnoklej import MESSAGES, Message1021, Message1022, Message1023, Message1025, Refusal, read_fields, read_message
from tarnoklej.examples import GRID_K

from .asked import asked


class Names(unittest.TestCase):
    def test_every_byte_is_a_character(self) -> None:
        text = bytes(range(225, 256)).decode("latin-1")
        message = Message1022(source_name=text, target_name="\0" * 31)
        self.assertEqual(len(message.to_bytes()), 127)
        self.assertEqual(read_message(message.to_bytes()), message)
        self.assertEqual(len(read_fields(message.to_bytes())), 90)

    def test_too_long_and_not_of_the_character_set(self) -> None:
        for length in (32, 33, 300):
            self.assertEqual(asked(Message1021(source_name="a" * length).to_bytes)[0], Refusal.RANGE)
        with self.assertRaises(ValueError):
            Message1021(source_name="Łódź").to_bytes()


class Values(unittest.TestCase):
    def test_zero_is_the_default_and_none_is_not_available(self) -> None:
        for number, kind in MESSAGES.items():
            data = kind().to_bytes()
            self.assertEqual(int.from_bytes(data, "big"), number << (8 * len(data) - 12))
            self.assertEqual(read_message(data), kind())

    def test_every_field_that_can_be_none_is_read_back_as_none(self) -> None:
        for kind in MESSAGES.values():
            for attribute, field in kind.fields().items():
                if isinstance(getattr(kind(), attribute), str):
                    continue
                none = (None,) * 16 if isinstance(getattr(kind(), attribute), tuple) else None
                message = kind().replace(**{attribute: none})
                refusal, data = asked(message.to_bytes)
                self.assertEqual(refusal, 0 if field.signed else Refusal.RANGE, attribute)
                if data is not None:
                    self.assertEqual(read_message(data), message, attribute)

    def test_every_field_holds_its_range_and_no_more(self) -> None:
        for kind in MESSAGES.values():
            for attribute, field in kind.fields().items():
                if isinstance(getattr(kind(), attribute), str):
                    continue
                inside, outside = (field.least, field.greatest), (field.least - 1, field.greatest + 1)
                for value in (*inside, *outside):
                    refusal = Refusal.RANGE if value in outside else 0
                    nodes = isinstance(getattr(kind(), attribute), tuple)
                    message = kind().replace(**{attribute: (value,) * 16 if nodes else value})
                    got, data = asked(message.to_bytes)
                    self.assertEqual(got, refusal, f"{kind.__name__}.{attribute} = {value}")
                    if data is not None:
                        self.assertEqual(read_message(data), message)

    def test_they_are_values(self) -> None:
        self.assertEqual(len({Message1025(sin=5), Message1025(sin=5), Message1025(sin=6)}), 2)
        with self.assertRaises(dataclasses.FrozenInstanceError):
            GRID_K.sin = 8  # type: ignore[misc]
        self.assertEqual(dataclasses.asdict(Message1025(sin=5))["sin"], 5)

    def test_nodes(self) -> None:
        self.assertEqual(GRID_K.with_node(16, height_residuals=-1).height_residuals[14:], (15, -1))
        changed = GRID_K.with_node(1, latitude_residuals=3, height_residuals=None)
        self.assertEqual((changed.latitude_residuals[0], changed.height_residuals[:2]), (3, (None, 2)))
        for node in (0, 17):
            with self.assertRaises(ValueError):
                GRID_K.with_node(node, height_residuals=1)
        for count in (0, 15, 17):
            with self.assertRaisesRegex(ValueError, "a grid has 16"):
                Message1023(latitude_residuals=(0,) * count).to_bytes()

    def test_scaled(self) -> None:
        self.assertEqual(GRID_K.scaled("origin_latitude"), Decimal(49 * 3_600))
        residuals = GRID_K.with_node(2, height_residuals=None).scaled("height_residuals")
        self.assertEqual(residuals[:3], (Decimal("0.001"), None, Decimal("0.003")))  # type: ignore[index]
        self.assertIsNone(Message1025(false_northing=None).scaled("false_northing"))
        with self.assertRaises(TypeError):
            Message1021().scaled("source_name")
        with self.assertRaises(KeyError):
            GRID_K.scaled("easting")

    def test_from_scaled(self) -> None:
        grid = Message1023.from_scaled(
            sin=7,
            vertical_shift=1,
            origin_latitude=49 * 3_600,
            origin_longitude="39600",
            spacing_north_south=360,
            spacing_east_west=360.0,
            mean_height="46.92",
            height_residuals=[Decimal(node).scaleb(-3) for node in range(1, 17)],
        )
        self.assertEqual(grid, GRID_K)
        # 12 degrees are 1,090,909,090.9 steps of 0.000000011 degree.
        self.assertEqual(Message1025.from_scaled(exact=False, origin_longitude=12).origin_longitude, 1_090_909_091)
        between: List[Dict[str, Any]] = [{"origin_longitude": 12}, {"false_easting": "0.0005"}, {"sin": "1.5"}]
        for values in between:
            with self.assertRaises(ValueError):
                Message1025.from_scaled(**values)
        with self.assertRaises(ValueError):
            Message1023.from_scaled(height_residuals=["0.0005"] * 16)
        nearest = Message1023.from_scaled(exact=False, height_residuals=["0.0005"] * 16)
        self.assertEqual(nearest.height_residuals, (1,) * 16)
        with self.assertRaises(KeyError):
            Message1025.from_scaled(height=1)
        self.assertEqual(Message1021.from_scaled(source_name="4936", rotation_x=None).rotation_x, None)

    def test_rows_of_other_messages(self) -> None:
        names = Message1021(source_name="ab").row()
        bad: List[List[Optional[int]]] = [[], [1025], GRID_K.row()[:-1], [*GRID_K.row(), 0]]
        bad += [Message1025().row()[:-1], [*Message1025().row(), 0]]
        bad += [names[:-1], [1021, None, *names[2:]], [1021, 2, 97, None, *names[4:]], [1021, 2, 97, 256, *names[4:]]]
        for row in bad:
            for kind in MESSAGES.values():
                with self.assertRaises(ValueError, msg=f"{kind.__name__} of {row}"):
                    kind.from_row(row)
        with self.assertRaises(ValueError):
            Message1023.from_row(Message1025().row())
        self.assertEqual(Message1021.from_row(names), Message1021(source_name="ab"))
        self.assertEqual(Message1025.from_row([1025, 5, 0, 0, 0, 0, 0, None]), Message1025(sin=5, false_northing=None))
