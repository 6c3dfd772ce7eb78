"""Shifts, rows of shifts and height grids answer as the second program does, case by case."""

from __future__ import annotations

import struct
import unittest
from typing import List, Optional

from tarnoklej import MESSAGES, Component, Position, Refused, Shifts, shift_row, shifts_at, write_heights
from tarnoklej.buffers import numbers, room, room_for_numbers
from tarnoklej.library import library

from . import vectors
from .asked import asked

FILLED, FILLED_NUMBER = 0xA5, -7_777_777
UNITS = {"seconds": "arc seconds", "metres": "m"}
# Of the fields that always have a value, the easting of the origin (DF203) alone stays none in the cases' records.
EASTING_PLACE = 5


def words_of(shifts: Shifts) -> List[str]:
    """The three parts as the cases write them."""
    words: List[str] = []
    for component in Component:
        part, refusal = shifts.get(component), shifts.refusal(component)
        if part is None:
            words += [str(int(refusal or 0)), "0", "refused", str(int(refusal or 0)), "0"]
            continue
        kind = {unit: kind for kind, unit in UNITS.items()}[part.unit]
        bits = str(struct.unpack("<Q", struct.pack("<d", part.value))[0])
        words += ["0", str(part.count), kind, bits, bits]
    return words


class Shifting(unittest.TestCase):
    def test_shifts_of_bytes(self) -> None:
        for case in vectors.of("shift"):
            message, north, east = case.arguments
            shifts = shifts_at(vectors.unhex(message), Position(int(north), int(east)))
            self.assertEqual(words_of(shifts), case.answer, case.name)

    def test_shifts_of_messages(self) -> None:
        seen = 0
        for case in vectors.of("shiftof"):
            north, east, present, *values = case.arguments
            row = self.record([int(value) for value in values], vectors.unhex(present))
            if row is None or row[0] not in (1023, 1024):
                continue
            seen += 1
            message = MESSAGES[row[0]].from_row(row)
            try:
                words = words_of(shifts_at(message, (int(north), int(east))))
            except Refused as refused:
                words = [str(refused.number), "0", "refused", str(refused.number), "0"] * 3
            self.assertEqual(words, case.answer, case.name)
        self.assertGreater(seen, 2_000)

    def record(self, values: List[int], present: bytes) -> Optional[List[Optional[int]]]:
        """The row of a record of the cases, where a none in a field that always has a value is a 0."""
        row = vectors.row_of(values, present)
        if row is None or row[0] not in (1023, 1024):
            return None
        always = [not field.signed for field in MESSAGES[row[0]].fields().values()]
        for place, none in enumerate([False, *always[:10]]):
            if none and not (row[0] == 1024 and place == EASTING_PLACE):
                row[place] = row[place] or 0
        row[59:] = [value or 0 for value in row[59:]]
        return row


class Rows(unittest.TestCase):
    def test_rows(self) -> None:
        for case in vectors.of("row"):
            length, component, north, east, step, count = map(int, case.arguments[:6])
            message = vectors.unhex(case.arguments[6])
            row = room_for_numbers(length)
            row[:] = [FILLED_NUMBER] * length
            refusal = library().tarnoklej_shift_row(
                message, len(message), component, north, east, step, count, row, length
            )
            self.assertEqual(refusal, int(case.answer[0]), case.name)
            expected = [] if case.parts[0] == "-" else [int(word) for word in case.parts[0].split(" ")]
            self.assertEqual(list(row), expected, case.name)

    def test_rows_as_lists(self) -> None:
        for case in vectors.of("row"):
            length, component, north, east, step, count = map(int, case.arguments[:6])
            refusal, row = asked(
                shift_row, vectors.unhex(case.arguments[6]), component, (north, east), step, count
            )
            if case.answer[0] == "6":
                self.assertEqual(refusal, 0, case.name)
                continue
            self.assertEqual(refusal, int(case.answer[0]), case.name)
            if row is not None:
                self.assertEqual(row, [int(word) for word in case.parts[0].split(" ")][:count], case.name)


class Heights(unittest.TestCase):
    def test_heights(self) -> None:
        tried = 0
        for case in vectors.of("heights"):
            length, count = int(case.arguments[0]), int(case.arguments[1])
            present = vectors.unhex(case.arguments[2])
            values = [int(word) for word in case.arguments[3:]]
            wanted, fields = values[:count], values[count:]
            self.low_level(case, length, present, fields, wanted)
            row = vectors.row_of(fields, present)
            if row is None or case.answer[0] == "6":
                continue
            tried += 1
            refusal, message = asked(write_heights, row, wanted)
            self.assertEqual(refusal, int(case.answer[0]), case.name)
            if message is not None:
                self.assertEqual(message, vectors.unhex(case.parts[0])[:73], case.name)
        self.assertGreater(tried, 200)

    def low_level(self, case: vectors.Case, length: int, present: bytes, fields: List[int], wanted: List[int]) -> None:
        out, flags = room(length), room(len(present))
        out[:], flags[:] = [FILLED] * length, list(present)
        written = library().tarnoklej_write_heights(
            *numbers(fields), flags, len(present), *numbers(wanted), out, length
        )
        self.assertEqual([str(written.refusal), str(written.length)], case.answer, case.name)
        self.assertEqual(bytes(out), vectors.unhex(case.parts[0]), case.name)
