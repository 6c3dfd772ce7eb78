"""Reading and writing answer as the second program does, case by case."""

from __future__ import annotations

import unittest
from typing import Any, Dict, List

from tarnoklej import Message, read, read_fields, read_message, write_fields
from tarnoklej.buffers import numbers, room
from tarnoklej.library import library

from . import vectors
from .asked import asked

FILLED = 0xA5


def by_df(message: Message) -> Dict[str, List[Any]]:
    """The values of a message by their DF numbers as the cases write them."""
    values: Dict[str, List[Any]] = {"002": [message.number]}
    for attribute, field in message.fields().items():
        value = getattr(message, attribute)
        if isinstance(value, str):
            values[f"{field.df - 1}"] = [len(value)]
            value = value.encode("latin-1").hex() or "-"
        values[f"{field.df:03}"] = list(value) if isinstance(value, tuple) else [value]
    return values


class Reading(unittest.TestCase):
    def test_read(self) -> None:
        for case in vectors.of("read"):
            data = vectors.unhex(case.arguments[0])
            refusal, number, length, sin = map(int, case.answer[:4])
            got, header = asked(read, data)
            self.assertEqual(got, refusal, case.name)
            if header:
                self.assertEqual((header.number, header.length, header.sin), (number, length, sin), case.name)

    def test_rows_and_messages(self) -> None:
        for case in vectors.of("read"):
            data = vectors.unhex(case.arguments[0])
            got, row = asked(read_fields, data)
            self.assertEqual(got, int(case.answer[0]), case.name)
            if row is None:
                self.assertEqual(asked(read_message, data)[0], got, case.name)
                continue
            values = [int(word) for word in case.parts[0].split(" ")]
            self.assertEqual(row, vectors.row_of(values, vectors.unhex(case.parts[1])), case.name)
            self.assertEqual(read_message(data).row(), row, case.name)
            self.assertEqual(read_message(data).to_bytes(), vectors.unhex(case.parts[2]), case.name)

    def test_every_attribute_is_its_data_field(self) -> None:
        seen = set()
        for case in vectors.of("record"):
            got, message = asked(read_message, vectors.unhex(case.arguments[1]))
            if message is None or case.answer[0] != "0":
                continue
            expected: Dict[str, List[Any]] = {}
            for word in case.parts[0].split(" "):
                df, value = word.split("=")
                none_or_text = None if value == "none" else value
                plain = none_or_text if value == "none" or df in ("144", "146") else int(value)
                expected.setdefault(df, []).append(plain)
            self.assertEqual(by_df(message), expected, case.name)
            seen.add(message.number)
        self.assertEqual(seen, set(range(1021, 1028)))


class Writing(unittest.TestCase):
    def test_write_with_any_buffers(self) -> None:
        for case in vectors.of("write"):
            length, present = int(case.arguments[0]), vectors.unhex(case.arguments[1])
            out = room(length)
            out[:] = [FILLED] * length
            flags = room(len(present))
            flags[:] = list(present)
            values = numbers(int(word) for word in case.arguments[2:])
            written = library().tarnoklej_write_fields(*values, flags, len(present), out, length)
            self.assertEqual([str(written.refusal), str(written.length)], case.answer, case.name)
            self.assertEqual(bytes(out), vectors.unhex(case.parts[0]), case.name)

    def test_write_rows(self) -> None:
        tried = 0
        for case in vectors.of("write"):
            values = [int(word) for word in case.arguments[2:]]
            row = vectors.row_of(values, vectors.unhex(case.arguments[1]))
            if row is None or case.answer[0] == "6":
                continue
            tried += 1
            refusal, message = asked(write_fields, row)
            self.assertEqual(refusal, int(case.answer[0]), case.name)
            if message is not None:
                self.assertEqual(message, vectors.unhex(case.parts[0])[: int(case.answer[1])], case.name)
        self.assertGreater(tried, 2_000)
