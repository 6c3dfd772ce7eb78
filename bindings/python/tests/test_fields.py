"""The fields and the attributes of the messages are those of the second program, which has them from the papers."""

from __future__ import annotations

import re
import unittest
from decimal import Decimal
from typing import Dict, List

from tarnoklej import FIELDS, MESSAGES

from .places import second_lines


def resolution(text: str) -> str:
    """A resolution as the second program prints it."""
    return text.replace("arc seconds", "arc second")


def printed_fields() -> Dict[int, List[str]]:
    """The cells of docs/FIELDS.md by DF number."""
    rows = [line.strip("|").split("|") for line in second_lines("fields") if re.match(r"\| DF\d", line)]
    return {int(cells[0].strip()[2:]): [cell.strip() for cell in cells] for cells in rows}


def positions() -> Dict[int, List[int]]:
    """The DF numbers of each message in wire order, without DF002; those of nodes once."""
    found: Dict[int, List[int]] = {}
    for line in second_lines("positions"):
        title = re.match(r" \* (\d{4}), ", line)
        entry = re.match(r" \*   \S+\s+DF(\d+)", line)
        if title:
            number = int(title.group(1))
            found[number] = []
        elif entry and int(entry.group(1)) != 2:
            found[number].append(int(entry.group(1)))
    return found


class Fields(unittest.TestCase):
    def test_every_field(self) -> None:
        printed = printed_fields()
        self.assertEqual(set(FIELDS), set(printed))
        for df, field in FIELDS.items():
            _, name, _, bits, kind, limits, none, steps, *_ = printed[df]
            self.assertEqual(field.name, re.sub(r" \((?!MJD)[^()]*\)$", "", name), df)
            self.assertEqual((field.bits, field.type), (int(bits), kind.replace(", each", "")), df)
            self.assertEqual(f"{field.least:,} to {field.greatest:,}", limits, df)
            self.assertEqual(field.signed, none != "-", df)
            self.assertEqual(f"{field.resolution:f} {field.unit}".strip(), resolution(steps), df)

    def test_the_messages_of_each_field(self) -> None:
        for df, cells in printed_fields().items():
            numbers = list(MESSAGES) if cells[2] == "all" else [int(number) for number in cells[2].split(", ")]
            if df not in (2, 143, 145):
                have = [number for number, kind in MESSAGES.items() if df in {f.df for f in kind.fields().values()}]
                self.assertEqual(have, numbers, df)

    def test_attributes_in_wire_order(self) -> None:
        expected = positions()
        self.assertEqual(set(MESSAGES), set(expected))
        for number, kind in MESSAGES.items():
            attributes = [field.df for field in kind.fields().values()]
            self.assertEqual(attributes, [df for df in expected[number] if df not in (143, 145)], number)


class Values(unittest.TestCase):
    def test_scaled_and_steps(self) -> None:
        self.assertEqual(FIELDS[159].scaled(10_100), Decimal("0.202"))
        self.assertEqual(FIELDS[159].steps("0.202"), 10_100)
        self.assertEqual(FIELDS[202].scaled(100_000), Decimal("1000000"))
        self.assertIsNone(FIELDS[159].scaled(None))
        self.assertIsNone(FIELDS[159].steps(None))
        with self.assertRaises(ValueError):
            FIELDS[159].steps("0.20201")
        self.assertEqual(FIELDS[159].steps("0.20201", exact=False), 10_101)

    def test_there_and_back_at_the_ends(self) -> None:
        for field in FIELDS.values():
            for steps in (field.least, field.greatest, 0, 1):
                self.assertEqual(field.steps(field.scaled(steps)), steps, field)
