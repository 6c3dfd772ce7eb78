"""Every refusal is met, and says its number, name and words."""

from __future__ import annotations

import copy
import pickle
import unittest
from typing import Any, Callable, Dict

from tarnoklej import (
    Message1021,
    Message1025,
    Refusal,
    Refused,
    Table,
    check_samples,
    datum_step,
    find_frame,
    index_agrees,
    read,
    shift_row,
    shifts_at,
    write_fields,
    write_heights,
    write_index,
)
from tarnoklej.buffers import room
from tarnoklej.examples import GRID_K
from tarnoklej.library import library
from tarnoklej.refusals import check

from .places import EXAMPLES

MIDDLE = (1_764_000_000, 396_000_000)
PROJECTION = Message1025(sin=5).to_bytes()


def full_table() -> Table:
    table = Table()
    for sin in range(20):
        table.store(1, Message1025(sin=sin))
    return table


CALLS: Dict[str, Callable[[], Any]] = {
    "SHORT": lambda: read(b"\x40"),
    "NUMBER": lambda: read(b"\x40\x40"),
    "LENGTH": lambda: read(PROJECTION[:-1]),
    "FILL": lambda: read(PROJECTION[:-1] + b"\1"),
    "RANGE": lambda: write_fields([1025, 256, 0, 0, 0, 0, 0, 0]),
    "ROOM": lambda: check(library().tarnoklej_write_frame(b"", 0, room(5), 5).refusal),
    "KIND": lambda: shift_row(PROJECTION, 2, MIDDLE, 0, 1),
    "COMPONENT": lambda: shift_row(GRID_K, 3, MIDDLE, 0, 1),
    "POSITION": lambda: shift_row(GRID_K, 2, MIDDLE, 0, 0),
    "OFF": lambda: shifts_at(GRID_K, MIDDLE).north,
    "METHOD": lambda: datum_step(Message1021(computation_indicator=3), (0, 0, 0)),
    "ORIGIN": lambda: shifts_at(GRID_K.replace(origin_longitude=None), MIDDLE).height,
    "SPACING": lambda: shifts_at(GRID_K.replace(spacing_north_south=0), MIDDLE).height,
    "OUTSIDE": lambda: shifts_at(GRID_K, (0, 0)).height,
    "ABSENT": lambda: shifts_at(GRID_K.with_node(6, height_residuals=None), MIDDLE).height,
    "FULL": lambda: full_table().store(1, Message1025(sin=20)),
    "NONE": lambda: Table().find(1, 5, 2),
    "TABLE": lambda: write_index(b""),
    "NEED": lambda: find_frame(b"\xd3"),
    "NOFRAME": lambda: find_frame(b"\xd2"),
    "OWNER": lambda: Table().remove(3, 5, 2),
    "INDEX": lambda: index_agrees(bytes(4_224), bytes(127)),
    "NOMEAN": lambda: write_heights(GRID_K, [0] * 15 + [511]),
    "LAYOUT": lambda: check_samples(b"\2"),
    "CLAIM": lambda: check_samples((EXAMPLES / "samples-wrong.bin").read_bytes()),
}


class Met(unittest.TestCase):
    def test_every_refusal(self) -> None:
        self.assertEqual(list(CALLS), [refusal.name for refusal in Refusal])
        for name, call in CALLS.items():
            with self.assertRaises(Refused) as raised:
                call()
            refused = raised.exception
            self.assertEqual((refused.name, refused.number), (name, Refusal[name].value))
            self.assertEqual(refused.words, Refusal[name].words)
            self.assertTrue(str(refused).startswith(f"{name} ({refused.number}): {refused.words}"))
            self.assertEqual(refused.place is None, name not in ("NEED", "CLAIM"))

    def test_it_can_be_copied_and_sent(self) -> None:
        for refused in (Refused(14), Refused(25, 3)):
            for other in (copy.copy(refused), pickle.loads(pickle.dumps(refused))):
                self.assertEqual((other.refusal, other.place), (refused.refusal, refused.place))

    def test_a_number_that_is_none(self) -> None:
        for number in (0, 26, 255):
            with self.assertRaises(ValueError):
                Refused(number)
