"""Shifts: document 01's worked numbers, and the C example's calls."""

from __future__ import annotations

import unittest
from typing import List

from tarnoklej import Component, Message1021, Position, Refusal, Refused, Shift, Shifts, read, shift_row, shifts_at
from tarnoklej.examples import GRID_K

from .asked import asked
from .places import EXAMPLES, ROOT, second_lines

MIDDLE = Position(1_764_000_000, 396_000_000)
NODE_1 = Position(1_769_400_000, 390_600_000)
NODE_6 = Position(1_765_800_000, 394_200_000)
NODE_16 = Position(1_758_600_000, 401_400_000)
NEGATED = GRID_K.replace(height_residuals=tuple(-node for node in range(1, 17)))
WITHOUT_NODE_7 = GRID_K.with_node(7, height_residuals=None)


def east_of(position: Position, steps: int) -> Position:
    return Position(position.north, position.east + steps)


class Papers(unittest.TestCase):
    """Document 01, numbers worked out."""

    def height(self, grid: object, position: Position) -> int:
        return shifts_at(grid, position).height.count  # type: ignore[arg-type]

    def refused(self, grid: object, position: Position, component: int = 2) -> str:
        with self.assertRaises(Refused) as raised:
            shifts_at(grid, position)[component]  # type: ignore[arg-type]
        return raised.exception.name

    def test_p1_to_p6(self) -> None:
        self.assertEqual(self.height(GRID_K, MIDDLE), 469_285)
        self.assertEqual(self.height(GRID_K, NODE_1), 469_210)
        self.assertEqual(self.refused(GRID_K, Position(NODE_1.north + 1, NODE_1.east)), "OUTSIDE")
        self.assertEqual(self.height(GRID_K, NODE_16), 469_360)
        self.assertEqual(self.height(GRID_K, east_of(NODE_6, 180_000)), 469_261)
        self.assertEqual(self.height(GRID_K, east_of(NODE_6, 179_999)), 469_260)

    def test_p7_to_p9(self) -> None:
        self.assertEqual(self.height(NEGATED, east_of(NODE_6, 180_000)), 469_139)
        self.assertEqual(self.height(WITHOUT_NODE_7, NODE_6), 469_260)
        self.assertEqual(self.refused(WITHOUT_NODE_7, east_of(NODE_6, 1)), "ABSENT")

    def test_p10_and_p11(self) -> None:
        self.assertEqual(self.refused(GRID_K, MIDDLE, 0), "OFF")
        self.assertEqual(self.refused(GRID_K.replace(spacing_east_west=0), MIDDLE), "SPACING")
        self.assertEqual(self.refused(GRID_K.replace(spacing_north_south=0), MIDDLE), "SPACING")

    def test_p12_and_what_is_run(self) -> None:
        message = Message1021().to_bytes()
        self.assertEqual((len(message), read(message).number), (52, 1021))
        self.assertEqual(asked(read, message + b"\0")[0], Refusal.LENGTH)
        self.assertEqual(asked(read, message[:-1] + b"\1")[0], Refusal.FILL)
        for latitude, refusal in ((162_000, 0), (None, 0), (162_001, 5), (-262_144, 5)):
            self.assertEqual(asked(Message1021(validity_latitude=latitude).to_bytes)[0], refusal, latitude)

    def test_the_same_as_metres(self) -> None:
        middle = shifts_at(GRID_K, MIDDLE)
        self.assertEqual(middle.height, Shift(469_285, 46.9285, "m"))
        self.assertEqual(str(middle.height), "46.9285 m")
        self.assertEqual(str(Shift(-7, -0.00007, "arc seconds").exact), "-0.00007")

    def test_other_refusals(self) -> None:
        cases = {
            Refusal.SHORT: b"\x3f",
            Refusal.KIND: Message1021(),
            Refusal.METHOD: GRID_K.replace(vertical_method=1),
            Refusal.ORIGIN: GRID_K.replace(origin_latitude=None),
            Refusal.ABSENT: GRID_K.replace(mean_height=None),
        }
        for refusal, grid in cases.items():
            self.assertEqual(self.refused(grid, MIDDLE), refusal.name)
        self.assertEqual(self.refused(GRID_K, Position(3_240_000_001, 0)), "POSITION")

    def test_numbers_past_64_bits_are_refused_and_others_are_type_errors(self) -> None:
        for far in (2**63, -(2**63) - 1, 2**64, 10**30):
            self.assertEqual(self.refused(GRID_K, Position(far, 0)), "POSITION")
            self.assertEqual(self.refused(GRID_K, Position(0, far)), "POSITION")
            self.assertEqual(asked(shift_row, GRID_K, 2, (0, far), 0, 1)[0], Refusal.POSITION)
            self.assertEqual(asked(GRID_K.replace(mean_height=far).to_bytes)[0], Refusal.RANGE)
        self.assertEqual(asked(shift_row, GRID_K, 2, MIDDLE, 2**64 + 1, 2)[0], Refusal.POSITION)
        self.assertEqual(asked(shift_row, GRID_K, 256, MIDDLE, 1, 2)[0], Refusal.COMPONENT)
        self.assertEqual(asked(shift_row, GRID_K, 2, MIDDLE, 1, 2**64 + 1)[0], Refusal.POSITION)
        self.assertEqual(asked(shift_row, GRID_K, 2, MIDDLE, 1, -1)[0], Refusal.POSITION)
        with self.assertRaises(TypeError):
            shifts_at(GRID_K, (1764000000.0, 396000000))  # type: ignore[arg-type]
        with self.assertRaises(TypeError):
            GRID_K.replace(mean_height=4692.5).to_bytes()
        with self.assertRaises(TypeError):
            shifts_at("3ff0", MIDDLE)  # type: ignore[arg-type]

    def test_parts(self) -> None:
        middle = shifts_at(GRID_K, MIDDLE)
        self.assertIsNone(middle.get(Component.NORTH_SOUTH))
        self.assertEqual(middle.refusal(Component.EAST_WEST), Refusal.OFF)
        self.assertIsNone(middle.refusal(Component.HEIGHT))
        self.assertEqual(middle, shifts_at(GRID_K.to_bytes(), MIDDLE))
        self.assertEqual(len({middle, shifts_at(bytearray(GRID_K.to_bytes()), MIDDLE)}), 1)
        self.assertNotEqual(middle, shifts_at(GRID_K, NODE_1))
        with self.assertRaises(ValueError):
            middle[3]


class Rows(unittest.TestCase):
    def test_a_row_is_the_shifts_at_its_places(self) -> None:
        row = shift_row(GRID_K, Component.HEIGHT, NODE_1, 360_000, 31)
        self.assertEqual((row[0], row[10], row[30]), (469_210, 469_220, 469_240))
        places = [east_of(NODE_1, 360_000 * place) for place in range(31)]
        self.assertEqual(row, [shifts_at(GRID_K, place).height.count for place in places])
        self.assertEqual(asked(shift_row, GRID_K, Component.HEIGHT, NODE_1, 360_000, 32)[0], Refusal.OUTSIDE)

    def test_the_longest_row(self) -> None:
        self.assertEqual(shift_row(GRID_K, 2, MIDDLE, 0, 4_096), [469_285] * 4_096)
        self.assertEqual(asked(shift_row, GRID_K, 2, MIDDLE, 0, 4_097)[0], Refusal.POSITION)
        self.assertEqual(asked(shift_row, GRID_K, 2, MIDDLE, -1, 2)[0], Refusal.POSITION)


class Example(unittest.TestCase):
    """The calls of the C example, at positions given as decimal texts."""

    names = ("north-south", "east-west", "height")

    def lines(self, shifts: Shifts) -> List[str]:
        printed = []
        for component, name in enumerate(self.names):
            part, refusal = shifts.get(component), shifts.refusal(component)
            if part is None:
                printed.append(f"{name} refused {refusal.name if refusal else ''}")
            else:
                places = 5 if part.unit == "arc seconds" else 4
                self.assertEqual(f"{part.value:.{places}f}", str(part.exact))
                printed.append(f"{name} {part.count} {part.exact} {part.unit}")
        return printed

    def test_every_call(self) -> None:
        printed = []
        for call in (EXAMPLES / "shift.calls").read_text().splitlines():
            name, north, east = call.split(" ")
            message = (ROOT / name).read_bytes()[:128]
            refusal, header = asked(read, message)
            degrees = header is not None and header.number == 1023
            position = Position.from_degrees(north, east) if degrees else Position.from_metres(north, east)
            printed += self.lines(shifts_at(message, position))
        self.assertEqual(printed, second_lines("example", "examples/shift.calls"))
