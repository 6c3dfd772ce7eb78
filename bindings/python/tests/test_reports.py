"""Reports over the second program's texts."""

from __future__ import annotations

import tempfile
import unittest
from pathlib import Path
from typing import List, Optional, Tuple

from tarnoklej import Position, Refusal, Report, report_points
from tarnoklej.examples import GRID_K

from .asked import asked
from .places import EXAMPLES, second, second_lines


def lines(report: Report) -> List[str]:
    """The 21 numbers as the program report prints them."""
    ends = (report.smallest, report.greatest, report.smallest_place, report.greatest_place)
    refused = [report.refused[Refusal(number)] for number in range(1, 16)]
    return [str(number or 0) for number in (report.answered, *refused, *ends, report.sum)]


def parsed(text: str) -> Tuple[bytes, int, List[Position]]:
    """The message, component and points of a sound text."""
    message, component, *points = text.rstrip("\n").split("\n")
    positions = [Position(*map(int, point.split(" "))) for point in points]
    return b"" if message == "-" else bytes.fromhex(message), int(component), positions


class Texts(unittest.TestCase):
    def compare(self, text: bytes, expected: List[str], name: Optional[str] = None) -> None:
        refusal, report = asked(report_points, *parsed(text.decode()))
        self.assertEqual([f"refused {refusal}"] if report is None else lines(report), expected, name)

    def test_the_example(self) -> None:
        text = (EXAMPLES / "points.txt").read_bytes()
        self.compare(text, (EXAMPLES / "points.expected").read_text().splitlines())
        self.compare(text, second_lines("report", given=text))

    def test_the_second_programs_texts(self) -> None:
        with tempfile.TemporaryDirectory() as folder:
            second("reports", folder)
            texts = [path for path in sorted(Path(folder).iterdir()) if not path.name.startswith("bad-")]
            self.assertGreater(len(texts), 15)
            for path in texts:
                text = path.read_bytes()
                self.compare(text, second_lines("report", given=text), path.name)


class Ends(unittest.TestCase):
    def test_no_point_is_answered(self) -> None:
        report = report_points(GRID_K, 0, [(1_764_000_000, 396_000_000)])
        self.assertEqual((report.answered, report.smallest, report.greatest_place), (0, None, None))
        self.assertEqual(dict(report.refused), {Refusal.OFF: 1})
        self.assertEqual(report_points(b"", 0, []).refused, {})

    def test_refusals(self) -> None:
        points = [Position(0, 0)] * 10_001
        self.assertEqual(report_points(GRID_K, 2, points[1:]).refused[Refusal.OUTSIDE], 10_000)
        self.assertEqual(asked(report_points, GRID_K, 2, points)[0], Refusal.LENGTH)
        self.assertEqual(asked(report_points, GRID_K, 3, points)[0], Refusal.COMPONENT)
        self.assertEqual(asked(report_points, GRID_K, -1, points)[0], Refusal.COMPONENT)
        self.assertEqual(report_points(GRID_K, 2, [(2**80, 0)]).refused[Refusal.POSITION], 1)
