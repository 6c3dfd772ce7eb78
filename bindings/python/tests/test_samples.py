"""Files of sample answers: the second program's files and texts, sound and bad."""

from __future__ import annotations

import subprocess
import tempfile
import unittest
from pathlib import Path
from typing import List, Optional, Tuple

from tarnoklej import Claim, Refusal, Refused, Sample, check_samples, read_samples, write_samples
from tarnoklej.examples import GRID_K

from .asked import asked
from .places import EXAMPLES, SECOND, second, second_lines


def line_of(file: bytes) -> str:
    """What the program samples prints of a file."""
    try:
        return f"accepted {check_samples(file)}"
    except Refused as refused:
        place = "" if refused.place is None else f" {refused.place}"
        return f"refused {refused.number}{place}"


def parsed(text: bytes) -> Optional[Tuple[bytes, List[Sample]]]:
    """The message and the points of a text, None where it is of another form."""
    try:
        first, *rest = text.decode("ascii").rstrip("\n").split("\n")
        return b"" if first == "-" else bytes.fromhex(first), [Sample(*map(int, line.split(" "))) for line in rest]
    except (ValueError, TypeError):
        return None


class Trials(unittest.TestCase):
    def setUp(self) -> None:
        self.folder = tempfile.TemporaryDirectory()
        self.addCleanup(self.folder.cleanup)
        second("samples_trials", self.folder.name)

    def test_files(self) -> None:
        files = sorted(Path(self.folder.name).glob("*.samples"))
        self.assertGreater(len(files), 20)
        for path in [*files, *EXAMPLES.glob("samples*.bin")]:
            data = path.read_bytes()
            self.assertEqual([line_of(data)], second_lines("samples", given=data), path.name)

    def test_texts(self) -> None:
        written = refused = 0
        for path in [*sorted(Path(self.folder.name).glob("*.txt")), EXAMPLES / "samples.txt"]:
            text = path.read_bytes()
            run = subprocess.run([str(SECOND), "write_samples"], input=text, capture_output=True)
            asked_for = parsed(text)
            if run.stderr.startswith(b"bad input") or asked_for is None:
                continue
            refusal, file = asked(write_samples, *asked_for)
            self.assertEqual(b"" if file is not None else b"refused %d\n" % refusal, run.stderr, path.name)
            self.assertEqual(file or b"", run.stdout, path.name)
            written, refused = written + (file is not None), refused + (file is None)
        self.assertGreater(written, 3)
        self.assertGreater(refused, 3)


class Example(unittest.TestCase):
    def test_the_file_of_the_page(self) -> None:
        lines = (EXAMPLES / "samples.expected").read_text().splitlines()
        files = [(EXAMPLES / name).read_bytes() for name in ("samples.bin", "samples-wrong.bin")]
        self.assertEqual([line_of(file) for file in files], lines)
        with self.assertRaises(Refused) as raised:
            check_samples(files[1])
        self.assertEqual((raised.exception.refusal, raised.exception.place), (Refusal.CLAIM, 3))
        self.assertRegex(str(raised.exception), "^CLAIM .*, at 3$")

    def test_the_same_file_is_written(self) -> None:
        message, samples = parsed((EXAMPLES / "samples.txt").read_bytes()) or (b"", [])
        self.assertEqual(write_samples(message, samples), (EXAMPLES / "samples.bin").read_bytes())
        self.assertEqual(write_samples(GRID_K, samples), (EXAMPLES / "samples.bin").read_bytes())

    def test_the_points_are_read(self) -> None:
        message, claims = read_samples((EXAMPLES / "samples-wrong.bin").read_bytes())
        self.assertEqual(message, GRID_K.to_bytes())
        self.assertEqual(claims[2], Claim(2, 1_758_600_000, 401_400_000, 469_359))
        self.assertEqual([claim.count for claim in claims], [469_285, 469_210, 469_359, 469_261, 469_260])
        self.assertEqual(read_samples(b"\1\0\0"), (b"", []))
        self.assertEqual(asked(read_samples, b"\1\0\1")[0], Refusal.LAYOUT)
        numbers = b"".join(number.to_bytes(8, "big", signed=True) for number in (-1, 2 - 2**63, -7))
        self.assertEqual(read_samples(b"\1\0\0\2\0\x19\3" + numbers), (b"", [Claim(3, -1, 2 - 2**63, -7)]))

    def test_ends(self) -> None:
        middle = Sample(2, 1_764_000_000, 396_000_000)
        self.assertEqual(check_samples(write_samples(GRID_K, [middle] * 1_000)), 1_000)
        self.assertEqual(check_samples(write_samples(GRID_K, [])), 0)
        self.assertEqual(asked(write_samples, GRID_K, [middle] * 1_001)[0], Refusal.LENGTH)
        self.assertEqual(asked(write_samples, GRID_K, [Sample(256, 0, 0)])[0], Refusal.COMPONENT)
        self.assertEqual(asked(write_samples, bytes(70_000), [])[0], Refusal.NUMBER)
