"""The script of README.md prints what README.md says, and that is what the second program says."""

from __future__ import annotations

import os
import re
import subprocess
import sys
import unittest
from typing import List

from .places import ROOT, SERVICES, second_lines

README = ROOT / "bindings" / "python" / "README.md"


def block(language: str) -> str:
    """The first block of a language."""
    found = re.search(rf"^```{language}\n(.*?)^```$", README.read_text(encoding="utf-8"), re.DOTALL | re.MULTILINE)
    assert found, f"README.md has no block of {language}"
    return found.group(1)


class Readme(unittest.TestCase):
    def test_the_script_prints_the_output(self) -> None:
        environment = {**os.environ, "PYTHONPATH": str(README.parent)}
        run = subprocess.run([sys.executable, "-c", block("python")], cwd=ROOT, env=environment, stdout=subprocess.PIPE)
        self.assertEqual(run.returncode, 0)
        self.assertEqual(run.stdout.decode(), block("text"))

    def test_the_script_has_ten_lines(self) -> None:
        self.assertEqual(len([line for line in block("python").splitlines() if line]), 10)

    def test_the_output_is_what_the_second_program_says(self) -> None:
        # The place is that of the second call of examples/shift.calls, on system 11's grid; other grids lie elsewhere.
        count, metres = second_lines("example", "examples/shift.calls")[5].split(" ")[1:3]
        self.assertEqual((count, metres), ("469440", "46.9440"))
        expected: List[str] = []
        for line in (SERVICES / "recording.expected").read_text().splitlines():
            words = line.split(" ")
            if words[2] != "1023":
                continue
            answer = f"SIN 11, height {metres} m" if words[3:] == ["sin", "11"] else f"refused {words[4]}"
            expected.append(f"at {words[0]}: " + ("refused 14" if words[3] == "sin" and words[4] != "11" else answer))
        printed = [re.sub(r"(refused \d+) [A-Z]+$", r"\1", line) for line in block("text").splitlines()]
        self.assertEqual(printed, expected)
