"""The package as it is packed and read: the wheel, and the syntax of the oldest Python."""

from __future__ import annotations

import ast
import os
import subprocess
import sys
import tempfile
import unittest
import zipfile
from pathlib import Path

from tarnoklej import find_library

from .places import ROOT

FOLDER = ROOT / "bindings" / "python"
OLDEST = (3, 9)
ASK = "import tarnoklej; print(tarnoklej.__file__); print(tarnoklej.read(bytes([0x40, 0x10, 0x50]) + bytes(22)).sin)"
BUILD = "import sys, wheel_backend; print(wheel_backend.build_wheel(sys.argv[1]))"


class Wheel(unittest.TestCase):
    def setUp(self) -> None:
        folder = tempfile.TemporaryDirectory()
        self.addCleanup(folder.cleanup)
        self.folder = folder.name

    def build(self) -> Path:
        command = [sys.executable, "-c", BUILD, self.folder]
        run = subprocess.run(command, cwd=FOLDER, stdout=subprocess.PIPE, text=True, check=True)
        return Path(self.folder, run.stdout.strip())

    def test_the_wheel_holds_the_package_and_runs(self) -> None:
        wheel = self.build()
        version = (ROOT / "VERSION").read_text().strip()
        self.assertEqual(wheel.name, f"tarnoklej-{version}-py3-none-any.whl")
        with zipfile.ZipFile(wheel) as packed:
            self.assertIsNone(packed.testzip())
            names = set(packed.namelist())
            listed = packed.read(f"tarnoklej-{version}.dist-info/RECORD").decode().splitlines()
        self.assertEqual(names, {line.split(",")[0] for line in listed})
        sources = {f"tarnoklej/{path.name}" for path in (FOLDER / "tarnoklej").glob("*.py")}
        self.assertTrue(sources | {"tarnoklej/py.typed"} <= names)
        library = find_library()[1].split(", ")[0]
        environment = {"PYTHONPATH": str(wheel), "TARNOKLEJ_LIBRARY": library, "PATH": os.environ["PATH"]}
        run = subprocess.run(
            [sys.executable, "-c", ASK], cwd=self.folder, env=environment, stdout=subprocess.PIPE, text=True, check=True
        )
        self.assertEqual(run.stdout, f"{wheel}{os.sep}tarnoklej{os.sep}__init__.py\n5\n")

    def test_the_same_package_is_the_same_wheel(self) -> None:
        first = self.build().read_bytes()
        self.assertEqual(self.build().read_bytes(), first)


class Syntax(unittest.TestCase):
    def test_the_oldest_python_reads_every_file(self) -> None:
        files = [path for path in FOLDER.rglob("*.py")]
        self.assertGreater(len(files), 30)
        for path in files:
            ast.parse(path.read_text(encoding="utf-8"), str(path), feature_version=OLDEST)
