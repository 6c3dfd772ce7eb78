"""Which shared object is loaded, and what is said where there is none."""

from __future__ import annotations

import os
import re
import shutil
import subprocess
import sys
import tempfile
import unittest
from pathlib import Path
from typing import Dict, Optional

from tarnoklej import LibraryMissing, find_library
from tarnoklej.library import MAJOR, load

from .places import ROOT, header

PACKAGE = ROOT / "bindings" / "python" / "tarnoklej"
ASK = """
import tarnoklej
print(tarnoklej.find_library()[1])
print(tarnoklej.read(bytes([0x40, 0x10, 0x50]) + bytes(22)).sin)
"""


def loaded_path() -> Path:
    """The shared object of this run."""
    return Path(find_library()[1].split(", ")[0])


class Found(unittest.TestCase):
    """Each run stands in a copy of the package with no repository around it, or with one that was built."""

    def setUp(self) -> None:
        folder = tempfile.TemporaryDirectory()
        self.addCleanup(folder.cleanup)
        self.root = Path(folder.name)
        shutil.copytree(PACKAGE, self.root / "bindings" / "python" / "tarnoklej")
        self.built = self.root / "target" / "targets" / f"{os.uname().machine}-linux-gnu"

    def ask(self, **variables: str) -> "subprocess.CompletedProcess[str]":
        """Runs a script that needs the library, in an environment of few variables."""
        environment: Dict[str, str] = {"PYTHONPATH": str(self.root / "bindings" / "python"), "HOME": str(self.root)}
        environment.update(PATH=os.environ["PATH"], **variables)
        return subprocess.run(
            [sys.executable, "-c", ASK], cwd=self.root, env=environment, capture_output=True, text=True
        )

    def copy_to(self, folder: Path, name: Optional[str] = None) -> Path:
        folder.mkdir(parents=True)
        return Path(shutil.copy(loaded_path(), folder / (name or "libtarnoklej.so")))

    def test_the_order(self) -> None:
        built = self.copy_to(self.built)
        self.assertEqual(self.ask().stdout, f"{built.resolve()}, built in the repository\n5\n")
        prefix = self.copy_to(self.root / ".local" / "lib")
        self.assertEqual(self.ask().stdout, f"{prefix}, installed\n5\n")
        searched = self.copy_to(self.root / "searched", f"libtarnoklej.so.{MAJOR}")
        searching = {"LD_LIBRARY_PATH": str(searched.parent)}
        self.assertEqual(self.ask(**searching).stdout, f"libtarnoklej.so.{MAJOR}, installed\n5\n")
        named = self.copy_to(self.root / "named", "any.so")
        run = self.ask(TARNOKLEJ_LIBRARY=str(named), **searching)
        self.assertEqual(run.stdout, f"{named}, named by TARNOKLEJ_LIBRARY\n5\n")

    def test_another_version_is_not_taken(self) -> None:
        built = self.copy_to(self.built)
        searched = self.root / "searched"
        searched.mkdir()
        other = f"libtarnoklej.so.{MAJOR + 1}"
        command = ["gcc", "-shared", f"-Wl,-soname,{other}", "-x", "c", os.devnull, "-o"]
        subprocess.run([*command, str(searched / other)], check=True)
        (searched / "libtarnoklej.so").symlink_to(other)
        run = self.ask(LD_LIBRARY_PATH=str(searched))
        self.assertEqual(run.stdout, f"{built.resolve()}, built in the repository\n5\n")

    def test_no_library(self) -> None:
        run = self.ask()
        self.assertNotEqual(run.returncode, 0)
        words = "LibraryMissing: .*is not installed.* set TARNOKLEJ_LIBRARY to its path"
        self.assertRegex(run.stderr.splitlines()[-1], words)

    def test_a_wrong_name(self) -> None:
        run = self.ask(TARNOKLEJ_LIBRARY=str(self.root / "none.so"))
        self.assertRegex(run.stderr.splitlines()[-1], "LibraryMissing: .*none.so cannot be loaded")

    def test_importing_needs_no_library(self) -> None:
        environment = {"PYTHONPATH": str(self.root / "bindings" / "python"), "HOME": str(self.root)}
        environment["TARNOKLEJ_LIBRARY"] = str(self.root / "none.so")
        subprocess.run([sys.executable, "-c", "import tarnoklej"], cwd=self.root, env=environment, check=True)


class Wrong(unittest.TestCase):
    def test_another_library(self) -> None:
        with tempfile.TemporaryDirectory() as folder:
            source, other = Path(folder, "other.c"), Path(folder, "other.so")
            source.write_text("int tarnoklej_read(void) { return 0; }\n")
            subprocess.run(["gcc", "-shared", "-fPIC", str(source), "-o", str(other)], check=True)
            with self.assertRaisesRegex(LibraryMissing, "another version: .*tarnoklej_read_fields"):
                load(str(other))
            with self.assertRaisesRegex(LibraryMissing, "cannot be loaded"):
                load(str(source))

    def test_the_version_is_that_of_the_header(self) -> None:
        major = re.search(r"#define TARNOKLEJ_VERSION_MAJOR (\d+)", header())
        assert major
        self.assertEqual(MAJOR, int(major.group(1)))
