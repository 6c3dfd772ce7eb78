"""The tests of the package: python3 -m unittest tests, with this folder's parent on PYTHONPATH."""

from __future__ import annotations

import unittest
from pathlib import Path
from typing import Optional


def load_tests(loader: unittest.TestLoader, tests: unittest.TestSuite, pattern: Optional[str]) -> unittest.TestSuite:
    """All test modules of this folder, also where the folder is named as one package."""
    folder = Path(__file__).resolve().parent
    return loader.discover(str(folder), pattern or "test*.py", str(folder.parent))
