"""The worked examples of the docstrings."""

from __future__ import annotations

import doctest
import importlib
import pkgutil
import unittest
from typing import Optional

import tarnoklej


def load_tests(loader: unittest.TestLoader, tests: unittest.TestSuite, pattern: Optional[str]) -> unittest.TestSuite:
    """The examples of every module of the package."""
    tests.addTests(doctest.DocTestSuite(tarnoklej))
    for module in pkgutil.iter_modules(tarnoklej.__path__, "tarnoklej."):
        tests.addTests(doctest.DocTestSuite(importlib.import_module(module.name)))
    return tests
