"""Where the repository's files stand, and what the second program says."""

from __future__ import annotations

import functools
import subprocess
from pathlib import Path
from typing import List

ROOT = Path(__file__).resolve().parents[3]
HEADER = ROOT / "include" / "tarnoklej.h"
EXAMPLES = ROOT / "examples"
SERVICES = ROOT / "services"
SECOND = ROOT / "second" / "target" / "release" / "second"


def second(*arguments: str, given: bytes = b"") -> bytes:
    """What the second program prints on standard output, run in the repository's root."""
    run = subprocess.run([str(SECOND), *arguments], input=given, capture_output=True, cwd=ROOT)
    if run.returncode != 0:
        raise AssertionError(f"second {' '.join(arguments)} failed: {run.stderr.decode()}")
    return run.stdout


def second_lines(*arguments: str, given: bytes = b"") -> List[str]:
    """The lines that the second program prints."""
    return second(*arguments, given=given).decode().splitlines()


@functools.lru_cache(maxsize=None)
def header() -> str:
    """The text of the C header."""
    return HEADER.read_text(encoding="utf-8")


def message_files() -> List[Path]:
    """The messages of the examples and of the services, sound and damaged."""
    return sorted([*EXAMPLES.glob("*.rtcm"), *SERVICES.glob("*/*.rtcm")])
