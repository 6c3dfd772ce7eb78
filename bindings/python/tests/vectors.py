"""The second program's vectors of the exported calls and its cases of records, whose forms second/VECTORS.md gives."""

from __future__ import annotations

import functools
import tempfile
from pathlib import Path
from typing import List, NamedTuple, Optional, Sequence, Tuple

from .places import second

# The fewest vectors that there are of a kind.
FEWEST = {
    "read": 3_812,
    "write": 3_976,
    "shift": 4_893,
    "store": 1_912,
    "find": 1_673,
    "frame": 1_051,
    "row": 4_366,
    "heights": 362,
}


class Case(NamedTuple):
    """One case: its name, the call, its arguments, and the words and parts of the answer."""

    name: str
    command: str
    arguments: List[str]
    answer: List[str]
    parts: List[str]


@functools.lru_cache(maxsize=None)
def cases() -> Tuple[Case, ...]:
    """All cases in order, those of the exported calls first."""
    return (*_written_by("calls"), *_written_by("vectors"))


def _written_by(command: str) -> List[Case]:
    with tempfile.TemporaryDirectory() as folder:
        second(command, folder)
        given, expected = (Path(folder, name).read_text().splitlines() for name in ("stdin", "stdout"))
    assert len(given) == len(expected), f"{len(given)} lines of {command} have {len(expected)} answers"
    return [_case(line, answer) for line, answer in zip(given, expected)]


def of(*commands: str) -> List[Case]:
    """The cases of some commands in order."""
    chosen = [case for case in cases() if case.command in commands]
    for command in commands:
        count = sum(case.command == command for case in chosen)
        assert count >= FEWEST.get(command, 1), f"{count} cases of {command}"
    return chosen


def _case(line: str, answer: str) -> Case:
    name, command, *arguments = line.split(" ")
    words, *parts = answer.split(" : ")
    answered, *rest = words.split(" ")
    assert answered == name, f"{name} is answered by {answered}"
    return Case(name, command, arguments, rest, parts)


def unhex(word: str) -> bytes:
    """The bytes of a word, `-` for none."""
    return b"" if word == "-" else bytes.fromhex(word)


def row_of(values: Sequence[int], present: bytes) -> Optional[List[Optional[int]]]:
    """The row of two buffers, None where they are none that Python's form of a row can hold."""
    fits = len(values) == len(present) and all(byte <= 1 for byte in present)
    if not fits or any(value and not byte for value, byte in zip(values, present)):
        return None
    return [value if byte else None for value, byte in zip(values, present)]
