"""Finding and writing frames answers as the second program does, case by case."""

from __future__ import annotations

import unittest

from tarnoklej import Refused, find_frame, write_frame
from tarnoklej.buffers import room
from tarnoklej.library import library

from . import vectors
from .asked import asked

FILLED = 0xA5


class Frames(unittest.TestCase):
    def test_find(self) -> None:
        for case in vectors.of("frame"):
            try:
                frame = find_frame(vectors.unhex(case.arguments[1]), int(case.arguments[0]))
                answer = [0, frame.at, len(frame.message)]
            except Refused as refused:
                answer = [refused.number, refused.place or 0, 0]
            self.assertEqual(answer, [int(word) for word in case.answer], case.name)

    def test_write(self) -> None:
        for case in vectors.of("enframe"):
            length, message = int(case.arguments[0]), vectors.unhex(case.arguments[1])
            self.low_level(case, length, message)
            if case.answer[0] != "6":
                refusal, frame = asked(write_frame, message)
                self.assertEqual(str(refusal), case.answer[0], case.name)
                written = vectors.unhex(case.parts[0])[: int(case.answer[1])]
                self.assertEqual(frame, None if refusal else written, case.name)

    def low_level(self, case: vectors.Case, length: int, message: bytes) -> None:
        out = room(length)
        out[:] = [FILLED] * length
        written = library().tarnoklej_write_frame(message, len(message), out, length)
        self.assertEqual([str(written.refusal), str(written.length)], case.answer, case.name)
        self.assertEqual(bytes(out), vectors.unhex(case.parts[0]), case.name)
