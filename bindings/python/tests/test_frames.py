"""Frames of recorded and of live streams."""

from __future__ import annotations

import io
import os
import socket
import threading
import unittest
from typing import Any, Iterator, List

from tarnoklej import Frame, FrameReader, Message1025, Outside, Refused, find_frame, frames, pieces, read, write_frame

from .asked import asked
from .places import SERVICES, second_lines

RECORDING = SERVICES / "recording.rtcm"


def listing(found: List[Any]) -> List[str]:
    """The pieces of a stream as the program frames prints them."""
    lines, inside, outside = [], 0, 0
    for piece in found:
        if isinstance(piece, Outside):
            outside += len(piece.data)
            continue
        inside += 1
        line = f"{piece.at} {len(piece.message)} {'-' if piece.number is None else piece.number}"
        if piece.number in range(1021, 1028):
            refusal, header = asked(read, piece.message)
            line += f" refused {refusal}" if header is None else f" sin {header.sin}"
        lines.append(line)
    return [*lines, f"{inside} frames, {outside} bytes outside frames"]


def in_chunks(data: bytes, size: int) -> Iterator[bytes]:
    return (data[at : at + size] for at in range(0, len(data), size))


class Recorded(unittest.TestCase):
    def setUp(self) -> None:
        self.stream = RECORDING.read_bytes()
        self.expected = (SERVICES / "recording.expected").read_text().splitlines()

    def test_the_recording(self) -> None:
        self.assertEqual(self.expected, second_lines("frames", given=self.stream))
        with open(RECORDING, "rb") as file:
            self.assertEqual(listing(list(pieces(file))), self.expected)
        with open(RECORDING, "rb", buffering=0) as file:
            self.assertEqual(listing(list(pieces(file))), self.expected)
        self.assertEqual(listing(list(pieces(self.stream))), self.expected)

    def test_chunks_of_any_size(self) -> None:
        for size in (1, 2, 3, 7, 97, 1_029, 5_000):
            found = list(pieces(in_chunks(self.stream, size)))
            self.assertEqual(listing(found), self.expected, size)

    def test_pieces_follow_one_another_without_a_gap(self) -> None:
        for size in (1, 50, len(self.stream)):
            found = list(pieces(in_chunks(self.stream, size)))
            self.assertEqual(b"".join(piece.data for piece in found), self.stream)
            self.assertEqual([piece.end for piece in found][:-1], [piece.at for piece in found][1:])
            self.assertEqual(found[0].at, 0)

    def test_recordings_cut_anywhere(self) -> None:
        for length in range(1, len(self.stream), 397):
            stream = self.stream[:length]
            expected = second_lines("frames", given=stream)
            self.assertEqual(listing(list(pieces(io.BytesIO(stream)))), expected, length)
            self.assertEqual(listing(list(pieces(in_chunks(stream, 11)))), expected, length)

    def test_many_false_preambles(self) -> None:
        stream = b"\xd3\x03" * 4_000
        self.assertEqual(listing(list(pieces(io.BytesIO(stream)))), second_lines("frames", given=stream))
        self.assertEqual(listing(list(pieces(b""))), second_lines("frames"))

    def test_services_in_frames_are_read(self) -> None:
        numbers = {frame.read().number for frame in frames(self.stream) if asked(frame.read)[0] == 0}
        self.assertEqual(numbers, set(range(1021, 1028)))


class Live(unittest.TestCase):
    """Each frame is given as soon as its last byte has arrived."""

    first, then = write_frame(Message1025(sin=5)), write_frame(b"\x3e\xd0")

    def check(self, source: Any, send: Any, close: Any) -> None:
        found = frames(source)
        send(b"$GPGGA,1\r\n" + self.first)
        frame = self.before_the_end(found, close)
        self.assertEqual((frame.at, frame.read()), (10, Message1025(sin=5)))
        send(self.then[:4])
        late = threading.Timer(0.05, send, (self.then[4:],))
        late.start()
        self.assertEqual(self.before_the_end(found, close).message, b"\x3e\xd0")
        late.join()
        close()
        self.assertEqual(list(found), [])

    def before_the_end(self, found: Iterator[Frame], close: Any) -> Frame:
        """The next frame, which must come while the stream is open; it is closed if none comes."""
        ended = threading.Event()

        def end() -> None:
            ended.set()
            close()

        guard = threading.Timer(20, end)
        guard.start()
        frame = next(found)
        guard.cancel()
        self.assertFalse(ended.is_set(), "the frame was held back")
        return frame

    def test_pipe(self) -> None:
        reading, writing = os.pipe()
        with open(reading, "rb") as file:
            self.check(file, lambda data: os.write(writing, data), lambda: os.close(writing))

    def test_raw_pipe(self) -> None:
        reading, writing = os.pipe()
        with open(reading, "rb", buffering=0) as file:
            self.check(file, lambda data: os.write(writing, data), lambda: os.close(writing))

    def test_socket(self) -> None:
        ours, theirs = socket.socketpair()
        with ours, ours.makefile("rb") as file:
            self.check(file, theirs.sendall, theirs.close)

    def test_bytes_outside_are_given_before_the_next_frame_arrives(self) -> None:
        reader = FrameReader()
        self.assertEqual(reader.feed(b"abc"), [Outside(0, b"abc")])
        self.assertEqual(reader.feed(self.then[:5]), [])
        self.assertEqual(reader.held, self.then[:5])
        self.assertEqual(reader.feed(self.then[5:] + b"x"), [Frame(3, b"\x3e\xd0"), Outside(11, b"x")])
        self.assertEqual(reader.held, b"")
        self.assertEqual(reader.end(), [])

    def test_a_frame_behind_a_false_preamble_is_found_at_the_end(self) -> None:
        reader = FrameReader()
        self.assertEqual(reader.feed(b"\xd3\x03\xff" + self.then), [])
        self.assertEqual(reader.end(), [Outside(0, b"\xd3\x03\xff"), Frame(3, b"\x3e\xd0")])
        self.assertEqual(reader.held, b"")


class Wrong(unittest.TestCase):
    def test_text_files_and_files_that_do_not_wait(self) -> None:
        with self.assertRaisesRegex(TypeError, "open for text"):
            list(frames(io.StringIO("text")))
        for buffering in (0, -1):
            reading, writing = os.pipe()
            os.set_blocking(reading, False)
            with open(reading, "rb", buffering) as file, self.assertRaisesRegex(BlockingIOError, "FrameReader"):
                list(frames(file))
            os.close(writing)
        for name in ("recording.rtcm", RECORDING):
            with self.assertRaisesRegex(TypeError, "open .*recording.rtcm' with mode 'rb'"):
                list(frames(name))

    def test_places(self) -> None:
        with self.assertRaises(ValueError):
            find_frame(b"", -1)
        self.assertEqual(asked(find_frame, b"", 2**70)[0], 20)
        with self.assertRaises(Refused) as raised:
            find_frame(b"\x00\xd3")
        self.assertEqual((raised.exception.name, raised.exception.place), ("NEED", 1))

    def test_lengths(self) -> None:
        self.assertEqual(len(write_frame(bytes(1_023))), 1_029)
        self.assertEqual(asked(write_frame, bytes(1_024))[0], 3)
        with self.assertRaises(TypeError):
            write_frame("text")  # type: ignore[arg-type]
        self.assertIsNone(Frame(0, b"\x3f").number)
