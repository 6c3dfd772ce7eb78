"""Transport frames: byte D3, six zero bits, a ten-bit length, the message, and the CRC-24Q of all these."""

from __future__ import annotations

from dataclasses import dataclass
from typing import Optional, Union

from . import buffers
from .kinds import Message
from .library import library
from .messages import AnyMessage, read_message, to_bytes
from .refusals import Refusal, check
from .sizes import FRAME_HEAD, FRAME_TAIL, MOST_FRAMED


@dataclass(frozen=True)
class Frame:
    """A frame found in a stream."""

    #: The place of the frame's D3, counted from the stream's first byte, which is 0.
    at: int
    #: The message of the frame, of any number.
    message: bytes

    @property
    def data(self) -> bytes:
        """All bytes of the frame."""
        return write_frame(self.message)

    @property
    def end(self) -> int:
        """The place behind the frame's last byte."""
        return self.at + FRAME_HEAD + len(self.message) + FRAME_TAIL

    @property
    def number(self) -> Optional[int]:
        """The message number, its first twelve bits, or None of a message under two bytes."""
        return int.from_bytes(self.message[:2], "big") >> 4 if len(self.message) >= 2 else None

    def read(self) -> Message:
        """The message as the dataclass of its number, see read_message."""
        return read_message(self.message)


@dataclass(frozen=True)
class Outside:
    """Bytes of a stream that belong to no frame."""

    #: The place of the first of them.
    at: int
    #: The bytes.
    data: bytes

    @property
    def end(self) -> int:
        """The place behind the last byte."""
        return self.at + len(self.data)


#: A part of a stream. The parts follow one another without a gap.
Piece = Union[Frame, Outside]


def find_frame(data: buffers.BytesLike, start: int = 0) -> Frame:
    """Gives the first frame at or after a place of a buffer.

    Refusals: NEED, whose place is that of an unfinished frame, where one comes before the first whole one or there is
    no whole one; NOFRAME where there is neither, or the start is past the end.

    >>> find_frame(b"??" + write_frame(bytes.fromhex("3ed0")))
    Frame(at=2, message=b'>\\xd0')
    >>> find_frame(bytes.fromhex("00d30002"))
    Traceback (most recent call last):
    tarnoklej.refusals.Refused: NEED (19): an unfinished frame calls for bytes that have not arrived, at 1
    """
    if start < 0:
        raise ValueError(f"a place is 0 or more, not {start}")
    held = buffers.readable(data)
    found = library().tarnoklej_find_frame(held, len(held), buffers.size(start))
    check(found.refusal, found.at if found.refusal == Refusal.NEED else None)
    first = found.at + FRAME_HEAD
    return Frame(found.at, held[first : first + found.length])


def write_frame(message: AnyMessage) -> bytes:
    """Writes the frame of a message of any number.

    Refusals: LENGTH above 1,023 bytes.

    >>> write_frame(b"").hex()
    'd3000047ea4b'
    """
    data = to_bytes(message)
    out = buffers.room(FRAME_HEAD + min(len(data), MOST_FRAMED) + FRAME_TAIL)
    written = library().tarnoklej_write_frame(data, len(data), out, len(out))
    check(written.refusal)
    return bytes(out[: written.length])
