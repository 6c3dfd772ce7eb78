"""Streams of frames, recorded or live: files, pipes, sockets, or bytes as they arrive."""

from __future__ import annotations

import os
from typing import Any, Iterable, Iterator, List

from . import buffers
from .frames import Frame, Outside, Piece, find_frame
from .refusals import Refusal, Refused

#: The bytes that are asked for at once of a file.
CHUNK = 65_536


class FrameReader:
    """Takes a stream apart as its bytes arrive, in chunks of any size.

    >>> from tarnoklej import write_frame
    >>> frame = write_frame(bytes.fromhex("3ed0"))
    >>> reader = FrameReader()
    >>> reader.feed(b"$GP" + frame[:4])
    [Outside(at=0, data=b'$GP')]
    >>> reader.feed(frame[4:])
    [Frame(at=3, message=b'>\\xd0')]
    """

    def __init__(self) -> None:
        self._held = b""
        self._at = 0

    @property
    def held(self) -> bytes:
        """The bytes that wait for the rest of a frame."""
        return self._held

    def feed(self, chunk: buffers.BytesLike) -> List[Piece]:
        """The pieces that are whole with a chunk of bytes; an unfinished frame waits for the next."""
        self._held += buffers.readable(chunk)
        return self._pieces(ended=False)

    def end(self) -> List[Piece]:
        """The pieces that are left where no more bytes arrive: what waited was no frame, but one may be in it."""
        return self._pieces(ended=True)

    def _pieces(self, ended: bool) -> List[Piece]:
        pieces: List[Piece] = []
        done, start = 0, 0
        while True:
            try:
                frame = find_frame(self._held, start)
            except Refused as refused:
                if refused.refusal == Refusal.NEED and ended:
                    start = (refused.place or 0) + 1
                    continue
                stop = len(self._held) if refused.place is None else refused.place
                self._outside(pieces, done, stop)
                break
            self._outside(pieces, done, frame.at)
            pieces.append(Frame(self._at + frame.at, frame.message))
            done = start = frame.end
        self._at += stop
        self._held = self._held[stop:]
        return pieces

    def _outside(self, pieces: List[Piece], first: int, behind: int) -> None:
        if first < behind:
            pieces.append(Outside(self._at + first, self._held[first:behind]))


def pieces(source: Any) -> Iterator[Piece]:
    """Gives the frames of a stream, and the bytes outside of frames, in order and without a gap.

    The source is a file that is open for reading bytes, a pipe, a serial device or a socket's file too, or an iterable
    of chunks of bytes, or bytes themselves. Pieces are given as soon as their bytes have arrived.
    A false D3 before a frame, with a length of up to 1,023 bytes, holds it up until so many bytes have arrived.

    >>> from tarnoklej import write_frame
    >>> list(pieces([b"$GPGGA", write_frame(b""), b"$GPGSV"]))
    [Outside(at=0, data=b'$GPGGA'), Frame(at=6, message=b''), Outside(at=12, data=b'$GPGSV')]
    """
    reader = FrameReader()
    for chunk in _chunks(source):
        yield from reader.feed(chunk)
    yield from reader.end()


def frames(source: Any) -> Iterator[Frame]:
    """Gives the frames of a stream, see pieces.

    >>> import io
    >>> from tarnoklej import write_frame
    >>> stream = b"noise" + write_frame(bytes.fromhex("3ed0")) + write_frame(bytes.fromhex("3ff010"))
    >>> [(frame.at, frame.number) for frame in frames(io.BytesIO(stream))]
    [(5, 1005), (13, 1023)]
    """
    return (piece for piece in pieces(source) if isinstance(piece, Frame))


def _chunks(source: Any) -> Iterable[buffers.BytesLike]:
    """The bytes of a source as they arrive."""
    if isinstance(source, (bytes, bytearray, memoryview)):
        return [source]
    if isinstance(source, (str, os.PathLike)):
        raise TypeError(f"a name is no stream: open {os.fspath(source)!r} with mode 'rb'")
    return _read_chunks(source) if hasattr(source, "read") else iter(source)


def _read_chunks(file: Any) -> Iterator[bytes]:
    """The bytes of a file: read1 gives what has arrived, where read would wait for more."""
    take = getattr(file, "read1", file.read)
    if not _waits(file):
        raise BlockingIOError("the file does not wait for bytes: hand them to a FrameReader as they arrive")
    while True:
        chunk = take(CHUNK)
        if isinstance(chunk, str):
            raise TypeError("the file is open for text: open it for bytes, with mode 'rb'")
        if not chunk:
            return
        yield chunk


def _waits(file: Any) -> bool:
    """Whether reading a file waits until bytes have arrived; one that does not gives none, as at a stream's end."""
    try:
        return os.get_blocking(file.fileno())
    except (AttributeError, OSError, ValueError):
        return True
