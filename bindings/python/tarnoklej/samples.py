"""A vendor's sample answers: writing a file of them, and checking one."""

from __future__ import annotations

import struct
from dataclasses import dataclass
from typing import Iterable, List, NamedTuple, Tuple

from . import buffers
from .library import library
from .messages import AnyMessage, to_bytes
from .refusals import Refusal, Refused, check
from .sizes import MOST_SAMPLES, SAMPLE_SIZE, SAMPLES_HEAD


class Sample(NamedTuple):
    """A component asked for at a position, in steps as shifts_at takes it."""

    component: int
    north: int
    east: int


@dataclass(frozen=True)
class Claim:
    """A point of a file of sample answers, with the count that the file claims for it."""

    component: int
    north: int
    east: int
    count: int


# The contents of a point behind its tag and length: component, position north and east, claimed count.
_POINT = struct.Struct(">3xBqqq")


def write_samples(message: AnyMessage, samples: Iterable[Sample]) -> bytes:
    """Writes a file of sample answers: the grid message, and each point with its component's count.

    docs/SAMPLES.md has the form of the file. Refusals in order: SHORT, NUMBER, LENGTH, FILL, RANGE, KIND of the
    message; of the first refused point COMPONENT, POSITION, OFF, METHOD, ORIGIN, SPACING, OUTSIDE, ABSENT; LENGTH above
    1,000 points.

    >>> from tarnoklej.examples import GRID_K
    >>> file = write_samples(GRID_K, [Sample(2, 1_764_000_000, 396_000_000)])
    >>> len(file), int.from_bytes(file[-8:], "big")
    (104, 469285)
    >>> check_samples(file)
    1
    """
    data = to_bytes(message)
    listed = list(samples)
    out = buffers.room(SAMPLES_HEAD + len(data) + SAMPLE_SIZE * min(len(listed), MOST_SAMPLES))
    written = library().tarnoklej_write_samples(
        data,
        len(data),
        *buffers.codes(sample[0] for sample in listed),
        *buffers.numbers(sample[1] for sample in listed),
        *buffers.numbers(sample[2] for sample in listed),
        out,
        len(out),
    )
    check(written.refusal)
    return bytes(out[: written.length])


def check_samples(file: buffers.BytesLike) -> int:
    """Checks a file of sample answers, and gives the number of its points, all of which have the counts they claim.

    Refusals in order: LAYOUT for any other shape; SHORT, NUMBER, LENGTH, FILL, RANGE, KIND of the message; CLAIM, whose
    place is that of the first bad point, counted from 1.

    >>> check_samples(b"")
    Traceback (most recent call last):
    tarnoklej.refusals.Refused: LAYOUT (24): a file of sample answers of another shape
    """
    data = buffers.readable(file)
    checked = library().tarnoklej_check_samples(data, len(data))
    check(checked.refusal, checked.place or None)
    return (len(data) - _message_end(data)) // SAMPLE_SIZE


def read_samples(file: buffers.BytesLike) -> Tuple[bytes, List[Claim]]:
    """Gives the grid message and the points of a file of sample answers, right or wrong, as check_samples counts them.

    Refusals: LAYOUT for any other shape.

    >>> from tarnoklej.examples import GRID_K
    >>> message, claims = read_samples(write_samples(GRID_K, [Sample(2, 1_764_000_000, 396_000_000)]))
    >>> claims[0].count
    469285
    """
    data = buffers.readable(file)
    try:
        check_samples(data)
    except Refused as refused:
        if refused.refusal == Refusal.LAYOUT:
            raise
    end = _message_end(data)
    return data[SAMPLES_HEAD:end], [Claim(*_POINT.unpack_from(data, at)) for at in range(end, len(data), SAMPLE_SIZE)]


def _message_end(file: bytes) -> int:
    """The place behind the message of a file of the right shape."""
    return SAMPLES_HEAD + int.from_bytes(file[1:SAMPLES_HEAD], "big")
