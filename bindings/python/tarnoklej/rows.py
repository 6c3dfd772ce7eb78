"""Messages as rows: the fields in wire order, DF002 first, None for one that is not available."""

from __future__ import annotations

from dataclasses import dataclass
from typing import List, Optional, Sequence

from . import buffers
from .library import library
from .refusals import check
from .sizes import MOST_BYTES, MOST_FIELDS


@dataclass(frozen=True)
class Header:
    """What stands at the head of an accepted message."""

    #: The message number, DF002.
    number: int
    #: The length in bytes.
    length: int
    #: The system identification number, DF147.
    sin: int


def read(message: buffers.BytesLike) -> Header:
    """Gives number, length and system identification number of a message after all of its fields are checked.

    Refusals in order: SHORT, NUMBER, LENGTH, FILL, RANGE.

    >>> read(bytes([0x40, 0x10, 0x50]) + bytes(22))
    Header(number=1025, length=25, sin=5)
    """
    data = buffers.readable(message)
    header = library().tarnoklej_read(data, len(data))
    check(header.refusal)
    return Header(header.number, header.length, header.sin)


def read_fields(message: buffers.BytesLike) -> List[Optional[int]]:
    """Gives the row of a message, as include/tarnoklej.h lists its positions.

    Refusals in order: SHORT, NUMBER, LENGTH, FILL, RANGE.

    >>> read_fields(bytes([0x40, 0x10, 0x50]) + bytes(22))
    [1025, 5, 0, 0, 0, 0, 0, 0]
    """
    data = buffers.readable(message)
    values, present = buffers.room_for_numbers(MOST_FIELDS), buffers.room(MOST_FIELDS)
    check(library().tarnoklej_read_fields(data, len(data), values, MOST_FIELDS, present, MOST_FIELDS))
    return [values[place] if present[place] else None for place in range(_count(values))]


def _count(values: Sequence[int]) -> int:
    """The count of fields of an accepted message, whose values are given."""
    if values[0] in (1021, 1022):
        names = values[1] + values[2 + values[1]]
        return names + (25 if values[0] == 1021 else 28)
    return {1023: 64, 1024: 64, 1025: 8, 1026: 9, 1027: 11}[values[0]]


def write_fields(fields: Sequence[Optional[int]]) -> bytes:
    """Writes the message of a row.

    Refusals: RANGE, for fields that are no row of a message, a None in a field that always has a value, and a value
    outside its field's range, the pattern that is sent for None included.

    >>> write_fields([1025, 5, 0, 0, 0, 0, 0, 0]).hex()
    '40105000000000000000000000000000000000000000000000'
    """
    out = buffers.room(MOST_BYTES)
    written = library().tarnoklej_write_fields(*buffers.row(fields), out, MOST_BYTES)
    check(written.refusal)
    return bytes(out[: written.length])
