"""The calls on a table and its index as two buffers: bytearrays, shared memory, or bytes where nothing is written."""

from __future__ import annotations

import ctypes
import enum
import operator
from dataclasses import dataclass
from typing import Any, Tuple

from . import buffers
from .kinds import Message
from .library import library
from .messages import AnyMessage, read_message, to_bytes
from .refusals import check
from .sizes import INDEX_SIZE

# A group that no key has.
_NO_GROUP = 255


class Group(enum.IntEnum):
    """The groups of a table's keys."""

    #: 1021 and 1022.
    TRANSFORMATION = 0
    #: 1023 and 1024.
    GRID = 1
    #: 1025, 1026 and 1027.
    PROJECTION = 2


@dataclass(frozen=True)
class Found:
    """A message found in a table."""

    #: The place of the message's first byte in the table.
    at: int
    #: The message's bytes.
    message: bytes
    #: How many entries of the index were looked at, 1 to 6.
    probes: int

    def read(self) -> Message:
        """The message as the dataclass of its number."""
        return read_message(self.message)


def index_agrees(table: buffers.BytesLike, index: buffers.BytesLike) -> None:
    """Says that a table and an index agree, by returning. Refusals in order: TABLE, INDEX.

    >>> index_agrees(bytes(4224), bytes(128))
    """
    held, beside = buffers.readable(table), buffers.readable(index)
    check(library().tarnoklej_index_agrees(held, len(held), beside, len(beside)))


def write_index(table: buffers.BytesLike) -> bytes:
    """Writes the index of a table. Refusals: TABLE.

    >>> write_index(bytes(4224)) == bytes(128)
    True
    """
    held = buffers.readable(table)
    index = buffers.room(INDEX_SIZE)
    check(library().tarnoklej_index_write(held, len(held), index, INDEX_SIZE))
    return bytes(index)


def store(table: Any, index: Any, owner: int, message: AnyMessage) -> None:
    """Stores an owner's message under its key in buffers that can be written.

    Refusals in order: TABLE, INDEX where the two do not agree, OWNER, SHORT, NUMBER, LENGTH, FILL, RANGE, FULL where
    the key is new to the owner, who holds 20 slots or finds no slot free. With a refusal both buffers stay as they
    were.

    >>> table, index = bytearray(4224), bytearray(128)
    >>> store(table, index, 2, bytes.fromhex("401050") + bytes(22))
    >>> table[:5].hex(), index[:5].hex()
    ('0219401050', '0205020000')
    """
    data = to_bytes(message)
    check(library().tarnoklej_store(*_apart(table, index), buffers.code(owner), data, len(data)))


def find(table: buffers.BytesLike, index: buffers.BytesLike, owner: int, sin: int, group: int) -> Found:
    """Gives the message of an owner's key, and does not ask whether table and index agree.

    Refusals in order: TABLE and INDEX for a wrong size, OWNER, NONE, INDEX where the entry is not true to its slot.

    >>> table, index = bytearray(4224), bytearray(128)
    >>> store(table, index, 2, bytes.fromhex("401050") + bytes(22))
    >>> find(table, index, 2, 5, Group.PROJECTION).at
    2
    """
    held, beside = buffers.readable(table), buffers.readable(index)
    found = library().tarnoklej_find(held, len(held), beside, len(beside), buffers.code(owner), *_key(sin, group))
    check(found.refusal)
    return Found(found.at, held[found.at : found.at + found.length], found.probes)


def remove(table: Any, index: Any, owner: int, sin: int, group: int) -> None:
    """Removes the message of an owner's key from buffers that can be written.

    Refusals in order: TABLE, INDEX where the two do not agree, OWNER, NONE. With a refusal both buffers stay as they
    were.

    >>> table, index = bytearray(4224), bytearray(128)
    >>> store(table, index, 2, bytes.fromhex("401050") + bytes(22))
    >>> remove(table, index, 2, 5, Group.PROJECTION)
    >>> any(table), any(index)
    (False, False)
    """
    check(library().tarnoklej_remove(*_apart(table, index), buffers.code(owner), *_key(sin, group)))


def _apart(table: Any, index: Any) -> Tuple[Any, int, Any, int]:
    """Two buffers that a call may change, each with its size; ValueError where they share bytes."""
    held, beside = buffers.writable(table), buffers.writable(index)
    first, then = sorted((held, beside), key=ctypes.addressof)
    if len(beside) and ctypes.addressof(first) + len(first) > ctypes.addressof(then):
        raise ValueError("table and index share bytes")
    return held, len(held), beside, len(beside)


def _key(sin: int, group: int) -> Tuple[int, int]:
    """A key's numbers in bytes; no key has a system identification number of more than a byte."""
    number = operator.index(sin)
    return (number, buffers.code(group)) if 0 <= number <= 255 else (0, _NO_GROUP)
