"""Python's numbers and bytes as the buffers that a call takes."""

from __future__ import annotations

import ctypes
import mmap
import operator
from typing import Any, Iterable, Optional, Sequence, Tuple, Union

from .abi import I64, U8

#: What a call takes for bytes that it only reads.
BytesLike = Union[bytes, bytearray, memoryview, mmap.mmap]

_LEAST, _GREATEST = -(2**63), 2**63 - 1
_MOST_SIZE: int = ctypes.c_size_t(-1).value


def readable(data: BytesLike) -> bytes:
    """The bytes of a buffer; TypeError for anything else, a text or a number included."""
    return data if type(data) is bytes else bytes(memoryview(data))


def writable(data: Any) -> Any:
    """A buffer that a call may change, which is the one given and no copy; TypeError where it cannot be written."""
    view = memoryview(data).cast("B")
    return (U8 * len(view)).from_buffer(view)


def whole(number: Any) -> int:
    """A whole number that a call takes in 64 bits, that is as it is or the nearest one.

    Every number past 64 bits is refused by the calls as the nearest one within is.
    """
    return max(_LEAST, min(_GREATEST, operator.index(number)))


def code(number: Any) -> int:
    """A component, an owner or a group in a byte, 255 for every number that is none."""
    value: int = operator.index(number)
    return value if 0 <= value <= 255 else 255


def size(number: Any) -> int:
    """A count or a place as a size_t, 0 for a negative one."""
    return max(0, min(_MOST_SIZE, operator.index(number)))


def numbers(values: Iterable[Any]) -> Tuple[Any, int]:
    """A buffer of whole numbers, and its count."""
    listed = [whole(value) for value in values]
    return (I64 * len(listed))(*listed), len(listed)


def codes(values: Iterable[Any]) -> Tuple[Any, int]:
    """A buffer of components in bytes, and its count."""
    listed = [code(value) for value in values]
    return (U8 * len(listed))(*listed), len(listed)


def row(fields: Sequence[Optional[int]]) -> Tuple[Any, int, Any, int]:
    """The two buffers of a row, values and present, each with its count."""
    values, count = numbers(0 if field is None else field for field in fields)
    present = (U8 * count)(*[field is not None for field in fields])
    return values, count, present, count


def room(length: int) -> Any:
    """A buffer of bytes for an answer."""
    return (U8 * length)()


def room_for_numbers(length: int) -> Any:
    """A buffer of whole numbers for an answer."""
    return (I64 * length)()
