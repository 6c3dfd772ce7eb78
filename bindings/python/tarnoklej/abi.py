"""The structs and calls of include/tarnoklej.h as ctypes has them, from one table each."""

from __future__ import annotations

import ctypes
from typing import Any, Dict, Tuple, Type

U8 = ctypes.c_uint8
U16 = ctypes.c_uint16
U64 = ctypes.c_uint64
I64 = ctypes.c_int64
SIZE = ctypes.c_size_t
REAL = ctypes.c_double

# Bytes that a call only reads: a `bytes` object, which is never a null pointer.
READ_BYTES = ctypes.c_char_p
# Buffers that are ctypes arrays.
BYTES = ctypes.POINTER(ctypes.c_uint8)
NUMBERS = ctypes.POINTER(ctypes.c_int64)

# The members of each struct, in the order of the header.
STRUCTS: Dict[str, Tuple[Tuple[str, Any], ...]] = {
    "tarnoklej_header": (("refusal", U8), ("number", U16), ("sin", U8), ("length", SIZE)),
    "tarnoklej_written": (("refusal", U8), ("length", SIZE)),
    "tarnoklej_found": (("refusal", U8), ("at", SIZE), ("length", SIZE), ("probes", U8)),
    "tarnoklej_frame": (("refusal", U8), ("at", SIZE), ("length", SIZE)),
    "tarnoklej_position": (("refusal", U8), ("x", I64), ("y", I64), ("z", I64)),
    "tarnoklej_report": (
        ("refusal", U8),
        ("answered", U64),
        ("refused", U64 * 15),
        ("smallest", I64),
        ("greatest", I64),
        ("smallest_place", U64),
        ("greatest_place", U64),
        ("sum", I64),
    ),
    "tarnoklej_checked": (("refusal", U8), ("place", SIZE)),
    "tarnoklej_shifts": (
        ("north", REAL),
        ("east", REAL),
        ("height", REAL),
        ("north_count", I64),
        ("east_count", I64),
        ("height_count", I64),
        ("north_refusal", U8),
        ("east_refusal", U8),
        ("height_refusal", U8),
        ("north_unit", U8),
        ("east_unit", U8),
        ("height_unit", U8),
    ),
}


def _struct(name: str) -> Type[ctypes.Structure]:
    """The ctypes struct of a name of the table."""
    return type(name, (ctypes.Structure,), {"_fields_": list(STRUCTS[name])})


TYPES: Dict[str, Type[ctypes.Structure]] = {name: _struct(name) for name in STRUCTS}

_TABLE_IN = (READ_BYTES, SIZE, READ_BYTES, SIZE)
_TABLE_OUT = (BYTES, SIZE, BYTES, SIZE)
_ROW_IN = (NUMBERS, SIZE, BYTES, SIZE)

# What each call gives, a struct by its name or a refusal number, and what it takes.
CALLS: Dict[str, Tuple[Any, Tuple[Any, ...]]] = {
    "tarnoklej_read": ("tarnoklej_header", (READ_BYTES, SIZE)),
    "tarnoklej_read_fields": (U8, (READ_BYTES, SIZE) + _ROW_IN),
    "tarnoklej_write_fields": ("tarnoklej_written", _ROW_IN + (BYTES, SIZE)),
    "tarnoklej_shifts_at": ("tarnoklej_shifts", (READ_BYTES, SIZE, I64, I64)),
    "tarnoklej_shift_row": (U8, (READ_BYTES, SIZE, U8, I64, I64, I64, SIZE, NUMBERS, SIZE)),
    "tarnoklej_find_frame": ("tarnoklej_frame", (READ_BYTES, SIZE, SIZE)),
    "tarnoklej_write_frame": ("tarnoklej_written", (READ_BYTES, SIZE, BYTES, SIZE)),
    "tarnoklej_index_agrees": (U8, _TABLE_IN),
    "tarnoklej_index_write": (U8, (READ_BYTES, SIZE, BYTES, SIZE)),
    "tarnoklej_store": (U8, _TABLE_OUT + (U8, READ_BYTES, SIZE)),
    "tarnoklej_find": ("tarnoklej_found", _TABLE_IN + (U8, U8, U8)),
    "tarnoklej_remove": (U8, _TABLE_OUT + (U8, U8, U8)),
    "tarnoklej_datum_step": ("tarnoklej_position", (READ_BYTES, SIZE, I64, I64, I64)),
    "tarnoklej_write_heights": ("tarnoklej_written", _ROW_IN + (NUMBERS, SIZE, BYTES, SIZE)),
    "tarnoklej_report_points": ("tarnoklej_report", (READ_BYTES, SIZE, U8, NUMBERS, SIZE, NUMBERS, SIZE)),
    "tarnoklej_write_samples": (
        "tarnoklej_written",
        (READ_BYTES, SIZE, BYTES, SIZE, NUMBERS, SIZE, NUMBERS, SIZE, BYTES, SIZE),
    ),
    "tarnoklej_check_samples": ("tarnoklej_checked", (READ_BYTES, SIZE)),
}


def declare(library: ctypes.CDLL) -> None:
    """Tells ctypes what each call takes and gives; AttributeError names a call that the library lacks."""
    for name, (answer, arguments) in CALLS.items():
        call = getattr(library, name)
        call.restype = TYPES[answer] if isinstance(answer, str) else answer
        call.argtypes = list(arguments)
