"""RTCM messages 1021 to 1027, and transport frames, for scripts: Tarnoklej's calls by ctypes over its shared object.

A refused call raises Refused, with number, name and words. A field that is not available is None.
The shared object is the one that the environment variable TARNOKLEJ_LIBRARY names, else an installed one, else the one
that the repository builds; it is loaded at the first call.

>>> from tarnoklej import Position, read_message, shifts_at
>>> grid = bytes.fromhex(
...     "3ff074ac44009ab016816800001254000000200000080000018000004000000a0000018000"
...     "003800000800000120000028000005800000c000001a0000038000007800001000000000"
... )
>>> read_message(grid).scaled("mean_height")
Decimal('46.92')
>>> print(shifts_at(grid, Position.from_degrees("49", "11")).height)
46.9285 m
"""

from .datum import datum_step
from .decimals import Number
from .fields import FIELDS, Field
from .frames import Frame, Outside, Piece, find_frame, write_frame
from .heights import height_grid, millimetres, write_heights
from .kinds import NODES, Message
from .library import LibraryMissing, find_library
from .messages import (
    MESSAGES,
    Message1021,
    Message1022,
    Message1023,
    Message1024,
    Message1025,
    Message1026,
    Message1027,
    read_message,
)
from .positions import Geocentric, Position, steps_from_degrees
from .refusals import Refusal, Refused
from .reports import Report, report_points
from .rows import Header, read, read_fields, write_fields
from .samples import Claim, Sample, check_samples, read_samples, write_samples
from .shifts import Component, Shift, Shifts, shift_row, shifts_at
from .streams import FrameReader, frames, pieces
from .table import Table
from .table_calls import Found, Group, find, index_agrees, remove, store, write_index
from .table_file import kept_table, read_table

__all__ = [
    "FIELDS",
    "MESSAGES",
    "NODES",
    "Claim",
    "Component",
    "Field",
    "Found",
    "Frame",
    "FrameReader",
    "Geocentric",
    "Group",
    "Header",
    "LibraryMissing",
    "Message",
    "Message1021",
    "Message1022",
    "Message1023",
    "Message1024",
    "Message1025",
    "Message1026",
    "Message1027",
    "Number",
    "Outside",
    "Piece",
    "Position",
    "Refusal",
    "Refused",
    "Report",
    "Sample",
    "Shift",
    "Shifts",
    "Table",
    "check_samples",
    "datum_step",
    "find",
    "find_frame",
    "find_library",
    "frames",
    "height_grid",
    "index_agrees",
    "kept_table",
    "millimetres",
    "pieces",
    "read",
    "read_fields",
    "read_message",
    "read_samples",
    "read_table",
    "remove",
    "report_points",
    "shift_row",
    "shifts_at",
    "steps_from_degrees",
    "store",
    "write_fields",
    "write_frame",
    "write_heights",
    "write_index",
    "write_samples",
]
