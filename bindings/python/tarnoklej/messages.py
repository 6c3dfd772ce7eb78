"""Messages 1021 to 1027, each a dataclass, and reading and writing them."""

from __future__ import annotations

from dataclasses import dataclass
from typing import ClassVar, Dict, Optional, Tuple, Type, Union

from . import buffers
from .kinds import Message, Nodes, name, nodes, single
from .rows import read_fields


@dataclass(frozen=True)
class Message1021(Message):
    """A Helmert or abridged Molodenski transformation."""

    number: ClassVar[int] = 1021

    source_name: str = name(144)
    target_name: str = name(146)
    sin: int = single(147)
    utilized_messages: int = single(148)
    plate_number: int = single(149)
    computation_indicator: int = single(150)
    height_indicator: int = single(151)
    validity_latitude: Optional[int] = single(152)
    validity_longitude: Optional[int] = single(153)
    validity_north_south: int = single(154)
    validity_east_west: int = single(155)
    translation_x: Optional[int] = single(156)
    translation_y: Optional[int] = single(157)
    translation_z: Optional[int] = single(158)
    rotation_x: Optional[int] = single(159)
    rotation_y: Optional[int] = single(160)
    rotation_z: Optional[int] = single(161)
    scale_correction: Optional[int] = single(162)
    source_semi_major: int = single(166)
    source_semi_minor: int = single(167)
    target_semi_major: int = single(168)
    target_semi_minor: int = single(169)
    horizontal_quality: int = single(214)
    vertical_quality: int = single(215)


@dataclass(frozen=True)
class Message1022(Message):
    """A Molodenski-Badekas transformation, which turns about a point."""

    number: ClassVar[int] = 1022

    source_name: str = name(144)
    target_name: str = name(146)
    sin: int = single(147)
    utilized_messages: int = single(148)
    plate_number: int = single(149)
    computation_indicator: int = single(150)
    height_indicator: int = single(151)
    validity_latitude: Optional[int] = single(152)
    validity_longitude: Optional[int] = single(153)
    validity_north_south: int = single(154)
    validity_east_west: int = single(155)
    translation_x: Optional[int] = single(156)
    translation_y: Optional[int] = single(157)
    translation_z: Optional[int] = single(158)
    rotation_x: Optional[int] = single(159)
    rotation_y: Optional[int] = single(160)
    rotation_z: Optional[int] = single(161)
    scale_correction: Optional[int] = single(162)
    rotation_point_x: Optional[int] = single(163)
    rotation_point_y: Optional[int] = single(164)
    rotation_point_z: Optional[int] = single(165)
    source_semi_major: int = single(166)
    source_semi_minor: int = single(167)
    target_semi_major: int = single(168)
    target_semi_minor: int = single(169)
    horizontal_quality: int = single(214)
    vertical_quality: int = single(215)


@dataclass(frozen=True)
class Message1023(Message):
    """A grid of residuals in arc seconds. The origin is its middle; the spacing is that of neighbouring nodes.

    Document 01's grid K, around 49 degrees north and 11 degrees east, with heights alone:

    >>> grid = Message1023(
    ...     sin=7,
    ...     vertical_shift=1,
    ...     origin_latitude=352_800,
    ...     origin_longitude=79_200,
    ...     spacing_north_south=720,
    ...     spacing_east_west=720,
    ...     mean_height=4_692,
    ...     height_residuals=tuple(range(1, 17)),
    ... )
    >>> len(grid.to_bytes())
    73
    """

    number: ClassVar[int] = 1023

    sin: int = single(147)
    horizontal_shift: int = single(190)
    vertical_shift: int = single(191)
    origin_latitude: Optional[int] = single(192)
    origin_longitude: Optional[int] = single(193)
    spacing_north_south: int = single(194)
    spacing_east_west: int = single(195)
    mean_latitude: Optional[int] = single(196)
    mean_longitude: Optional[int] = single(197)
    mean_height: Optional[int] = single(198)
    latitude_residuals: Nodes = nodes(199)
    longitude_residuals: Nodes = nodes(200)
    height_residuals: Nodes = nodes(201)
    horizontal_method: int = single(212)
    vertical_method: int = single(213)
    horizontal_quality: int = single(216)
    vertical_quality: int = single(217)
    modified_julian_day: int = single(51)


@dataclass(frozen=True)
class Message1024(Message):
    """A grid of residuals in metres. The origin is its middle; the spacing is that of neighbouring nodes."""

    number: ClassVar[int] = 1024

    sin: int = single(147)
    horizontal_shift: int = single(190)
    vertical_shift: int = single(191)
    origin_northing: Optional[int] = single(202)
    origin_easting: int = single(203)
    spacing_north_south: int = single(204)
    spacing_east_west: int = single(205)
    mean_northing: Optional[int] = single(206)
    mean_easting: Optional[int] = single(207)
    mean_height: Optional[int] = single(208)
    northing_residuals: Nodes = nodes(209)
    easting_residuals: Nodes = nodes(210)
    height_residuals: Nodes = nodes(211)
    horizontal_method: int = single(212)
    vertical_method: int = single(213)
    horizontal_quality: int = single(216)
    vertical_quality: int = single(217)
    modified_julian_day: int = single(51)


@dataclass(frozen=True)
class Message1025(Message):
    """A projection of one natural origin, such as Transverse Mercator."""

    number: ClassVar[int] = 1025

    sin: int = single(147)
    projection_type: int = single(170)
    origin_latitude: Optional[int] = single(171)
    origin_longitude: Optional[int] = single(172)
    scale_factor: int = single(173)
    false_easting: int = single(174)
    false_northing: Optional[int] = single(175)


@dataclass(frozen=True)
class Message1026(Message):
    """A Lambert projection of two standard parallels."""

    number: ClassVar[int] = 1026

    sin: int = single(147)
    projection_type: int = single(170)
    origin_latitude: Optional[int] = single(176)
    origin_longitude: Optional[int] = single(177)
    standard_parallel_1: Optional[int] = single(178)
    standard_parallel_2: Optional[int] = single(179)
    origin_easting: int = single(180)
    origin_northing: Optional[int] = single(181)


@dataclass(frozen=True)
class Message1027(Message):
    """An Oblique Mercator projection."""

    number: ClassVar[int] = 1027

    sin: int = single(147)
    projection_type: int = single(170)
    rectification: int = single(182)
    center_latitude: Optional[int] = single(183)
    center_longitude: Optional[int] = single(184)
    azimuth: int = single(185)
    rectified_to_skew: Optional[int] = single(186)
    scale_factor: int = single(187)
    center_easting: int = single(188)
    center_northing: Optional[int] = single(189)


_KINDS: Tuple[Type[Message], ...] = (
    Message1021,
    Message1022,
    Message1023,
    Message1024,
    Message1025,
    Message1026,
    Message1027,
)

#: The dataclass of each message number.
MESSAGES: Dict[int, Type[Message]] = {kind.number: kind for kind in _KINDS}

#: What a call takes for a message: its bytes without a frame, or the message itself, which is then written.
AnyMessage = Union[buffers.BytesLike, Message]


def read_message(message: buffers.BytesLike) -> Message:
    """Reads a message without a frame as the dataclass of its number.

    Refusals in order: SHORT, NUMBER, LENGTH, FILL, RANGE.

    >>> message = read_message(bytes([0x40, 0x10, 0x50]) + bytes(22))
    >>> type(message).__name__, message.sin
    ('Message1025', 5)
    """
    row = read_fields(message)
    return MESSAGES[row[0] or 0].from_row(row)


def to_bytes(message: AnyMessage) -> bytes:
    """The bytes of a message, which is written first where it is a dataclass."""
    return message.to_bytes() if isinstance(message, Message) else buffers.readable(message)
