"""Why a call is refused: the refusal numbers of include/tarnoklej.h with their names and words."""

from __future__ import annotations

import enum
from typing import Any, Dict, Optional


class Refusal(enum.IntEnum):
    """A refusal number, with its name and the words of what it means.

    >>> Refusal(14).name
    'OUTSIDE'
    >>> Refusal.OUTSIDE.words
    "the position is not on or within the grid's outer rectangle"
    """

    SHORT = 1
    NUMBER = 2
    LENGTH = 3
    FILL = 4
    RANGE = 5
    ROOM = 6
    KIND = 7
    COMPONENT = 8
    POSITION = 9
    OFF = 10
    METHOD = 11
    ORIGIN = 12
    SPACING = 13
    OUTSIDE = 14
    ABSENT = 15
    FULL = 16
    NONE = 17
    TABLE = 18
    NEED = 19
    NOFRAME = 20
    OWNER = 21
    INDEX = 22
    NOMEAN = 23
    LAYOUT = 24
    CLAIM = 25

    @property
    def words(self) -> str:
        """What the refusal means."""
        return _WORDS[self]

    def __str__(self) -> str:
        return f"{self.name} ({int(self)}): {self.words}"


_WORDS: Dict[Refusal, str] = {
    Refusal.SHORT: "a message of under 2 bytes",
    Refusal.NUMBER: "a message number that is not 1021 to 1027",
    Refusal.LENGTH: (
        "not the length called for, a name counter that cannot be read, or too long for a frame; points of a "
        "report or of sample answers that are too many, or whose counts differ"
    ),
    Refusal.FILL: "a fill bit is set",
    Refusal.RANGE: "a field outside its range or width, or buffers that are no row of a message",
    Refusal.ROOM: (
        "an output shorter than the message, its row or its frame, than a row of shifts, or than a file of "
        "sample answers"
    ),
    Refusal.KIND: "a grid call on a message other than 1023 or 1024, a datum step on another than 1021",
    Refusal.COMPONENT: "a component that is not 0 to 2",
    Refusal.POSITION: (
        "1023: a position beyond +-3,240,000,000 or +-6,480,000,000; 1024: either beyond +-10^12; a row of "
        "shifts of no place or too many, or with a negative step; datum step: one of three beyond +-10^11"
    ),
    Refusal.OFF: "DF190 is 0 (components 0, 1) or DF191 is 0 (component 2)",
    Refusal.METHOD: "DF212 (components 0, 1) or DF213 (component 2) is not 0; datum step: DF150 is not 0",
    Refusal.ORIGIN: "an origin field has no value",
    Refusal.SPACING: "a spacing is 0",
    Refusal.OUTSIDE: "the position is not on or within the grid's outer rectangle",
    Refusal.ABSENT: "the mean, or a node of non-zero weight, or one of DF156 to DF162 has no value",
    Refusal.FULL: "the key is new to the owner, who holds 20 slots or finds no slot free",
    Refusal.NONE: "no such key of the owner, or group not 0 to 2",
    Refusal.TABLE: "the table has a wrong size or is not well formed, see tarnoklej_index_agrees",
    Refusal.NEED: "an unfinished frame calls for bytes that have not arrived",
    Refusal.NOFRAME: "neither a frame nor an unfinished one, or a start past the end",
    Refusal.OWNER: "an owner other than 1 or 2",
    Refusal.INDEX: "the index has a wrong size or does not agree with the table",
    Refusal.NOMEAN: "no mean from which every wanted height is at most 255 mm away",
    Refusal.LAYOUT: "a file of sample answers of another shape",
    Refusal.CLAIM: "a point of a file of sample answers that is refused, or has another count",
}


class Refused(Exception):
    """A call that was refused.

    number, name and words say why. place is given with NEED, where the unfinished frame begins, and with CLAIM,
    which point it is, counted from 1; else it is None.

    >>> from tarnoklej import read
    >>> try:
    ...     read(b"no")
    ... except Refused as refused:
    ...     print(refused.number, refused.name)
    ...     print(refused)
    2 NUMBER
    NUMBER (2): a message number that is not 1021 to 1027
    """

    def __init__(self, refusal: int, place: Optional[int] = None) -> None:
        self.refusal = Refusal(refusal)
        self.place = place
        super().__init__(self.refusal, place)

    @property
    def number(self) -> int:
        """The refusal number."""
        return int(self.refusal)

    @property
    def name(self) -> str:
        """The refusal's name."""
        return self.refusal.name

    @property
    def words(self) -> str:
        """What the refusal means."""
        return self.refusal.words

    def __str__(self) -> str:
        return f"{self.refusal}" if self.place is None else f"{self.refusal}, at {self.place}"

    def __reduce__(self) -> Any:
        return Refused, (int(self.refusal), self.place)


def check(refusal: int, place: Optional[int] = None) -> None:
    """Raises Refused unless the number is 0, which is done."""
    if refusal:
        raise Refused(refusal, place)
