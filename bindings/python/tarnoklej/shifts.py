"""The shifts of a grid message, 1023 or 1024, at one position and along a row of positions."""

from __future__ import annotations

import enum
from dataclasses import dataclass
from decimal import Decimal
from typing import Any, List, Optional, Tuple

from . import buffers
from .library import library
from .messages import AnyMessage, to_bytes
from .positions import AnyPosition
from .refusals import Refusal, Refused, check
from .sizes import MOST_PLACES


class Component(enum.IntEnum):
    """The components of a shift."""

    #: Counts of 0.00001 arc second (1023) or 0.1 mm (1024).
    NORTH_SOUTH = 0
    #: Counts of 0.00001 arc second (1023) or 0.1 mm (1024).
    EAST_WEST = 1
    #: Counts of 0.1 mm.
    HEIGHT = 2


ARC_SECONDS = "arc seconds"
METRES = "m"
# The units by their numbers in an answer, where 0 is that of a refused part.
_UNITS = {1: ARC_SECONDS, 2: METRES}
# The decimal places of a count in each unit.
_PLACES = {ARC_SECONDS: 5, METRES: 4}


@dataclass(frozen=True)
class Shift:
    """One component's shift at a position."""

    #: The shift in whole counts.
    count: int
    #: The shift in its unit, as a float: the count divided once.
    value: float
    #: "arc seconds" or "m".
    unit: str

    @property
    def exact(self) -> Decimal:
        """The shift in its unit without rounding.

        >>> Shift(469_285, 46.9285, "m").exact
        Decimal('46.9285')
        """
        return Decimal((int(self.count < 0), tuple(map(int, str(abs(self.count)))), -_PLACES[self.unit]))

    def __str__(self) -> str:
        return f"{self.exact} {self.unit}"


class Shifts:
    """The shifts at a position: north, east and height, each answered or refused for itself.

    Where a part is refused, asking for it raises Refused; get gives None instead, and refusal says why.
    """

    def __init__(self, parts: Tuple[Optional[Shift], ...], refusals: Tuple[Optional[Refusal], ...]) -> None:
        self._parts = parts
        self._refusals = refusals

    def __getitem__(self, component: int) -> Shift:
        part, refusal = self.get(component), self.refusal(component)
        if refusal is not None or part is None:
            raise Refused(refusal or Refusal.COMPONENT)
        return part

    @property
    def north(self) -> Shift:
        """The shift north-south."""
        return self[Component.NORTH_SOUTH]

    @property
    def east(self) -> Shift:
        """The shift east-west."""
        return self[Component.EAST_WEST]

    @property
    def height(self) -> Shift:
        """The shift of the height. A height is corrected by subtracting it."""
        return self[Component.HEIGHT]

    def get(self, component: int) -> Optional[Shift]:
        """A component's shift, None where it is refused."""
        return self._parts[Component(component)]

    def refusal(self, component: int) -> Optional[Refusal]:
        """Why a component is refused, None where it is answered."""
        return self._refusals[Component(component)]

    def __eq__(self, other: object) -> bool:
        return isinstance(other, Shifts) and (self._parts, self._refusals) == (other._parts, other._refusals)

    def __hash__(self) -> int:
        return hash((self._parts, self._refusals))

    def __repr__(self) -> str:
        shown = (
            f"{name}=<{part}>" if part else f"{name}=<refused {refusal.name if refusal else ''}>"
            for name, part, refusal in zip(("north", "east", "height"), self._parts, self._refusals)
        )
        return f"Shifts({', '.join(shown)})"


def shifts_at(message: AnyMessage, position: AnyPosition) -> Shifts:
    """Gives the shifts of a grid message, 1023 or 1024, at a position in the system of the grid.

    Refusals in order, for each part: SHORT, NUMBER, LENGTH, FILL, RANGE, KIND, POSITION, OFF, METHOD, ORIGIN, SPACING,
    OUTSIDE, ABSENT. The call itself raises none of them; asking for a refused part does.

    Document 01's grid K holds heights alone:

    >>> from tarnoklej import Position
    >>> from tarnoklej.examples import GRID_K
    >>> middle = shifts_at(GRID_K, Position.from_degrees("49", "11"))
    >>> middle.height
    Shift(count=469285, value=46.9285, unit='m')
    >>> middle
    Shifts(north=<refused OFF>, east=<refused OFF>, height=<46.9285 m>)
    >>> middle.north
    Traceback (most recent call last):
    tarnoklej.refusals.Refused: OFF (10): DF190 is 0 (components 0, 1) or DF191 is 0 (component 2)
    """
    data = to_bytes(message)
    at = library().tarnoklej_shifts_at(data, len(data), *position_numbers(position))
    parts = (
        _part(at.north_refusal, at.north_count, at.north, at.north_unit),
        _part(at.east_refusal, at.east_count, at.east, at.east_unit),
        _part(at.height_refusal, at.height_count, at.height, at.height_unit),
    )
    refusals = (at.north_refusal, at.east_refusal, at.height_refusal)
    return Shifts(parts, tuple(Refusal(number) if number else None for number in refusals))


def _part(refusal: int, count: int, value: float, unit: int) -> Optional[Shift]:
    return None if refusal else Shift(count, value, _UNITS[unit])


def shift_row(message: AnyMessage, component: int, start: AnyPosition, step: int, count: int) -> List[int]:
    """Gives one component's counts at count places: the first at a position, each next one step further east.

    Each is that component's count of shifts_at at its place. A row has 1 to 4,096 places and a step of 0 or more.
    Refusals in order: SHORT, NUMBER, LENGTH, FILL, RANGE, KIND, COMPONENT; POSITION for a bad count, a negative step or
    a place past the limits; OFF, METHOD, ORIGIN, SPACING, OUTSIDE, ABSENT of the first place refused.

    Grid K from node 6 by twentieths of the way to node 7:

    >>> from tarnoklej.examples import GRID_K
    >>> shift_row(GRID_K, Component.HEIGHT, (1_765_800_000, 394_200_000), 180_000, 4)
    [469260, 469261, 469261, 469262]
    """
    data = to_bytes(message)
    north, east = position_numbers(start)
    places = buffers.size(count)
    held = min(places, MOST_PLACES)
    row = buffers.room_for_numbers(held)
    check(
        library().tarnoklej_shift_row(
            data, len(data), buffers.code(component), north, east, buffers.whole(step), places, row, held
        )
    )
    return list(row)


def position_numbers(position: Any) -> Tuple[int, int]:
    """A position as the numbers that a call takes."""
    north, east = position
    return buffers.whole(north), buffers.whole(east)
