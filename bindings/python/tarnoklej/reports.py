"""The report of one component over many points."""

from __future__ import annotations

from collections import Counter
from dataclasses import dataclass
from typing import Counter as CounterOf
from typing import Iterable, Optional

from . import buffers
from .library import library
from .messages import AnyMessage, to_bytes
from .positions import AnyPosition
from .refusals import Refusal, check


@dataclass(frozen=True)
class Report:
    """The numbers of one component over many points. Where no point is answered, smallest and greatest are None."""

    #: Points answered.
    answered: int
    #: Points refused, by refusal.
    refused: CounterOf[Refusal]
    #: The smallest and the greatest count.
    smallest: Optional[int]
    greatest: Optional[int]
    #: The first places of these, counted from 1.
    smallest_place: Optional[int]
    greatest_place: Optional[int]
    #: The sum of the counts.
    sum: int


def report_points(message: AnyMessage, component: int, points: Iterable[AnyPosition]) -> Report:
    """Gives the numbers of one component over at most 10,000 points.

    Each point is answered or refused as that component's part of shifts_at there; a message that is refused is counted
    at each point. Refusals in order: COMPONENT, LENGTH above 10,000 points.

    Document 01's P1 to P4 on grid K, of which P3 lies one step outside:

    >>> from tarnoklej.examples import GRID_K
    >>> points = [
    ...     (1_764_000_000, 396_000_000),
    ...     (1_769_400_000, 390_600_000),
    ...     (1_769_400_001, 390_600_000),
    ...     (1_758_600_000, 401_400_000),
    ... ]
    >>> report = report_points(GRID_K, 2, points)
    >>> report.answered, report.refused[Refusal.OUTSIDE], report.smallest, report.greatest
    (3, 1, 469210, 469360)
    """
    data = to_bytes(message)
    listed = list(points)
    north, north_count = buffers.numbers(point[0] for point in listed)
    east, east_count = buffers.numbers(point[1] for point in listed)
    report = library().tarnoklej_report_points(
        data, len(data), buffers.code(component), north, north_count, east, east_count
    )
    check(report.refusal)
    some = report.answered > 0
    return Report(
        answered=report.answered,
        refused=Counter({Refusal(place + 1): points for place, points in enumerate(report.refused) if points}),
        smallest=report.smallest if some else None,
        greatest=report.greatest if some else None,
        smallest_place=report.smallest_place if some else None,
        greatest_place=report.greatest_place if some else None,
        sum=report.sum,
    )
