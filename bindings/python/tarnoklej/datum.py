"""The datum step: from a position in the source datum of a message 1021 to the one in its target datum."""

from __future__ import annotations

from typing import Tuple, Union

from . import buffers
from .library import library
from .messages import AnyMessage, to_bytes
from .positions import Geocentric
from .refusals import check


def datum_step(message: AnyMessage, position: Union[Geocentric, Tuple[int, int, int]]) -> Geocentric:
    """Gives the position in the target datum of a message 1021 by its linear seven-parameter step, DF150 being 0.

    A position is geocentric, in whole units of 0.1 mm. Each coordinate answered lies within one unit of the exact one.
    The signs are those of the standard's formula 3.5-1 (coordinate frame rotation, EPSG method 9607).
    Refusals in order: SHORT, NUMBER, LENGTH, FILL, RANGE, KIND, POSITION beyond +-10^11, METHOD, ABSENT.

    598.1 m, 73.7 m and 418.2 m, 0.202, 0.045 and -2.455 arc seconds, and 6.7 ppm, shown to the centimetre:

    >>> from tarnoklej import Message1021
    >>> message = Message1021(
    ...     translation_x=598_100,
    ...     translation_y=73_700,
    ...     translation_z=418_200,
    ...     rotation_x=10_100,
    ...     rotation_y=2_250,
    ...     rotation_z=-122_750,
    ...     scale_correction=670_000,
    ... )
    >>> target = datum_step(message, Geocentric.from_metres("4149871.2345", "798541.2345", "4789325.6789"))
    >>> [f"{metres:.2f}" for metres in target.in_metres()]
    ['4150486.59', '798674.37', '4789776.09']
    """
    data = to_bytes(message)
    x, y, z = position
    target = library().tarnoklej_datum_step(data, len(data), buffers.whole(x), buffers.whole(y), buffers.whole(z))
    check(target.refusal)
    return Geocentric(target.x, target.y, target.z)
