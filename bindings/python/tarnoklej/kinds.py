"""What all messages have in common: their fields with DF numbers, and the way to a row and back."""

from __future__ import annotations

import dataclasses
import itertools
from decimal import Decimal
from typing import Any, ClassVar, Dict, Iterator, List, Optional, Sequence, Tuple, Type, TypeVar, Union

from .fields import FIELDS, Field
from .rows import write_fields

#: Nodes of a grid.
NODES = 16
#: One number for each node of a grid, node 1 first: rows from the north, each from west to east.
Nodes = Tuple[Optional[int], ...]

_Message = TypeVar("_Message", bound="Message")


def single(df: int) -> Any:
    """A dataclass field that is one data field."""
    return dataclasses.field(default=0, metadata={"df": FIELDS[df]})


def nodes(df: int) -> Any:
    """A dataclass field that is a data field of sixteen nodes."""
    return dataclasses.field(default=(0,) * NODES, metadata={"df": FIELDS[df], "nodes": True})


def name(df: int) -> Any:
    """A dataclass field that is the characters of a name; its counter stands before them on the wire."""
    return dataclasses.field(default="", metadata={"df": FIELDS[df], "name": True})


class Message:
    """A message of any kind. Its attributes are in wire order, and each is a whole number of its field's resolution.

    None is a field that is not available. A field that is not given when a message is made is 0, a name is empty.
    """

    #: The message number, DF002.
    number: ClassVar[int]
    #: The system identification number, DF147.
    sin: int

    @classmethod
    def fields(cls) -> Dict[str, Field]:
        """The data field behind each attribute, in wire order.

        >>> from tarnoklej import Message1025
        >>> [(name, field.df, field.unit) for name, field in Message1025.fields().items()][:3]
        [('sin', 147, ''), ('projection_type', 170, ''), ('origin_latitude', 171, 'degree')]
        """
        return {field.name: field.metadata["df"] for field in _attributes(cls)}

    def scaled(self, attribute: str) -> Union[Decimal, None, Tuple[Optional[Decimal], ...]]:
        """An attribute in its field's unit, exactly: a Decimal, None, or sixteen of these for nodes.

        >>> from tarnoklej import Message1023
        >>> Message1023(mean_height=4692).scaled("mean_height")
        Decimal('46.92')
        """
        field, value = self.fields()[attribute], getattr(self, attribute)
        if isinstance(value, str):
            raise TypeError(f"{attribute} is a name")
        return tuple(map(field.scaled, value)) if isinstance(value, tuple) else field.scaled(value)

    @classmethod
    def from_scaled(cls: Type[_Message], exact: bool = True, **values: Any) -> _Message:
        """The message of values in their fields' units: numbers or decimal texts, None, or sixteen of these for nodes.

        A value between two steps of its field is a ValueError, or the nearest step where exact is False.

        >>> from tarnoklej import Message1023
        >>> Message1023.from_scaled(origin_latitude=49 * 3600, mean_height="46.92").mean_height
        4692
        """
        fields = cls.fields()

        def steps(attribute: str, value: Any) -> Any:
            if fields[attribute].type == "char8":
                return value
            if isinstance(value, (tuple, list)):
                return tuple(fields[attribute].steps(number, exact) for number in value)
            return fields[attribute].steps(value, exact)

        return cls(**{attribute: steps(attribute, value) for attribute, value in values.items()})

    def replace(self: _Message, **changes: Any) -> _Message:
        """The same message with other values of some attributes.

        >>> from tarnoklej import Message1025
        >>> Message1025(sin=5).replace(false_northing=None).false_northing is None
        True
        """
        return dataclasses.replace(self, **changes)

    def with_node(self: _Message, node: int, **changes: Optional[int]) -> _Message:
        """The same grid with other residuals at one node, 1 to 16.

        >>> from tarnoklej import Message1023
        >>> Message1023().with_node(7, height_residuals=None).height_residuals[5:8]
        (0, None, 0)
        """
        if not 1 <= node <= NODES:
            raise ValueError(f"a grid has nodes 1 to {NODES}, not {node}")
        rows = {attribute: list(getattr(self, attribute)) for attribute in changes}
        for attribute, value in changes.items():
            rows[attribute][node - 1] = value
        return self.replace(**{attribute: tuple(row) for attribute, row in rows.items()})

    def row(self) -> List[Optional[int]]:
        """The message as a row, as include/tarnoklej.h lists its positions."""
        return [self.number, *(value for part in self._parts() for value in part)]

    def to_bytes(self) -> bytes:
        """Writes the message; RANGE is raised where a field is outside its range.

        >>> from tarnoklej import Message1025
        >>> Message1025(sin=5).to_bytes()[:3].hex()
        '401050'
        """
        return write_fields(self.row())

    def describe(self) -> str:
        """A table of all fields for people: DF number, standard's name, value and unit.

        >>> from tarnoklej import Message1025
        >>> print(Message1025(sin=5, projection_type=1, false_easting=500_000_000).describe())
        DF002  Message Number: 1025
        DF147  System Identification Number: 5
        DF170  Projection Type: 1
        DF171  Latitude of Natural Origin: 0.000000000 degree
        DF172  Longitude of Natural Origin: 0.000000000 degree
        DF173  Scale Factor at Natural Origin: 0.00000 ppm
        DF174  False Easting: 500000.000 m
        DF175  False Northing: 0.000 m
        """
        lines = [f"DF002  {FIELDS[2].name}: {self.number}"]
        for attribute, field in self.fields().items():
            lines.append(f"DF{field.df:03}  {field.name}: {_shown(field, getattr(self, attribute))}")
        return "\n".join(lines)

    def _parts(self) -> Iterator[Sequence[Optional[int]]]:
        """The values of each attribute, those of a grid's nodes together, node by node."""
        grid: List[Nodes] = []
        for field in _attributes(type(self)):
            value = getattr(self, field.name)
            if "nodes" in field.metadata:
                grid.append(_sixteen(field.name, value))
                continue
            if grid:
                yield [number for node in zip(*grid) for number in node]
                grid = []
            yield _characters(value) if "name" in field.metadata else [value]

    @classmethod
    def from_row(cls: Type[_Message], row: Sequence[Optional[int]]) -> _Message:
        """The message of a row of its number, as read_fields gives it; ValueError for any other row."""
        rest = iter(row[1:])
        values: Dict[str, Any] = {}
        residuals = [field.name for field in _attributes(cls) if "nodes" in field.metadata]
        for field in _attributes(cls):
            if "name" in field.metadata:
                values[field.name] = _text(rest)
            elif "nodes" not in field.metadata:
                values[field.name] = next(rest, None)
            elif field.name == residuals[0]:
                node_by_node = list(itertools.islice(rest, len(residuals) * NODES))
                values.update((name, tuple(node_by_node[i :: len(residuals)])) for i, name in enumerate(residuals))
        message = cls(**values)
        if message.row() != list(row):
            raise ValueError(f"not a row of message {cls.number}")
        return message


def _attributes(kind: Any) -> Tuple["dataclasses.Field[Any]", ...]:
    return dataclasses.fields(kind)


def _text(rest: Iterator[Optional[int]]) -> str:
    """A name from its counter and its characters, all of which have values."""
    counter = next(rest, None) or 0
    return bytes(character or 0 for character in itertools.islice(rest, counter)).decode("latin-1")


def _characters(text: str) -> List[Optional[int]]:
    """A name as its counter and its characters, of ISO 8859-1."""
    return [len(text), *text.encode("latin-1")]


def _sixteen(attribute: str, values: Nodes) -> Nodes:
    if len(values) != NODES:
        raise ValueError(f"{attribute} has {len(values)} nodes, and a grid has {NODES}")
    return values


def _shown(field: Field, value: Any) -> str:
    """A value with its unit, as a person reads it."""
    if isinstance(value, str):
        return repr(value)
    if isinstance(value, tuple):
        return ", ".join(_plain(field, number) for number in value) + (f" {field.unit}" if field.unit else "")
    return _plain(field, value) + (f" {field.unit}" if field.unit and value is not None else "")


def _plain(field: Field, value: Optional[int]) -> str:
    return "not available" if value is None else f"{field.scaled(value):f}"
