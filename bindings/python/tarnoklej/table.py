"""A table and its index kept together."""

from __future__ import annotations

import threading
from typing import List, Optional, Tuple

from . import buffers, table_calls
from .kinds import Message
from .messages import AnyMessage
from .refusals import Refusal, Refused
from .sizes import INDEX_SIZE, TABLE_SIZE
from .table_calls import Found, Group

# The bytes of an entry of an index: owner, system identification number, group, slot.
_ENTRY = 4


class Table:
    """A table and its index, two buffers that are kept together and always agree.

    Owners 1 and 2 share a table; no call by one shows, replaces or removes a message of the other. A key is an owner, a
    system identification number and a group. Calls of several threads come one after another.

    >>> from tarnoklej import Message1025
    >>> table = Table()
    >>> table.store(1, Message1025(sin=5))
    >>> table.find(1, 5, Group.PROJECTION).read().sin
    5
    >>> table.keys(1), table.keys(2)
    ([(5, <Group.PROJECTION: 2>)], [])
    >>> table.remove(1, 5, Group.PROJECTION)
    >>> table == Table()
    True
    """

    def __init__(self, table: Optional[buffers.BytesLike] = None, index: Optional[buffers.BytesLike] = None) -> None:
        """An empty table, or that of bytes that were kept. An index that is not given is written anew.

        Refusals in order: TABLE, INDEX where the two do not agree.
        """
        held = bytes(TABLE_SIZE) if table is None else buffers.readable(table)
        beside = table_calls.write_index(held) if index is None else buffers.readable(index)
        table_calls.index_agrees(held, beside)
        self._table, self._index = bytearray(held), bytearray(beside)
        self._lock = threading.Lock()

    def buffers(self) -> Tuple[bytes, bytes]:
        """The bytes of the table and of its index, to be kept."""
        with self._lock:
            return bytes(self._table), bytes(self._index)

    def copy(self) -> "Table":
        """A table of the same messages with buffers of its own."""
        return Table(*self.buffers())

    def __eq__(self, other: object) -> bool:
        return isinstance(other, Table) and self.buffers() == other.buffers()

    __hash__ = None  # type: ignore[assignment]

    def store(self, owner: int, message: AnyMessage) -> None:
        """Stores an owner's message under its key, in place of the one that stands there.

        Refusals in order: OWNER, SHORT, NUMBER, LENGTH, FILL, RANGE, FULL where the key is new to the owner, who holds
        20 slots or finds no slot free. With a refusal the table stays as it was.
        """
        with self._lock:
            table_calls.store(self._table, self._index, owner, message)

    def find(self, owner: int, sin: int, group: int) -> Found:
        """Gives the message of an owner's key. Refusals in order: OWNER, NONE."""
        with self._lock:
            return table_calls.find(self._table, self._index, owner, sin, group)

    def remove(self, owner: int, sin: int, group: int) -> None:
        """Removes the message of an owner's key.

        Refusals in order: OWNER, NONE. With a refusal the table stays as it was.
        """
        with self._lock:
            table_calls.remove(self._table, self._index, owner, sin, group)

    def keys(self, owner: int) -> List[Tuple[int, Group]]:
        """The system identification number and group of each of an owner's messages, rising. Refusals: OWNER."""
        if owner not in (1, 2):
            raise Refused(Refusal.OWNER)
        _, index = self.buffers()
        entries = (index[at : at + _ENTRY] for at in range(0, INDEX_SIZE, _ENTRY))
        return [(sin, Group(group)) for of, sin, group, _ in entries if of == owner]

    def messages(self, owner: int) -> List[Message]:
        """An owner's messages in the order of their keys. Refusals: OWNER."""
        return [self.find(owner, sin, group).read() for sin, group in self.keys(owner)]
