"""A table with its index: owners, keys, refusals and what is kept."""

from __future__ import annotations

import mmap
import threading
import unittest
from typing import Any, Callable, List, Tuple

from tarnoklej import (
    Group,
    Message1021,
    Message1025,
    Message1027,
    Refusal,
    Table,
    find,
    index_agrees,
    remove,
    store,
    write_index,
)
from tarnoklej.examples import GRID_K
from tarnoklej.sizes import INDEX_SIZE, SLOT_SIZE, TABLE_SIZE

from .asked import asked
from .places import SERVICES


class Owners(unittest.TestCase):
    def test_the_services(self) -> None:
        table = Table()
        files = sorted(SERVICES.glob("*/????.rtcm"))
        for path in files:
            table.store(1, path.read_bytes())
        groups = [Group.TRANSFORMATION, Group.GRID, Group.PROJECTION]
        self.assertEqual(table.keys(1), [(sin, group) for sin in (11, 22, 33, 44, 55) for group in groups])
        self.assertEqual([message.to_bytes() for message in table.messages(1)], [path.read_bytes() for path in files])
        self.assertEqual(table.messages(2), [])

    def test_neither_owner_sees_the_other(self) -> None:
        table = Table()
        table.store(1, Message1025(sin=5))
        table.store(2, Message1027(sin=5))
        self.assertEqual(table.find(1, 5, Group.PROJECTION).read(), Message1025(sin=5))
        self.assertEqual(table.find(2, 5, Group.PROJECTION).read(), Message1027(sin=5))
        table.remove(1, 5, Group.PROJECTION)
        self.assertEqual(table.messages(2), [Message1027(sin=5)])
        self.assertEqual(asked(table.find, 1, 5, Group.PROJECTION)[0], Refusal.NONE)

    def test_a_key_is_replaced(self) -> None:
        table = Table()
        table.store(1, Message1021(sin=9))
        table.store(1, Message1021(sin=9, plate_number=3))
        self.assertEqual(table.messages(1), [Message1021(sin=9, plate_number=3)])

    def test_full_at_twenty_and_at_thirty_two(self) -> None:
        table = Table()
        for sin in range(20):
            table.store(1, Message1025(sin=sin))
        self.assertEqual(asked(table.store, 1, Message1025(sin=20))[0], Refusal.FULL)
        for sin in range(12):
            table.store(2, Message1025(sin=sin))
        before = table.copy()
        self.assertEqual(asked(table.store, 2, Message1025(sin=12))[0], Refusal.FULL)
        self.assertEqual(table, before)
        table.remove(1, 7, Group.PROJECTION)
        table.store(2, GRID_K)
        self.assertEqual(table.find(2, 7, Group.GRID).at, 7 * SLOT_SIZE + 2)


class Refusals(unittest.TestCase):
    def setUp(self) -> None:
        self.table = Table()
        self.table.store(1, Message1025(sin=255))
        self.before = self.table.copy()

    def test_calls(self) -> None:
        cases: List[Tuple[Refusal, Callable[..., Any], Tuple[Any, ...]]] = [
            (Refusal.OWNER, self.table.store, (0, Message1025())),
            (Refusal.OWNER, self.table.store, (257, Message1025())),
            (Refusal.OWNER, self.table.find, (-1, 255, 2)),
            (Refusal.OWNER, self.table.remove, (3, 255, 2)),
            (Refusal.OWNER, self.table.keys, (0,)),
            (Refusal.OWNER, self.table.messages, (3,)),
            (Refusal.SHORT, self.table.store, (1, b"")),
            (Refusal.NONE, self.table.find, (1, 255, 0)),
            (Refusal.NONE, self.table.find, (1, 255, 3)),
            (Refusal.NONE, self.table.find, (1, 255, 258)),
            (Refusal.NONE, self.table.find, (1, -1, 2)),
            (Refusal.NONE, self.table.find, (1, 511, 2)),
            (Refusal.NONE, self.table.remove, (1, 256, 2)),
            (Refusal.NONE, self.table.remove, (2, 255, 2)),
        ]
        for refusal, call, arguments in cases:
            self.assertEqual(asked(call, *arguments)[0], refusal, arguments)
        self.assertEqual(self.table, self.before)

    def test_buffers(self) -> None:
        table, index = self.table.buffers()
        self.assertEqual(asked(index_agrees, table[1:], index)[0], Refusal.TABLE)
        self.assertEqual(asked(index_agrees, table, index[1:])[0], Refusal.INDEX)
        self.assertEqual(asked(index_agrees, table, bytes(INDEX_SIZE))[0], Refusal.INDEX)
        self.assertEqual(asked(write_index, table)[0], 0)
        self.assertEqual(asked(write_index, b"\3" + table[1:])[0], Refusal.TABLE)
        self.assertEqual(asked(find, table, b"\1\xff\2\1" + index[4:], 1, 255, 2)[0], Refusal.INDEX)
        self.assertEqual(asked(Table, table, bytes(INDEX_SIZE))[0], Refusal.INDEX)
        self.assertEqual(asked(Table, b"")[0], Refusal.TABLE)
        with self.assertRaises(TypeError):
            store(table, bytearray(index), 1, Message1025())

    def test_kept_bytes(self) -> None:
        table, index = self.table.buffers()
        self.assertEqual((len(table), len(index)), (TABLE_SIZE, INDEX_SIZE))
        self.assertEqual(Table(table), self.table)
        self.assertEqual(Table(table, index), self.table)
        self.assertNotEqual(Table(), self.table)
        with self.assertRaises(TypeError):
            hash(self.table)


class Memory(unittest.TestCase):
    def test_shared_memory_is_written_itself(self) -> None:
        with mmap.mmap(-1, TABLE_SIZE) as table, mmap.mmap(-1, INDEX_SIZE) as index:
            store(table, index, 2, Message1025(sin=9))
            self.assertEqual(table[:4], b"\2\x19\x40\x10")
            self.assertEqual(find(table, index, 2, 9, 2).read(), Message1025(sin=9))
            remove(table, index, 2, 9, 2)
            self.assertEqual((table[:], index[:]), (bytes(TABLE_SIZE), bytes(INDEX_SIZE)))

    def test_one_buffer_may_hold_both_where_they_are_apart(self) -> None:
        both = bytearray(TABLE_SIZE + INDEX_SIZE)
        whole = memoryview(both)
        store(whole[:TABLE_SIZE], whole[TABLE_SIZE:], 1, Message1025(sin=5))
        self.assertEqual((both[:2], both[TABLE_SIZE:][:4]), (b"\1\x19", b"\1\5\2\0"))
        before = bytes(both)
        for index in (whole[TABLE_SIZE - 1 : -1], whole[:INDEX_SIZE]):
            for call, rest in ((store, (Message1025(sin=6),)), (remove, (5, 2))):
                with self.assertRaisesRegex(ValueError, "share bytes"):
                    call(whole[:TABLE_SIZE], index, 1, *rest)  # type: ignore[operator]
        self.assertEqual(both, before)

    def test_threads_of_two_owners(self) -> None:
        table = Table()

        def work(owner: int) -> None:
            for turn in range(300):
                table.store(owner, Message1025(sin=turn % 12))
                if turn % 5 == 0:
                    table.remove(owner, turn % 12, Group.PROJECTION)

        threads = [threading.Thread(target=work, args=(owner,)) for owner in (1, 2)]
        for thread in threads:
            thread.start()
        for thread in threads:
            thread.join()
        index_agrees(*table.buffers())
        self.assertEqual(table.keys(1), table.keys(2))
