"""Tables and indexes answer as the second program does, through whole histories of calls."""

from __future__ import annotations

import unittest
from typing import Any, List

from tarnoklej import find, index_agrees, remove, store
from tarnoklej.buffers import writable
from tarnoklej.library import library

from . import vectors
from .asked import asked

COMMANDS = ("table", "index", "poke", "pokeindex", "store", "remove", "find", "bytes", "indexbytes", "agrees", "rebuild")


class History:
    """A table and an index of any size, on which the cases' calls work."""

    def __init__(self) -> None:
        self.table, self.index = bytearray(), bytearray()

    def answer(self, case: vectors.Case) -> List[str]:
        answer: List[str] = getattr(self, f"do_{case.command}")(*case.arguments)
        return answer

    def do_table(self, size: str) -> List[str]:
        self.table = bytearray(int(size))
        return ["ok"]

    def do_index(self, size: str) -> List[str]:
        self.index = bytearray(int(size))
        return ["ok"]

    def do_poke(self, at: str, value: str) -> List[str]:
        self.table[int(at)] = int(value)
        return ["ok"]

    def do_pokeindex(self, at: str, value: str) -> List[str]:
        self.index[int(at)] = int(value)
        return ["ok"]

    def do_bytes(self) -> List[str]:
        return [self.table.hex() or "-"]

    def do_indexbytes(self) -> List[str]:
        return [self.index.hex() or "-"]

    def do_store(self, owner: str, message: str) -> List[str]:
        return self.refusal(store, self.table, self.index, int(owner), vectors.unhex(message))

    def do_remove(self, *key: str) -> List[str]:
        return self.refusal(remove, self.table, self.index, *map(int, key))

    def do_agrees(self) -> List[str]:
        return self.refusal(index_agrees, self.table, self.index)

    def do_find(self, *key: str) -> List[str]:
        refusal, found = asked(find, self.table, self.index, *map(int, key))
        if found is None:
            return [str(refusal), "0", "0", "0", "-"]
        return ["0", str(found.at), str(len(found.message)), str(found.probes), found.message.hex()]

    def do_rebuild(self) -> List[str]:
        table = bytes(self.table)
        return [str(library().tarnoklej_index_write(table, len(table), writable(self.index), len(self.index)))]

    @staticmethod
    def refusal(call: Any, *arguments: Any) -> List[str]:
        return [str(asked(call, *arguments)[0])]


class Histories(unittest.TestCase):
    def test_histories(self) -> None:
        history = History()
        met = set()
        for case in vectors.of(*COMMANDS):
            answer = history.answer(case)
            self.assertEqual(answer, case.answer, case.name)
            met.add(answer[0])
        self.assertTrue({"16", "17", "18", "21", "22"} <= met)
