"""A table kept in a file: commits, refusals, damage, and several processes at once."""

from __future__ import annotations

import os
import subprocess
import sys
import tempfile
import unittest
from pathlib import Path

from tarnoklej import Group, Message1025, Refusal, Refused, Table, kept_table, read_table, table_file

from .asked import asked

STORES = """
import sys
from tarnoklej import Message1025, kept_table
path, owner = sys.argv[1], int(sys.argv[2])
for sin in range(12):
    with kept_table(path) as table:
        table.store(owner, Message1025(sin=sin))
    print(sin, flush=True)
"""


class Files(unittest.TestCase):
    def setUp(self) -> None:
        folder = tempfile.TemporaryDirectory()
        self.addCleanup(folder.cleanup)
        self.path = Path(folder.name, "table")
        with kept_table(self.path, create=True) as table:
            table.store(1, Message1025(sin=5))

    def test_the_file(self) -> None:
        kept = self.path.read_bytes()
        self.assertEqual(len(kept), 4_352)
        self.assertEqual((kept[:4], kept[4_224:4_228]), (b"\1\x19\x40\x10", b"\1\5\2\0"))
        with kept_table(self.path, create=True) as table:
            self.assertEqual(table.keys(1), [(5, Group.PROJECTION)])
        self.assertEqual(sorted(path.name for path in self.path.parent.iterdir()), ["table", "table.lock"])

    def test_where_the_block_raises_nothing_is_kept(self) -> None:
        kept = self.path.read_bytes()
        with self.assertRaises(Refused), kept_table(self.path) as table:
            table.store(1, Message1025(sin=6))
            table.store(3, Message1025(sin=7))
        self.assertEqual(self.path.read_bytes(), kept)

    def test_damaged_files(self) -> None:
        kept = self.path.read_bytes()
        for damaged in (b"", kept[:-1], kept + b"\0", b"\3" + kept[1:]):
            self.path.write_bytes(damaged)
            self.assertEqual(asked(read_table, self.path)[0], Refusal.TABLE)
            with self.assertRaises(Refused), kept_table(self.path, create=True):
                self.fail("a damaged table was given")
            self.assertEqual(self.path.read_bytes(), damaged)
        self.path.write_bytes(kept[:4_224] + bytes(128))
        with kept_table(self.path):
            pass
        self.assertEqual(self.path.read_bytes(), kept)

    def test_a_missing_file(self) -> None:
        missing = self.path.with_name("missing")
        with self.assertRaises(FileNotFoundError), kept_table(missing):
            self.fail("a table was made")
        self.assertFalse(missing.exists())

    def test_rights_and_links_stay(self) -> None:
        os.chmod(self.path, 0o640)
        link = self.path.with_name("link")
        link.symlink_to(self.path)
        with kept_table(link) as table:
            table.remove(1, 5, Group.PROJECTION)
        self.assertTrue(link.is_symlink())
        self.assertEqual(self.path.stat().st_mode & 0o777, 0o640)
        self.assertEqual(read_table(self.path), Table())

    def test_the_lock_is_not_waited_for_forever(self) -> None:
        waited, table_file.LOCK_SECONDS = table_file.LOCK_SECONDS, 0.05
        try:
            with kept_table(self.path), self.assertRaisesRegex(TimeoutError, "held by another process"):
                with kept_table(self.path):
                    self.fail("two changes at once")
        finally:
            table_file.LOCK_SECONDS = waited

    def test_processes_of_two_owners_lose_nothing(self) -> None:
        command = [sys.executable, "-c", STORES, str(self.path)]
        runs = [subprocess.Popen([*command, owner], stdout=subprocess.PIPE) for owner in ("1", "2")]
        for run in runs:
            self.assertEqual(run.communicate()[0].split(), [b"%d" % sin for sin in range(12)])
        table = read_table(self.path)
        for owner in (1, 2):
            self.assertEqual(table.keys(owner), [(sin, Group.PROJECTION) for sin in range(12)])

    def test_a_killed_process_leaves_what_it_was_answered(self) -> None:
        run = subprocess.Popen([sys.executable, "-c", STORES, str(self.path), "2"], stdout=subprocess.PIPE)
        assert run.stdout
        seen = [int(run.stdout.readline()) for _ in range(3)]
        run.kill()
        run.communicate()
        keys = [sin for sin, _ in read_table(self.path).keys(2)]
        self.assertEqual(keys[: len(seen)], seen)
        self.assertEqual(keys, list(range(len(keys))))
