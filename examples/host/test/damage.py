"""Damaged files: a table that is refused is never replaced, an index that disagrees is written anew."""
import fcntl
import os
import random
import threading
import time

import messages
import table_file
from commands import DONE, FAILED, REFUSED, expect
from owner import Owner
from system_calls import HELD
from table_file import INDEX_SIZE, SLOT_SIZE, TABLE_SIZE, Failure

LONGEST = 0.012


def put(path, content):
    """Puts a file in the place of another as a whole."""
    with open(path + ".damaged", "wb") as file:
        file.write(content)
    os.rename(path + ".damaged", path)


def bad_files(sound):
    """Files whose table is refused, by what is wrong with them."""
    table, index = sound[:TABLE_SIZE], sound[TABLE_SIZE:]
    free = len(HELD) * SLOT_SIZE
    changed = lambda place, byte: sound[:place] + bytes([byte]) + sound[place + 1 :]
    many = {(1, sin, 2): messages.make(sin, 2, sin) for sin in range(21)}
    return {
        "empty": b"",
        "cut": sound[:1000],
        "without an index": table,
        "one byte short": sound[:-1],
        "one byte long": sound + b"\0",
        "an owner 3": changed(0, 3),
        "an owner 0": changed(0, 0),
        "a length one more": changed(1, sound[1] + 1),
        "a message of another number": changed(2, 0xFF),
        "a fill bit": changed(2 + sound[1] - 1, sound[2 + sound[1] - 1] | 1),
        "a byte behind a message": changed(2 + sound[1], 1),
        "a last byte of a slot": changed(SLOT_SIZE - 1, 1),
        "a byte in a free slot": changed(free + 50, 1),
        "a key twice": table[:free] + table[:SLOT_SIZE] + table[free + SLOT_SIZE :] + index,
        "21 slots of an owner": table_file.make(many),
    }


def bad_indexes(sound):
    """Files whose index does not agree, by what is wrong with them."""
    table, index = sound[:TABLE_SIZE], sound[TABLE_SIZE:]
    return {
        "an index of zeros": table + bytes(INDEX_SIZE),
        "an index of ones": table + b"\xff" * INDEX_SIZE,
        "entries exchanged": table + index[4:8] + index[:4] + index[8:],
        "another slot": table + index[:3] + bytes([index[3] ^ 1]) + index[4:],
        "an entry too many": table + index[:12] + b"\2\x09\1\5" + index[16:],
        "an entry missing": table + index[:8] + bytes(INDEX_SIZE - 8),
    }


def check_refused(host, path, file):
    for name, content in bad_files(table_file.make(HELD)).items():
        put(path, content)
        for words in (("store", "1", file), ("remove", "1", "5", "2"), ("find", "1", "5", "2"), ("list", "1"), ("mend",), ("check",)):
            said = expect(host, REFUSED, words[0], path, *words[1:], output=b"")
            if "TABLE" not in said or table_file.read_bytes(path) != content:
                raise Failure(f"{name}: {words[0]} says {said.strip()!r}, or changes the file")


def check_mended(host, path, file, message):
    for name, content in bad_indexes(table_file.make(HELD)).items():
        put(path, content)
        expect(host, REFUSED, "check", path)
        expect(host, DONE, "find", path, "1", "5", "2", output=HELD[1, 5, 2])
        expect(host, DONE, "list", path, "1")
        if table_file.read_bytes(path) != content:
            raise Failure(f"{name}: find or list changes the file")
        for words, after in (
            (("store", "1", file), HELD | {(1, *messages.key_of(message)): message}),
            (("remove", "2", "5", "2"), {key: held for key, held in HELD.items() if key != (2, 5, 2)}),
            (("mend",), HELD),
        ):
            put(path, content)
            said = expect(host, DONE, words[0], path, *words[1:])
            if "written anew" not in said or table_file.read(path) != after:
                raise Failure(f"{name}: {words[0]} does not write the index anew: {said.strip()}")
        put(path, content)
        expect(host, REFUSED, "remove", path, "1", "200", "0")
        if table_file.read(path) != HELD:
            raise Failure(f"{name}: a refused call does not write the index anew")


def check_around(host, path, file):
    """What stands beside the file: a new file that a killed process left, a folder of that name, a lock that another holds."""
    put(path, table_file.make(HELD))
    with open(path + ".new", "wb") as rest:
        rest.write(b"\xff" * 9000)
    expect(host, DONE, "store", path, "1", file)
    table_file.read(path)
    os.mkdir(path + ".new")
    expect(host, FAILED, "remove", path, "1", "5", "2")
    os.rmdir(path + ".new")
    with open(path + ".lock") as lock:
        fcntl.flock(lock, fcntl.LOCK_EX)
        waiting = threading.Thread(target=expect, args=(host, DONE, "remove", path, "1", "5", "2"))
        waiting.start()
        time.sleep(0.3)
        if (1, 5, 2) not in table_file.read(path):
            raise Failure("a change does not wait for the lock")
        expect(host, DONE, "find", path, "1", "5", "2", output=HELD[1, 5, 2])
    waiting.join()
    if (1, 5, 2) in table_file.read(path):
        raise Failure("a change that waited for the lock is not made")


class Damager(threading.Thread):
    """Damages the file under the lock while both owners work, and puts it right again."""

    def __init__(self, path, seed):
        super().__init__()
        self.path, self.random, self.ended, self.failures = path, random.Random(seed), False, []
        self.tables = self.indexes = 0

    def damage_table(self, lock):
        """A table that is refused must stay so, byte for byte, until it is put right."""
        fcntl.flock(lock, fcntl.LOCK_EX)
        sound = table_file.read_bytes(self.path)
        bad = sound[: self.random.randrange(table_file.FILE_SIZE)] if self.random.random() < 0.5 else b"\3" + sound[1:]
        put(self.path, bad)
        fcntl.flock(lock, fcntl.LOCK_UN)
        time.sleep(self.random.uniform(0, 0.02))
        fcntl.flock(lock, fcntl.LOCK_EX)
        if table_file.read_bytes(self.path) != bad:
            raise Failure("a table that is refused was replaced")
        put(self.path, sound)
        fcntl.flock(lock, fcntl.LOCK_UN)
        self.tables += 1

    def damage_index(self, lock):
        fcntl.flock(lock, fcntl.LOCK_EX)
        put(self.path, table_file.read_bytes(self.path)[:TABLE_SIZE] + self.random.randbytes(INDEX_SIZE))
        fcntl.flock(lock, fcntl.LOCK_UN)
        self.indexes += 1

    def run(self):
        try:
            with open(self.path + ".lock") as lock:
                while not self.ended:
                    self.random.choice((self.damage_table, self.damage_index))(lock)
                    time.sleep(self.random.uniform(0, 0.02))
        except Exception as failure:
            self.failures.append(failure)


def kill_beside(owner, kills, failures):
    """Kills processes of an owner beside the damager; what it held is compared at the end."""
    try:
        while owner.kills < kills and not failures:
            at_work = owner.run_and_kill(LONGEST, may_refuse=True)
            settle(owner, at_work)
    except Exception as failure:
        failures.append(failure)


def settle(owner, at_work):
    """Compares a file that is whole with what the owner holds; the damager replaces the file as a whole, too."""
    while True:
        content = table_file.read_bytes(owner.path)
        if len(content) == table_file.FILE_SIZE and content[0] != 3:
            owner.compare(table_file.read_slots(content[:TABLE_SIZE])[0], at_work)
            return
        time.sleep(0.002)


def check_at_work(host, path, kills, seed):
    put(path, table_file.make({}))
    expect(host, DONE, "mend", path)
    owners = [Owner(number, host, path, seed) for number in (1, 2)]
    damager = Damager(path, seed)
    threads = [threading.Thread(target=kill_beside, args=(owner, (kills + 1) // 2, damager.failures)) for owner in owners]
    for thread in [damager, *threads]:
        thread.start()
    for thread in threads:
        thread.join()
    damager.ended = True
    damager.join()
    if damager.failures:
        raise damager.failures[0]
    expect(host, DONE, "mend", path)
    final = table_file.read(path)
    for owner in owners:
        owner.compare(final, None)
    total = lambda name: sum(getattr(owner, name) for owner in owners)
    print(
        f"host: {damager.tables} damaged tables and {damager.indexes} damaged indexes under both owners at work: {total('kills')} kills,"
        f" {total('acknowledged')} calls acknowledged, {total('failed')} refused by a damaged table, {total('lost')} lost, 0 damaged tables replaced"
    )


def run(host, folder, kills, seed):
    path, file, message = os.path.join(folder, "damaged"), os.path.join(folder, "stored"), messages.make(9, 1, 78)
    with open(file, "wb") as stream:
        stream.write(message)
    check_refused(host, path, file)
    check_mended(host, path, file, message)
    check_around(host, path, file)
    print("host: damaged tables are refused in words and left as they are, indexes that disagree are written anew")
    check_at_work(host, path, kills, seed)
