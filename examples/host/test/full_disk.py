"""A disk that is full: a file system of a few pages in memory, mounted in a mount namespace of its own."""
import os
import subprocess
import sys
import tempfile

import messages
import table_file
from commands import DONE, FAILED, REFUSED, expect
from table_file import Failure

PAGE = os.sysconf("SC_PAGE_SIZE")
PAGES = 16


def fill(folder, left):
    """Fills the disk up to a number of bytes that are left free."""
    with open(os.path.join(folder, "filling"), "wb", buffering=0) as file:
        try:
            while True:
                file.write(bytes(PAGE))
        except OSError:
            pass
        file.truncate(max(0, file.tell() - left))


def check(host, folder):
    path, filling = os.path.join(folder, "table"), os.path.join(folder, "filling")
    file = os.path.join(tempfile.mkdtemp(), "message")
    with open(file, "wb") as stream:
        stream.write(messages.make(9, 1, 79))
    expect(host, DONE, "new", path)
    expect(host, DONE, "store", path, "1", file)
    before = table_file.read_bytes(path)
    for left in (0, PAGE):
        fill(folder, left)
        for words in (("store", "2", file), ("remove", "1", "9", "1"), ("mend",)):
            said = expect(host, FAILED, words[0], path, *words[1:])
            if "No space left" not in said or table_file.read_bytes(path) != before or os.path.exists(path + ".new"):
                raise Failure(f"on a full disk {words[0]} says {said.strip()!r}, or changes something")
        expect(host, DONE, "find", path, "1", "9", "1", output=messages.make(9, 1, 79))
        expect(host, REFUSED, "remove", path, "2", "9", "1")
        os.remove(filling)
    expect(host, DONE, "store", path, "2", file)
    if len(table_file.read(path)) != 2:
        raise Failure("a store after the disk was full is not made")


def can_mount(words):
    return subprocess.run([*words, "true"], capture_output=True).returncode == 0


def mounted_words(folder):
    """The words below which a command finds a small file system at a folder, or None where the system allows none."""
    mount = f'mount -t tmpfs -o size={PAGE * PAGES} tmpfs "$0" && exec "$@"'
    for namespace in (["unshare", "-m"], ["unshare", "-r", "-m"]):
        words = [*namespace, "sh", "-c", mount, folder]
        if can_mount(words):
            return words
    return None


def run(host, folder):
    """Gives whether a full disk could be had."""
    place = os.path.join(folder, "small")
    os.mkdir(place)
    words = mounted_words(place)
    if words is None:
        return False
    ran = subprocess.run([*words, sys.executable, os.path.abspath(__file__), host, place], capture_output=True, text=True)
    if ran.returncode != 0:
        raise Failure(ran.stderr.strip())
    print("host: a full disk is said in words, nothing changes, and the next call with room is answered")
    return True


if __name__ == "__main__":
    check(*sys.argv[1:])
