"""A table and its index kept in a file that several processes share."""

from __future__ import annotations

import contextlib
import os
import time
from pathlib import Path
from typing import Iterator, Tuple, Union

from .refusals import Refusal, Refused
from .sizes import INDEX_SIZE, TABLE_SIZE
from .table import Table

#: How long a change waits for another process's, in seconds.
LOCK_SECONDS = 10.0
# How often it asks in that time.
_ASK_SECONDS = 0.005

_Path = Union[str, "os.PathLike[str]"]


def read_table(path: _Path) -> Table:
    """Reads the table of a file, its 4,224 bytes and the 128 of its index.

    The index is written anew, as one that agrees would be the same. Refusals: TABLE, also for a file of another size.
    """
    data = Path(path).read_bytes()
    if len(data) != TABLE_SIZE + INDEX_SIZE:
        raise Refused(Refusal.TABLE)
    return Table(data[:TABLE_SIZE])


@contextlib.contextmanager
def kept_table(path: _Path, create: bool = False) -> Iterator[Table]:
    """Gives the table of a file for changes, and commits all of them together at the end of the block.

    Where the block raises, a refusal included, the file stays as it was. The changes are written to a new file, which
    is synced and then renamed, so that a process that is killed leaves the old table or the new one; and they are made
    under a lock, for which others wait 10 seconds at most (TimeoutError). Form and steps are those of docs/HOST.md.
    create makes an empty table where there is no file. It works where the system has flock, that is not on Windows.

    >>> import os, tempfile
    >>> from tarnoklej import Group, Message1025
    >>> with tempfile.TemporaryDirectory() as folder:
    ...     path = os.path.join(folder, "table")
    ...     with kept_table(path, create=True) as table:
    ...         table.store(1, Message1025(sin=5))
    ...     read_table(path).keys(1)
    [(5, <Group.PROJECTION: 2>)]
    """
    name = Path(os.path.realpath(path))
    with _lock(name):
        table = Table() if create and not name.exists() else read_table(name)
        yield table
        _commit(name, table.buffers())


@contextlib.contextmanager
def _lock(name: Path) -> Iterator[None]:
    """Holds the lock of a file beside the table, which nobody removes."""
    import fcntl

    descriptor = os.open(f"{name}.lock", os.O_RDWR | os.O_CREAT, 0o666)
    try:
        last = time.monotonic() + LOCK_SECONDS
        while True:
            try:
                fcntl.flock(descriptor, fcntl.LOCK_EX | fcntl.LOCK_NB)
                break
            except BlockingIOError:
                if time.monotonic() > last:
                    raise TimeoutError(f"{name}.lock was held by another process for {LOCK_SECONDS} seconds") from None
                time.sleep(_ASK_SECONDS)
        yield
    finally:
        os.close(descriptor)


def _commit(name: Path, held: Tuple[bytes, bytes]) -> None:
    """Puts a new file in the place of the old one, down to the disk."""
    fresh = f"{name}.new"
    try:
        descriptor = os.open(fresh, os.O_WRONLY | os.O_CREAT | os.O_TRUNC | os.O_NOFOLLOW, 0o666)
        with open(descriptor, "wb") as file:
            _keep_rights(name, descriptor)
            file.write(b"".join(held))
            file.flush()
            os.fsync(descriptor)
        os.replace(fresh, name)
    except BaseException:
        with contextlib.suppress(OSError):
            os.unlink(fresh)
        raise
    _sync_folder(name.parent)


def _keep_rights(name: Path, descriptor: int) -> None:
    """Gives a new file the rights of the one that it replaces, and its group where the system allows it."""
    if name.exists():
        old = name.stat()
        with contextlib.suppress(PermissionError):
            os.fchown(descriptor, -1, old.st_gid)
        os.fchmod(descriptor, old.st_mode & 0o777)


def _sync_folder(folder: Path) -> None:
    """Writes the names of a folder to the disk, so that a rename lasts."""
    descriptor = os.open(folder, os.O_RDONLY | os.O_DIRECTORY)
    try:
        os.fsync(descriptor)
    finally:
        os.close(descriptor)
