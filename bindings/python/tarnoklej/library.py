"""Finds the shared object and loads it once, at the first call."""

from __future__ import annotations

import ctypes
import ctypes.util
import functools
import os
import platform
import sys
from pathlib import Path
from typing import Iterator, List, Tuple

from .abi import declare

#: The environment variable that names the shared object.
VARIABLE = "TARNOKLEJ_LIBRARY"
#: The first number of the version whose structs and calls this package has.
MAJOR = 1

# The shared object's names, the one with the version first, and its folder below target/targets, on each system.
_NAMES = {
    "Linux": [f"libtarnoklej.so.{MAJOR}", "libtarnoklej.so"],
    "Darwin": [f"libtarnoklej.{MAJOR}.dylib", "libtarnoklej.dylib"],
    "Windows": ["tarnoklej.dll"],
}
_FOLDERS = {"Linux": "{}-linux-gnu", "Darwin": "{}-darwin", "Windows": "{}-windows-gnu"}
_MACHINES = {"AMD64": "x86_64", "arm64": "aarch64"}


class LibraryMissing(ImportError):
    """There is no shared object, or it is not the library; the text says which, and what to do."""


def _names() -> List[str]:
    return _NAMES.get(platform.system(), _NAMES["Linux"])


def _in_prefixes() -> Iterator[str]:
    """The shared objects that stand below the usual prefixes."""
    for prefix in (Path(sys.prefix), Path("/usr/local"), Path.home() / ".local"):
        for folder in ("lib", "lib64", "bin"):
            for name in _names():
                if (prefix / folder / name).is_file():
                    yield str(prefix / folder / name)


def _as_the_system_finds_it() -> Iterator[str]:
    """The shared object by name, where the system's own search finds it, and it is of this version."""
    try:
        ctypes.CDLL(_names()[0])
        yield _names()[0]
    except OSError:
        found = ctypes.util.find_library("tarnoklej")
        if found in _names():
            yield found


def _in_repository() -> Path:
    """Where the repository that this file stands in builds the shared object."""
    machine = _MACHINES.get(platform.machine(), platform.machine())
    target = _FOLDERS.get(platform.system(), _FOLDERS["Linux"]).format(machine)
    return Path(__file__).resolve().parents[3] / "target" / "targets" / target / _names()[-1]


def candidates() -> Iterator[Tuple[str, str]]:
    """The shared objects to be tried, in order, each with the words of where it comes from."""
    named = os.environ.get(VARIABLE)
    if named:
        yield named, f"named by {VARIABLE}"
        return
    for path in _as_the_system_finds_it():
        yield path, "installed"
    for path in _in_prefixes():
        yield path, "installed"
    if _in_repository().is_file():
        yield str(_in_repository()), "built in the repository"


def load(path: str) -> ctypes.CDLL:
    """Loads a shared object that has every call; LibraryMissing for any other."""
    try:
        loaded = ctypes.CDLL(path)
        declare(loaded)
    except OSError as error:
        raise LibraryMissing(f"{path} cannot be loaded: {error}") from None
    except AttributeError as error:
        raise LibraryMissing(f"{path} is not the library, or is of another version: {error}") from None
    return loaded


@functools.lru_cache(maxsize=None)
def find_library() -> Tuple[ctypes.CDLL, str]:
    """The library, and the words of which one it is; LibraryMissing where there is none."""
    for path, origin in candidates():
        return load(path), f"{path}, {origin}"
    raise LibraryMissing(
        f"{_names()[-1]} is not installed, and there is none at {_in_repository()}: set {VARIABLE} to its path, or, in "
        "the repository, install it by ./install PREFIX or build it by ./targets/build"
    )


def library() -> ctypes.CDLL:
    """The library's calls, as include/tarnoklej.h declares them."""
    return find_library()[0]
