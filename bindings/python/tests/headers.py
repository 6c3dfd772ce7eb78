"""The C header's enums, structs and calls, read from its text."""

from __future__ import annotations

import re
from typing import Dict, List, Tuple

from .places import header

_COMMENT = re.compile(r"/\*.*?\*/", re.DOTALL)


def _bare(text: str) -> str:
    return _COMMENT.sub(" ", text)


def enum_entries(first: str) -> List[Tuple[str, int, str]]:
    """Name, number and comment of each entry of the enum that begins with a name."""
    body = re.search(r"enum \{\s*(TARNOKLEJ_" + first + r"\b.*?)\n\};", header(), re.DOTALL)
    assert body, f"no enum that begins with {first}"
    entry = re.compile(r"TARNOKLEJ_(\w+) = (\d+),?\s*(?:/\*(.*?)\*/)?", re.DOTALL)
    return [(name, int(number), " ".join(words.split())) for name, number, words in entry.findall(body.group(1))]


def structs() -> Dict[str, List[Tuple[str, str]]]:
    """The members of each struct, each with its type, an array's with its count."""
    found: Dict[str, List[Tuple[str, str]]] = {}
    for body, name in re.findall(r"typedef struct \{([^{}]*)\} (\w+);", _bare(header())):
        members = found.setdefault(name, [])
        for kind, names in re.findall(r"(\w+) ([^;]+);", body):
            for member in names.replace(" ", "").split(","):
                plain, count = re.fullmatch(r"(\w+)((?:\[\d+\])?)", member).groups()  # type: ignore[union-attr]
                members.append((plain, kind + count))
    return found


def calls() -> Dict[str, Tuple[str, List[str]]]:
    """What each call gives, and the types that it takes."""
    text = re.sub(r"static inline[^{;]*\{.*?\n\}", " ", _bare(header()), flags=re.DOTALL)
    found = re.findall(r"^(\w+) (tarnoklej_\w+)\(([^()]*)\);", text, re.MULTILINE)
    return {name: (answer, [_type(argument) for argument in given.split(",")]) for answer, name, given in found}


def _type(argument: str) -> str:
    """The type of an argument without its name."""
    return re.sub(r"\s*\w+\s*$", "", " ".join(argument.split()))
