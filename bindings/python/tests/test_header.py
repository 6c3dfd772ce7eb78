"""The package's numbers, structs and calls are those of include/tarnoklej.h."""

from __future__ import annotations

import ctypes
import subprocess
import tempfile
import unittest
from pathlib import Path
from typing import Any, Dict, List, Set

from tarnoklej import Component, Group, Refusal, abi, sizes

from . import headers
from .places import ROOT

# The C type of each ctypes type, of bytes and numbers the types of what is read and of what is written.
C_TYPES: Dict[Any, Set[str]] = {
    abi.U8: {"uint8_t"},
    abi.U16: {"uint16_t"},
    abi.U64: {"uint64_t"},
    abi.I64: {"int64_t"},
    abi.SIZE: {"size_t"},
    abi.REAL: {"double"},
    abi.READ_BYTES: {"const uint8_t *"},
    abi.BYTES: {"uint8_t *", "const uint8_t *"},
    abi.NUMBERS: {"int64_t *", "const int64_t *"},
}
# Where c_uint64 and c_size_t are one type, it stands for both.
if C_TYPES[abi.U64] == C_TYPES[abi.SIZE]:
    C_TYPES[abi.U64] = {"uint64_t", "size_t"}


PRINT_WORDS = """
#include <stdio.h>
#include "tarnoklej.h"
int main(void)
{
    for (int number = 1; number < 256; number++)
        printf("%s %s\\n", tarnoklej_refusal_name(number), tarnoklej_refusal_words(number));
    return 0;
}
"""


def c_types(kind: Any) -> Set[str]:
    """The C types that a ctypes type stands for."""
    if issubclass(kind, ctypes.Array):
        return {f"{plain}[{kind._length_}]" for plain in C_TYPES[kind._type_]}
    return C_TYPES[kind]


def run_c(source: str) -> List[str]:
    """The lines that a C program prints."""
    with tempfile.TemporaryDirectory() as folder:
        program = Path(folder, "program")
        Path(folder, "program.c").write_text(source)
        command = ["gcc", "-std=c99", "-Wall", "-Werror", "-I", str(ROOT / "include"), str(program) + ".c", "-o"]
        subprocess.run([*command, str(program)], check=True)
        return subprocess.run([str(program)], check=True, stdout=subprocess.PIPE).stdout.decode().splitlines()


class Numbers(unittest.TestCase):
    def test_refusals(self) -> None:
        entries = headers.enum_entries("DONE")
        self.assertEqual(entries[0][:2], ("DONE", 0))
        expected = [(name, number, words) for name, number, words in entries[1:]]
        self.assertEqual([(refusal.name, int(refusal), refusal.words) for refusal in Refusal], expected)
        self.assertGreaterEqual(len(expected), 25)

    def test_sizes(self) -> None:
        expected = {name: number for name, number, _ in headers.enum_entries("TABLE_SIZE")}
        have = {name: value for name, value in vars(sizes).items() if name.isupper()}
        self.assertEqual(have, expected)

    def test_components_and_groups(self) -> None:
        for kind, first in ((Component, "NORTH_SOUTH"), (Group, "TRANSFORMATION")):
            expected = [(name, number) for name, number, _ in headers.enum_entries(first)]
            self.assertEqual([(member.name, int(member)) for member in kind], expected)


class Structs(unittest.TestCase):
    def test_members(self) -> None:
        expected = headers.structs()
        self.assertEqual(set(abi.STRUCTS), set(expected))
        for name, members in abi.STRUCTS.items():
            self.assertEqual([member for member, _ in members], [member for member, _ in expected[name]], name)
            for (member, kind), (_, c_type) in zip(members, expected[name]):
                self.assertIn(c_type, c_types(kind), f"{name}.{member}")

    def test_sizes_and_offsets_by_a_c_compiler(self) -> None:
        lines = []
        for name, members in abi.STRUCTS.items():
            kind = abi.TYPES[name]
            lines.append((f"sizeof({name})", ctypes.sizeof(kind)))
            for member, _ in members:
                lines.append((f"offsetof({name}, {member})", getattr(kind, member).offset))
                lines.append((f"sizeof((({name} *)0)->{member})", getattr(kind, member).size))
        printed = "".join(f'    printf("%zu\\n", {expression});\n' for expression, _ in lines)
        source = f'#include <stdio.h>\n#include "tarnoklej.h"\nint main(void)\n{{\n{printed}    return 0;\n}}\n'
        for line, (expression, value) in zip(run_c(source), lines):
            self.assertEqual(int(line), value, expression)


class Calls(unittest.TestCase):
    def test_signatures(self) -> None:
        expected = headers.calls()
        self.assertEqual(set(abi.CALLS), set(expected))
        self.assertGreaterEqual(len(expected), 17)
        for name, (answer, arguments) in abi.CALLS.items():
            c_answer, c_arguments = expected[name]
            self.assertIn(c_answer, {answer} if isinstance(answer, str) else c_types(answer), name)
            self.assertEqual(len(arguments), len(c_arguments), name)
            for place, (kind, c_type) in enumerate(zip(arguments, c_arguments)):
                self.assertIn(c_type, c_types(kind) if kind in C_TYPES else (), f"{name}, argument {place + 1}")


class Words(unittest.TestCase):
    def test_names_and_words_by_a_c_compiler(self) -> None:
        printed = [line for line in run_c(PRINT_WORDS) if not line.startswith("UNKNOWN ")]
        self.assertEqual([f"{refusal.name} {refusal.words}" for refusal in Refusal], printed)
