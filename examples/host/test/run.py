#!/usr/bin/env python3
"""run.py HOST [--kills N] [--seed N] [--part PART]: tries a host's promise, that a process killed at any moment loses nothing.

Exit status: 0 where the host kept it, 1 where it did not, with words on standard error, 2 for wrong use,
77 where all was kept but the system allows no full disk to be mounted.
"""
import argparse
import os
import sys
import tempfile

import commands
import damage
import full_disk
import kills
import system_calls
from table_file import Failure

PARTS = ("commands", "system_calls", "damage", "kills", "full_disk")


def arguments():
    parser = argparse.ArgumentParser(description="Tries a host's promise, that a process killed at any moment loses nothing.")
    parser.add_argument("host", help="the program, built from examples/host")
    parser.add_argument("--kills", type=int, default=1000, help="kills of processes at work (default: 1000)")
    parser.add_argument("--seed", type=int, default=1, help="of the calls and moments (default: 1)")
    parser.add_argument("--part", choices=PARTS, help="one part alone")
    return parser.parse_args()


def main():
    given = arguments()
    with tempfile.TemporaryDirectory() as folder:
        parts = {
            "commands": lambda: commands.run(given.host, folder),
            "system_calls": lambda: system_calls.run(given.host, folder),
            "damage": lambda: damage.run(given.host, folder, given.kills // 10, given.seed),
            "kills": lambda: kills.run(given.host, f"{folder}/killed", given.kills, given.seed),
            "full_disk": lambda: full_disk.run(given.host, folder),
        }
        if os.environ.get("TARNOKLEJ_WITHOUT_STRACE") == "1":
            del parts["system_calls"]
        for name, part in parts.items():
            if given.part in (None, name) and part() is False:
                return 77
    return 0


if __name__ == "__main__":
    try:
        sys.exit(main())
    except Failure as failure:
        print(f"host: {failure}", file=sys.stderr)
        sys.exit(1)
