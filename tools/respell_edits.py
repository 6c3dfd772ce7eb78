#!/usr/bin/env python3
"""Brings the must-fail edits over to today's spelling, after port.py and tools/respell.py.

usage: python3 tools/respell_edits.py

Run at the top. An edit whose old text stands once in its file is left as it is; of the others both texts are respelled, and kept where the
old text then stands once. What is left is printed, for a hand, and ends the run with 1.
"""
import glob
import os
import re
import sys

sys.path.insert(0, os.path.dirname(os.path.abspath(__file__)))
import respell  # noqa: E402

WORDS = {"getD": "get_or", "natAbs": "nat_abs", "′": "'"}


def respelled(text):
    for old, new in WORDS.items():
        text = text.replace(old, new)
    text = re.sub(r"(?<=[A-Za-z0-9_'»)]) \.(?=[A-Za-z«])", ".", text)
    text = respell.CAMEL.sub(lambda m: m[0] if m[0] in respell.STANDARD else respell.snake(m[0]), text)
    text = re.sub(r"\.«([a-z_]+)»", r".\1", text)
    text = re.sub(r"(?<![A-Za-z0-9_'])negℤ", "neg_ℤ", text)
    return re.sub(r"\(([A-Za-z0-9_']+(?:\.[A-Za-z0-9_']+)+)\)", r"\1", text)


def main():
    if any(word in ("-h", "--help") for word in sys.argv[1:]):
        print(__doc__)
        return 0
    left = 0
    for path in sorted(glob.glob("crates/*/must-fail/*.edit")):
        with open(path, encoding="utf-8") as f:
            lines = f.read().split("\n")
        name = next(l[5:].strip() for l in lines if l.startswith("file:"))
        target = os.path.join("crates", path.split("/")[1], name)
        with open(target, encoding="utf-8") as f:
            text = f.read()
        changed, out, fits = False, [], True
        for k, line in enumerate(lines):
            if line.startswith("old: "):
                old, new = line[5:], lines[k + 1][5:]
                if text.count(old) != 1:
                    old, new = respelled(old), respelled(new)
                    changed = True
                if text.count(old) != 1:
                    fits = False
                    print(f"{path}: {text.count(old)} times: {old}")
                out.append("old: " + old)
                pending = new
                text = text.replace(old, new, 1)
            elif line.startswith("new: "):
                out.append("new: " + pending)
            else:
                out.append(line)
        left += not fits
        if changed and fits:
            with open(path, "w", encoding="utf-8") as f:
                f.write("\n".join(out))
    return 1 if left else 0


if __name__ == "__main__":
    raise SystemExit(main())
