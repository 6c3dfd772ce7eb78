#!/usr/bin/env python3
"""Respells this repository's own definitions, lemmas and record fields from camelCase to snake_case.

usage: python3 tools/respell.py [--check]

Run once, at the top, after port.py: it rewrites crates/*/{src,specs,proofs} and prints what it renamed (docs/PORT.md has the table).
Types, modules and constructors keep their capital; names of the standard (dX, aS, intN) stay; Rust names are in snake case already.
A lemma that has the name which a definition gets is given `_lem` behind it. With --check nothing is written.
"""
import glob
import re
import sys

CAMEL = re.compile(r"(?<![A-Za-z0-9_'«])[a-z][a-z0-9]*(?:[A-Z][A-Za-z0-9]*)+(?![a-z_])")
STANDARD = {"dX", "dY", "dZ", "dS", "aS", "bS", "aT", "bT", "intN", "uintN"}


def files():
    found = []
    for shape in ("crates/*/src/**/*.rt", "crates/*/specs/**/*.antt", "crates/*/proofs/**/*.antt"):
        found += glob.glob(shape, recursive=True)
    return sorted(found)


def snake(name):
    return re.sub(r"(?<=[a-z0-9])(?=[A-Z])", "_", re.sub(r"(?<=[A-Z])(?=[A-Z][a-z])", "_", name)).lower()


DEFINED = re.compile(r"^[ ]*(?:(?:abbrev|unfoldable|private|pub|opaque|record|data|ruleset)[ ]+)*([^ :(){}]+)[ ]*:(?!=)", re.M)
WHOLE = re.compile(CAMEL.pattern + "$")


def clashes(texts):
    """Names in snake case that a definition in camelCase would get, and that another definition or lemma has already."""
    defined = set()
    for f, text in texts.items():
        if f.endswith(".antt"):
            defined.update(n for n in DEFINED.findall(text))
    return {snake(n) for n in defined if WHOLE.match(n) and n not in STANDARD and snake(n) in defined}


def main():
    if any(word in ("-h", "--help") for word in sys.argv[1:]):
        print(__doc__)
        return 0
    check = "--check" in sys.argv[1:]
    texts = {f: open(f, encoding="utf-8").read() for f in files()}
    names = {t for text in texts.values() for t in CAMEL.findall(text)} - STANDARD
    by = {}
    for t in names:
        by.setdefault(snake(t), []).append(t)
    for s, ts in sorted(by.items()):
        if len(ts) > 1:
            print(f"together: {s}: {' '.join(sorted(ts))}")
    lemmas = sorted(clashes(texts))
    taken = re.compile(r"(?<![A-Za-z0-9_'«.-])(" + "|".join(lemmas) + r")(?![A-Za-z0-9_'-])") if lemmas else None
    for f, text in texts.items():
        new = text
        if f.endswith(".antt") and taken:
            new = "\n".join(l if l.startswith("--") else taken.sub(lambda m: m[1] + "_lem", l) for l in new.split("\n"))
        new = CAMEL.sub(lambda m: m[0] if m[0] in STANDARD else snake(m[0]), new)
        if new != text and not check:
            with open(f, "w", encoding="utf-8") as to:
                to.write(new)
    for s in lemmas:
        print(f"lemma {s} {s}_lem")
    for t in sorted(names):
        print(t, snake(t))
    return 0


if __name__ == "__main__":
    raise SystemExit(main())
