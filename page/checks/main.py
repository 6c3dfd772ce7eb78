"""main.py LOOK [--only PART]... [--pictures FOLDER]: opens look.html in headless Chromium and compares what it shows.

With --pictures it also takes a picture of each state whose contrast is checked, in light and dark.
Ends with a count; exit status 0 where all is as expected, 1 where something differs, 2 where the words are wrong.
"""
import argparse
import sys
import time
from pathlib import Path

sys.dont_write_bytecode = True

import contrast
import grids
import heights
import keyboard
import messages
import odd_files
import outside
import recording
import report
import rules
import samples
import services
import widths
from browser import Page

PARTS = {part.__name__: part.check for part in (
    recording, services, messages, outside, grids, report, heights, samples, odd_files, keyboard, widths, contrast, rules)}


def arguments(words):
    parser = argparse.ArgumentParser(prog="main.py", description=__doc__.strip(), formatter_class=argparse.RawDescriptionHelpFormatter)
    parser.add_argument("look", type=lambda word: Path(word).resolve())
    parser.add_argument("--only", action="append", choices=list(PARTS), metavar="PART", help=", ".join(PARTS))
    parser.add_argument("--pictures", type=Path, metavar="FOLDER")
    return parser.parse_args(words)


def main():
    given = arguments(sys.argv[1:])
    page = Page(given.look)
    try:
        for name in given.only or PARTS:
            start, before = time.monotonic(), page.passed
            PARTS[name](page)
            print(f"page: {name}: {page.passed - before} comparisons, {time.monotonic() - start:.1f} s")
        if given.pictures:
            contrast.take_pictures(page, given.pictures)
    finally:
        page.close()
    print(f"page: {page.passed} passed, {page.failed} failed")
    return 1 if page.failed else 0


sys.exit(main())
