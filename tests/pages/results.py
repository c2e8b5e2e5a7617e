#!/usr/bin/env python3
"""Writes `docs/inside/RESULTS.md` from `tests/pages/results.txt`: what was tried, what came of it, and when.

    tests/pages/results.py            writes the page
    tests/pages/results.py --check    fails where the page is not what the table says

A line `== TITLE` begins a table, and one `-- TEXT` is a paragraph above its rows. A row is what was tried, the result, the commit and the date,
with ` :: ` between them. The commit is the one that was measured, or the first of the main branch that has what was measured, or else the one
that wrote the row."""

import argparse
import sys
from pathlib import Path

sys.path.insert(0, str(Path(__file__).resolve().parents[1]))
from lib.program import ROOT

TABLE = ROOT / "tests/pages/results.txt"
PAGE = ROOT / "docs/inside/RESULTS.md"
HEAD = """# Results

Written by `tests/pages/results.py` from `tests/pages/results.txt`; `docs/TESTED.md` says what each script tries. A conflict that was tried is a certificate
that contradicts a backed one, for which some honest member voted. The commit is the one that was measured, or the first of the main branch that
has what was measured, or else the one that wrote the row.
"""
WRONG_BODIES = "Wrong bodies"


class Malformed(Exception):
    """A line of the table that is no row."""


def rows_of(text):
    """The lines of the page, after its head."""
    names = None
    for number, line in enumerate(text.splitlines(), 1):
        if line.startswith("== "):
            title = line.removeprefix("== ")
            names = ("Wrong body", "Found by") if title.startswith(WRONG_BODIES) else ("What", "Result")
            head = f"\n| {names[0]} | {names[1]} | Commit | Date |\n|---|---|---|---|\n"
            yield f"\n## {title}\n"
        elif line.startswith("-- "):
            yield f"\n{line.removeprefix('-- ')}\n"
        elif line:
            cells = line.split(" :: ")
            if len(cells) != 4 or not names:
                raise Malformed(f"{TABLE.relative_to(ROOT)}:{number}: a row has four cells, below a title")
            yield head + "| " + " | ".join(cells) + " |\n"
            head = ""


def page():
    """The page, as the table says it."""
    return HEAD + "".join(rows_of(TABLE.read_text()))


def main():
    parser = argparse.ArgumentParser(description=__doc__, formatter_class=argparse.RawDescriptionHelpFormatter)
    parser.add_argument("--check", action="store_true", help="writes nothing, and fails where the page differs")
    given = parser.parse_args()
    text = page()
    if given.check and PAGE.read_text() != text:
        print(f"{PAGE.relative_to(ROOT)} isn't what tests/pages/results.txt says: run tests/pages/results.py")
        return 1
    if not given.check:
        PAGE.write_text(text)
    return 0


if __name__ == "__main__":
    sys.exit(main())
