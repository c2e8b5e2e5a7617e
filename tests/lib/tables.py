#!/usr/bin/env python3
"""Writes the tables of `crates/tests_program/src/program` from the pages of `tests/scripts`.

    tests/lib/tables.py

`tests/pages/copies.py` fails where a table is not the one that is written here. A new page is named in `src/program.rt` by hand."""

import sys
from pathlib import Path

sys.path.insert(0, str(Path(__file__).resolve().parent.parent))
from lib import scripts  # noqa: E402
from lib.program import ROOT  # noqa: E402

FOLDER = ROOT / "crates/tests_program/src/program"
ESCAPES = {"\r": r"\r", "\t": r"\t", "\0": r"\0", '"': r"\"", "\\": r"\\"}
WIDEST_PAIR = 60
WRITTEN = "//!\n//! Written by `tests/lib/tables.py` from `tests/scripts/{}.md`.\n"


def literal(text):
    """The text as the language's literals have it, without their quotes."""
    return "".join(ESCAPES.get(it, it) for it in text)


def lines_of(script):
    """The literal of a script's lines: a single line is one piece."""
    told = [f"{line}{scripts.REPLIED}{reply}" for line, reply in zip(script.lines, script.replies)]
    told += script.lines[len(script.replies):]
    rows = [literal(row) + r"\n" for row in told]
    if rows and not script.has_last_feed:
        rows[-1] = rows[-1].removesuffix(r"\n")
    return "".join(rows) if len(rows) < 2 else "\\\n            " + "\\\n            ".join(rows)


def entry(script):
    """A script, as an element of its table."""
    return f"""    Script {{
        shows: "{literal(script.shows)}",
        command: "viewstate {' '.join(script.arguments)}",
        lines: "{lines_of(script)}",
    }},
"""


def pair(script):
    """A command that asks for no mode, with what it shows, as an element of its table."""
    shows, command = f'"{literal(script.shows)}"', f'"{" ".join(("viewstate", *script.arguments))}"'
    one_line = f"({shows}, {command})"
    return f"    {one_line},\n" if len(one_line) <= WIDEST_PAIR else f"    (\n        {shows},\n        {command},\n    ),\n"


def table(page):
    """The file of a page's table."""
    name, count = page.name.upper(), len(page.scripts)
    if page.name == scripts.MISUSES:
        head = f"/// The purpose of each row, and the command line.\npub static {name}: [(&str, &str); {count}] = [\n"
        return f"//! {page.title}\n{WRITTEN.format(page.name)}\n{head}{''.join(pair(it) for it in page.scripts)}];\n"
    head = f"use super::script::Script;\n\npub static {name}: [Script; {count}] = [\n"
    return f"//! {page.title}\n{WRITTEN.format(page.name)}\n{head}{''.join(entry(it) for it in page.scripts)}];\n"


def differing():
    """The tables that are not as their pages have them."""
    for page in scripts.all_pages():
        file = FOLDER / f"{page.name}.rt"
        if not file.is_file() or file.read_text() != table(page):
            yield f"{file.relative_to(ROOT)} is not the table of tests/scripts/{page.name}.md"


def main():
    for page in scripts.all_pages():
        (FOLDER / f"{page.name}.rt").write_text(table(page))


if __name__ == "__main__":
    main()
