"""Repositories of some crates alone, and the proved libraries of crates, which `rt ci` or `rt lib` leaves in `crates/NAME/out`."""

import os
import re
import shutil
from pathlib import Path

from lib.program import last_change


def add_crates(names, root, tree):
    """Copies crates of a repository to one of them alone, but those that it has. It leaves out must-fail edits."""
    tree.mkdir(parents=True, exist_ok=True)
    for name in names:
        if not (tree / "crates" / name).exists():
            shutil.copytree(root / "crates" / name, tree / "crates" / name, ignore=shutil.ignore_patterns("out", "must-fail"))
    rows = (root / "crates.txt").read_text().splitlines(keepends=True)
    (tree / "crates.txt").write_text("".join(row for row in rows if re.split(r"[ :]", row)[0] in names))
    shutil.copy(root / "HANDLES", tree)


def is_current(crate, root):
    """Whether the library of a crate of a repository is of the sources that are there: by the stamp that `rt lib` leaves beside it, a digest of
    these sources, or else by the times of the files. These don't show a change that came while `rt ci` was at work: take such a library for
    tests, and for nothing that is said to be proved."""
    library = Path(crate.rlib)
    if library.with_name("stamp").exists():
        return crate.is_built()
    return library.is_dir() and library.stat().st_mtime >= last_change(root, crate.name)


def lend(crates, tree):
    """Puts the libraries of crates into another repository of the same sources, as links to the same files where these can be had."""
    for crate in crates:
        place = tree / "crates" / crate.name / "out/rlib"
        shutil.copytree(Path(crate.rlib).parent, place, copy_function=_linked)


def _linked(file, place):
    """Links a file, or copies it to another file system."""
    try:
        os.link(file, place)
    except OSError:
        shutil.copy2(file, place)
