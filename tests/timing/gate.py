#!/usr/bin/env python3
"""Runs `rt ci`, and proves before it what most crates wait for.

`rt ci` gives a proof more than one processor only where nothing else can begin at that moment. In a run of all crates something always can,
so `simplex_voter`, which nearly all others wait for, has one processor for the whole of its proof. Therefore the crates named here are
proved first, one run after another, on a copy without must-fail edits, whose checks would take the processors too. The kit keeps what
passed, and `rt ci` takes it from there. The verdict is `rt ci`'s alone.

    tests/timing/gate.py        with more than two processors; with two, none is ever idle, so `rt ci` runs at once

The lines of the runs before begin with `ahead: `. Where one fails, or the kit keeps nothing (the disk is full, say), the rest of them is
left out, and `rt ci` proves and reports everything."""

import os
import shutil
import subprocess
import sys
import tempfile
from pathlib import Path

sys.path.insert(0, str(Path(__file__).resolve().parents[1]))
from lib.program import ROOT

# The crates that are proved alone, in this order, each with those below it.
ALONE = ("simplex_round", "simplex_voter", "simplex_member")
LEFT_OUT = shutil.ignore_patterns("out", "must-fail")
AHEAD = "ahead: "
# What a run of named crates prints where later runs find what it proved.
KEPT = "passed, and that is kept"


def copied(folder):
    """Copies the crates to a folder, without their must-fail edits."""
    shutil.copytree(ROOT / "crates", folder / "crates", ignore=LEFT_OUT)
    for name in ("crates.txt", "HANDLES"):
        shutil.copy(ROOT / name, folder)


def is_kept(name, folder):
    """Proves a crate and those below it, and returns whether `rt ci` finds them proved."""
    found = False
    with subprocess.Popen(["rt", "ci", name], cwd=folder, stdout=subprocess.PIPE, stderr=subprocess.STDOUT, text=True, errors="replace") as run:
        for line in run.stdout:
            print(f"{AHEAD}{line}", end="", flush=True)
            found = found or KEPT in line
    return found and not run.returncode


def main():
    if len(os.sched_getaffinity(0)) > 2:
        with tempfile.TemporaryDirectory() as folder:
            copied(Path(folder))
            all(is_kept(name, folder) for name in ALONE)
    os.execvp("rt", ["rt", "ci"])


if __name__ == "__main__":
    main()
