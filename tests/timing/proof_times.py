#!/usr/bin/env python3
"""Prints what a check of a crate took its time for, function by function, from the folder in which it keeps what it has proved.

    cd crates/NAME && rm -rf out/incremental && rt check --jobs 1       keeps it in out/incremental
    tests/timing/proof_times.py crates/NAME/out/incremental [--most N]

A check writes what it makes of a function as several modules, one behind another: what its code does, step by step (`Lts`), that
its proof meets its contract (`Proof`), that both speak of the same code (`Tie`). So the time from one file to the next is that of
the later one, where one check made the folder from nothing, in one process (`--jobs 1`). Sizes are right in any case."""

import argparse
import collections
import re
from pathlib import Path
from typing import NamedTuple


class Module(NamedTuple):
    """A module that a check has kept: its function, what it holds of it, and its seconds and bytes."""

    function: str
    part: str
    seconds: float
    size: int


def modules(folder):
    """The modules of a folder, in the order in which they were written."""
    files = sorted((path.stat().st_mtime, path) for path in Path(folder).rglob("*.oantt"))
    before = files[0][0] if files else 0
    for written, path in files:
        function, _, part = re.sub(r"(\.decls)?\.oantt$", "", path.name).rpartition(".")
        part = part.partition("-")[0] if part[:1].isupper() else "others"
        yield Module(function.partition("-")[2], part, written - before, path.stat().st_size)
        before = written


def rows(kept, name_of, most):
    """A line for each of the names that took the most, with seconds and megabytes."""
    seconds, sizes = collections.Counter(), collections.Counter()
    for module in kept:
        seconds[name_of(module)] += module.seconds
        sizes[name_of(module)] += module.size
    for name, taken in seconds.most_common(most):
        yield f"{taken:8.1f} s {sizes[name] / 1e6:8.1f} MB  {name}"


def main():
    parser = argparse.ArgumentParser(description=__doc__, formatter_class=argparse.RawDescriptionHelpFormatter)
    parser.add_argument("folder", help="what a check has kept")
    parser.add_argument("--most", type=int, default=30, help="how many functions are printed")
    given = parser.parse_args()
    kept = list(modules(given.folder))
    print(*rows(kept, lambda it: it.part, 8), "", *rows(kept, lambda it: it.function, given.most), sep="\n")


if __name__ == "__main__":
    main()
