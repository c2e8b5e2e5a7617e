#!/usr/bin/env python3
"""Tests the crates without a proof: their layout, and their tests and the stored run, compiled unproved.

    tests/crates/unproved.py --layout             the layout of each crate's files, as `rt fmt` writes it
    tests/crates/unproved.py --rows [--program PATH]     each crate's tests as `rt try --test` runs them, and the stored run of `viewstate`

It ends with status 1 where something is not as it has to be, or where fewer tests ran than are asked for."""

import argparse
import io
import os
import re
import subprocess
import sys
import tempfile
from concurrent.futures import ThreadPoolExecutor
from pathlib import Path

sys.path.insert(0, str(Path(__file__).resolve().parents[1]))
from lib import kit, program
from lib.floors import lacking
from lib.program import ROOT

LEAST = {"tests": 70}
# How long a test may take: those that read and write byte by byte take half a minute beside other work.
SECONDS = "300"
# How many steps the kit's interpreter takes, which runs them first, as `rt try` asks for.
STEPS = "20000000"
ENDED = re.compile(r"(\d+) passed")


def layout():
    """The crates whose files are not laid out as `rt fmt` does."""
    rt = kit.guarded()
    for crate in rt.rtlib.crates_below(str(ROOT)):
        out = io.StringIO()
        with tempfile.TemporaryFile("w+") as out:
            if rt.rtlib.fmt(crate.folder, "--check", out):
                yield f"{crate.name}: run `rt fmt` in its folder"


def crates_with_tests():
    """The crates that hold tests."""
    sources = ROOT.glob("crates/*/src/**/*.rt")
    return sorted({path.relative_to(ROOT).parts[1] for path in sources if "#[test]" in path.read_text()})


def ran(crate):
    """What the run of a crate's tests printed, and its status."""
    folder = ROOT / "crates" / crate
    tests = kit.words_to_try(folder, "--steps", STEPS, "--seconds", SECONDS, tests=True)
    tried = subprocess.run(tests, cwd=folder, capture_output=True, text=True, check=False, stdin=subprocess.DEVNULL)
    return crate, tried.returncode, tried.stdout + tried.stderr


def stored_run(path):
    """What the program writes in place of the stored run's output, or None."""
    folder = ROOT / "crates/viewstate"
    words = (folder / "args").read_text().split()
    done = subprocess.run([path, *words], input=(folder / "stdin").read_bytes(), capture_output=True, check=False)
    return None if done.stdout == (folder / "stdout").read_bytes() else done.stdout.decode(errors="replace")


def rows(given):
    """What is not as it has to be of the crates' tests and of the stored run."""
    passed = 0
    with ThreadPoolExecutor(len(os.sched_getaffinity(0))) as pool:
        for crate, status, told in pool.map(ran, crates_with_tests()):
            count = sum(int(it) for it in ENDED.findall(told))
            passed += count
            print(f"{crate}: {count} passed", flush=True)
            if status:
                yield f"{crate}: {told[-2000:]}"
    yield from lacking({"tests": passed}, LEAST)
    with tempfile.TemporaryDirectory() as room:
        other = stored_run(program.find(given, room))
        if other is not None:
            yield f"the stored run of viewstate writes:\n{other}"


def main():
    parser = argparse.ArgumentParser(description=__doc__, formatter_class=argparse.RawDescriptionHelpFormatter)
    parser.add_argument("--layout", action="store_true")
    parser.add_argument("--rows", action="store_true")
    parser.add_argument("--program", help="the built program")
    given = parser.parse_args()
    faults = [*(layout() if given.layout else []), *(rows(given.program) if given.rows else [])]
    print("".join(f"{fault}\n" for fault in faults), end="")
    return 1 if faults or not (given.layout or given.rows) else 0


if __name__ == "__main__":
    sys.exit(main())
