#!/usr/bin/env python3
"""Proves what a change touches: the crates whose files differ from a base, and tries their must-fail edits.

Where a crate's statements differ, that is its `specs/` or a line of a contract, the crates above it are proved too.

    tests/crates/changed.py [BASE]        the base is a commit; `origin/main` if none is named

It ends with status 1 where a crate is not proved, or an edit is not refused."""

import argparse
import re
import subprocess
import sys
from pathlib import Path

sys.path.insert(0, str(Path(__file__).resolve().parents[1]))
from lib.program import ROOT, crates_below

OF_A_STATEMENT = re.compile(r"^[-+].*\b(?:ensures|requires|ghost|invariant|pub fn|pub struct|pub enum|pub trait)\b", re.MULTILINE)


def git(*words):
    return subprocess.run(["git", *words], cwd=ROOT, check=True, capture_output=True, text=True).stdout


def changed_files(base):
    """The files of crates that differ from the base, those that git does not know yet too."""
    named = git("diff", "--name-only", base, "--", "crates").splitlines()
    return named + git("ls-files", "--others", "--exclude-standard", "--", "crates").splitlines()


def touched(base):
    """The crates to prove, each after those below it."""
    files = changed_files(base)
    own = {file.split("/")[1] for file in files if file.split("/")[2] in ("src", "specs", "proofs")}
    stated = {name for name in own if any(f"crates/{name}/specs/" in file for file in files)
              or OF_A_STATEMENT.search(git("diff", base, "--", f"crates/{name}/src"))}
    listed = [row.split(":")[0].split()[0] for row in (ROOT / "crates.txt").read_text().splitlines() if ":" in row]
    wanted = [name for name in listed if name in own or crates_below(ROOT, name) & stated]
    return sorted(wanted, key=lambda name: len(crates_below(ROOT, name)))


def main():
    parser = argparse.ArgumentParser(description=__doc__, formatter_class=argparse.RawDescriptionHelpFormatter)
    parser.add_argument("base", nargs="?", default="origin/main", help="a commit")
    crates = touched(parser.parse_args().base)
    print(f"to prove: {', '.join(crates) or 'nothing'}", flush=True)
    for crate in crates:
        if subprocess.run(["rt", "check"], cwd=ROOT / "crates" / crate).returncode:
            print(f"{crate} is not proved")
            return 1
    edited = [name for name in crates if (ROOT / "tests/mutants/must-fail" / name).is_dir() or (ROOT / "crates" / name / "must-fail").is_dir()]
    return subprocess.run([sys.executable, ROOT / "tests/mutants/edits.py", *edited]).returncode if edited else 0


if __name__ == "__main__":
    sys.exit(main())
