#!/usr/bin/env python3
"""A restart after each call of each script: the laws of a member's votes hold over all replies.

For each script of the repository's tests that asks a voter: a new lifetime after every call, and after each call alone; with
nothing dropped, with one entry dropped, with the record pruned, and from the journal after a crash, which `enduring` can do:
also from one that was made short before, and where the process ends before the shorter one is stored.
Those of `rows.py`, whose settings change, are asked of `enduring` alone. Replies are not compared with the script's, since a new
lifetime may reply otherwise. What is checked is in `checks.py` (`MemberLaws`).

    tests/sweeps/restarts.py [--program PATH] [--enduring PATH]

It ends with status 1 where a law does not hold, or where fewer lifetimes began than are asked for."""

import argparse
import sys
import tempfile
import time
from collections import Counter
from concurrent.futures import ProcessPoolExecutor
from functools import partial
from pathlib import Path

sys.path.insert(0, str(Path(__file__).resolve().parents[1]))
from lib import program, rows, scripts
from lib.floors import lacking
from lib.networks.checks import Broken, MemberLaws
from lib.networks.protocol import Terms, is_restart, moment_of

RESTARTS = ("restart 0", "restart 1", "restart-pruned 0")
RESUMES = ("crash", "lose-compaction", "compact, crash")
LEAST = {"scripts": 82, "runs": 2100, "lifetimes begun": 4500}


def with_restarts(lines, restart, places):
    """The lines with a restart behind each of some places, at the last moment that a line carries."""
    now, made = 0, []
    for place, line in enumerate(lines):
        now = max(now, moment_of(line))
        made.append(line)
        if place in places:
            *before, life = restart.split(", ")
            made += [*before, f"{life} {now}", "view"]
    return made


def variants(lines, lives):
    """The script with a new lifetime after every call, and after each call alone."""
    for life in lives:
        yield with_restarts(lines, life, range(len(lines)))
        for place in range(len(lines)):
            yield with_restarts(lines, life, [place])


def broken(command, arguments, lines):
    """How many lifetimes began in a run of these lines, and what law does not hold in it, or None."""
    ended = scripts.run(command[0], (*command[1:], *arguments), "".join(f"{line}\n" for line in lines).encode())
    replies = ended.output.decode().split("\n")[:-1]
    laws = MemberLaws(Terms(int(arguments[3]), int(arguments[4])))
    try:
        if ended.status != 0 or len(replies) != len(lines):
            raise Broken(f"it ended so: {ended}")
        for line, reply in zip(lines, replies):
            laws.take(line, reply)
    except Broken as law:
        return 0, f"{law}; {' '.join(arguments)}: {lines}"
    return sum(is_restart(line) and reply == "ok" for line, reply in zip(lines, replies)), None


def try_script(enduring, path, script):
    """What was done with a script, and what was broken. Without the path of `viewstate` all of it is asked of `enduring`."""
    lines = script.lines[:len(script.replies)]
    tried = [broken((path,) if path else (enduring, "member"), script.arguments, it) for it in variants(lines, RESTARTS)]
    tried += [broken((enduring, "member"), script.arguments, it) for it in variants(lines, RESUMES)]
    seen = Counter({"scripts": 1, "runs": len(tried), "lifetimes begun": sum(begun for begun, _ in tried)})
    return seen, [f"{script.shows}: {it}" for _, it in tried if it]


def main():
    parser = argparse.ArgumentParser(description=__doc__, formatter_class=argparse.RawDescriptionHelpFormatter)
    program.add_option(parser)
    program.add_enduring_option(parser)
    parser.add_argument("--jobs", type=int, default=2, help="how many scripts go side by side")
    given = parser.parse_args()
    start, seen, faults = time.monotonic(), Counter(), []
    with tempfile.TemporaryDirectory() as folder, ProcessPoolExecutor(given.jobs) as pool:
        path, enduring = program.find(given.program, folder), program.find_enduring(given.enduring, folder)
        voters = [it for it in scripts.all_scripts() if it.is_voter]
        tried = [*pool.map(partial(try_script, enduring, path), voters), *pool.map(partial(try_script, enduring, None), rows.all_rows())]
    for saw, broke in tried:
        seen += saw
        faults += broke
    faults += lacking(seen, LEAST)
    figures = ", ".join(f"{count} {what}" for what, count in seen.items())
    print(f"restarts: {figures}; {len(faults)} broken; {time.monotonic() - start:.1f} s")
    print("".join(f"  {fault}\n" for fault in faults), end="")
    return 1 if faults else 0


if __name__ == "__main__":
    sys.exit(main())
