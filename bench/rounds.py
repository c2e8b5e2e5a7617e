#!/usr/bin/env python3
"""Measures after how many rounds of messages networks of engines finalize, whatever came before.

Each network is one seed of `simplex-sim --rounds`: a hostile past, in which messages are lost, delayed and reordered, links are cut and
processes end and resume, with faulty members that do what their fault does all the time; then rounds, in each of which all messages that
are on their way arrive. Where none is, the clocks jump to the next moment at which a host wakes. A network is measured until each honest
host has carried out a new `Finalized`.

    bench/rounds.py [--tries N] [--archive PATH]     N seeds of each setting; without an archive one is built, unproved
    bench/rounds.py .. --page                        writes `docs/inside/ROUNDS.md`

It ends with status 1 where a network was stuck or broke a promise. The seeds give the same lines each time."""

import argparse
import itertools
import os
import subprocess
import sys
import tempfile
from concurrent.futures import ThreadPoolExecutor
from datetime import date
from pathlib import Path
from typing import NamedTuple

ROOT = Path(__file__).resolve().parent.parent
PAGE = ROOT / "docs/inside/ROUNDS.md"
MEMBERS = (4, 5, 7, 10)
FAULTS = ("chaos", "equivocate", "withhold", "mute")
TERMS = ((1, 0), (1, 1), (2, 1), (3, 2), (5, 0), (5, 4))
HEAD = """# Rounds until a new finalization

Written by `bench/rounds.py --page` on {day}, of commit {commit}, over an unproved archive: {networks} networks of engines, {stuck} stuck, {broken} broken promises.

A network has a hostile past of up to two minutes: up to 75 of 100 messages are lost, the others take up to ten seconds, links are cut, and processes end and resume from their journals. f members are faulty and stay so. Then, in each round, all messages that are on their way arrive; where none is, the clocks jump to the next moment at which a host wakes. Counted are the rounds until each honest host has carried out a new `Finalized`. In the last column a second is simulated time; the leader timeout is one second, the certification timeout two.

"""


class Setting(NamedTuple):
    """The words of a network."""

    members: int
    fault: str
    term: int
    optimistic: int

    @property
    def faulty(self):
        return (self.members - 1) // 3


class Network(NamedTuple):
    """A network that was measured; `rounds` is none where it was stuck."""

    setting: Setting
    rounds: int | None
    jumps: int
    milliseconds: int
    violations: int


def settings():
    """All settings."""
    for members, fault, (term, optimistic) in itertools.product(MEMBERS, FAULTS, TERMS):
        yield Setting(members, fault, term, optimistic)


def measured(program, setting, tries):
    """The networks of a setting, one a seed."""
    words = ("--members", setting.members, "--faulty", setting.faulty, "--byzantine", setting.fault, "--term", setting.term,
             "--optimistic", setting.optimistic, "--rounds", "--tries", tries)
    done = subprocess.run([program, *map(str, words)], capture_output=True, text=True)
    rows = [line.split(",") for line in done.stdout.splitlines() if line.count(",") == 5][1:]
    if len(rows) != tries:
        raise SystemExit(f"simplex-sim {' '.join(map(str, words))}: {done.stderr[-500:]}")
    return [Network(setting, None if row[2] == "stuck" else int(row[2]), int(row[3]), int(row[4]), int(row[5])) for row in rows]


def at(values, share):
    """The value below which that share of them lies."""
    values = sorted(values)
    return values[min(int(len(values) * share), len(values) - 1)]


def table(networks, names, key):
    """A table with a row for each value of a key."""
    yield f"| {' | '.join(names)} | Networks | Rounds: half | 99 % | Most | Jumps of clocks: most | Seconds: most |"
    yield "|" + "---|" * (len(names) + 6)
    for value in sorted({key(it.setting) for it in networks}):
        found = [it for it in networks if key(it.setting) == value and it.rounds is not None]
        rounds = [it.rounds for it in found]
        seconds = max(it.milliseconds for it in found) / 1000
        cells = [*value, len(found), at(rounds, 0.5), at(rounds, 0.99), max(rounds), max(it.jumps for it in found), f"{seconds:.1f}"]
        yield f"| {' | '.join(map(str, cells))} |"


def page(networks):
    """The page's text."""
    git = subprocess.run(["git", "rev-parse", "--short=8", "HEAD"], cwd=ROOT, capture_output=True, text=True, check=True)
    yield HEAD.format(day=date.today(), commit=git.stdout.strip(), networks=len(networks), stuck=sum(it.rounds is None for it in networks),
                      broken=sum(it.violations for it in networks)).rstrip("\n")
    for names, key in (
        (("Members", "Faulty"), lambda it: (it.members, it.faulty)),
        (("What the faulty do",), lambda it: (it.fault,)),
        (("Views of a term", "Voted for ahead"), lambda it: (it.term, it.optimistic)),
    ):
        yield from ("", *table(networks, names, key))


def built(room, archive):
    """The simulator, built for speed."""
    if not archive:
        archive = room / "libsimplex.a"
        subprocess.run([ROOT / "bindings/build", "--unproved", "--out", archive], check=True)
    surroundings = {**os.environ, "SIMPLEX_ARCHIVE": str(archive.resolve()), "CARGO_TARGET_DIR": str(room / "target"), "CARGO_NET_OFFLINE": "true"}
    command = ["cargo", "build", "--offline", "--quiet", "--release", "-p", "simplex-sim"]
    subprocess.run(command, cwd=next(ROOT.glob("*/sim")).parent, env=surroundings, check=True)
    return room / "target/release/simplex-sim"


def main():
    parser = argparse.ArgumentParser(description=__doc__, formatter_class=argparse.RawDescriptionHelpFormatter)
    parser.add_argument("--tries", type=int, default=120, help="seeds of each setting")
    parser.add_argument("--archive", type=Path, help="the library, if it is built already")
    parser.add_argument("--jobs", type=int, default=len(os.sched_getaffinity(0)), help="how many settings are measured side by side")
    parser.add_argument("--page", action="store_true", help="write the page")
    given = parser.parse_args()
    with tempfile.TemporaryDirectory() as room:
        program = built(Path(room), given.archive)
        with ThreadPoolExecutor(given.jobs) as pool:
            networks = [it for found in pool.map(lambda setting: measured(program, setting, given.tries), settings()) for it in found]
    text = "\n".join(page(networks)) + "\n"
    if given.page:
        PAGE.write_text(text)
    print(text, end="")
    sys.exit(any(it.rounds is None or it.violations for it in networks))


if __name__ == "__main__":
    main()
