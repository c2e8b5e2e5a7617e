#!/usr/bin/env python3
"""Measures what a member and a resolver keep for a view, in bytes, until it is passed.

    bench/memory.py --program PATH [--views N]

The peak of memory at N views and at twice as many, and what each of the views between took: a round with a notarization and its
entry in the record; besides, an offer that has no verdict, or a verdict with its entry; an entry alone, of a view that the state
has dropped; a notarized view in a resolver, with a true or a false verdict. A false one also leaves its fetch open, in the set
beside the resolver, which a nullification ends."""

import argparse
import subprocess
from pathlib import Path

VOTER = ("voter", "4", "-", "1", "0")
RESOLVER = ("resolver", "1")


def notarized(count):
    for view in range(1, count + 1):
        yield f"notarization {view} {view - 1} 7"


def offered(count):
    for view in range(1, count + 1):
        yield from (f"notarization {view} {view - 1} 7", "candidates")


def judged(count):
    for view in range(1, count + 1):
        yield from (f"notarization {view} {view - 1} 7", f"verdict {view} true 1")


def dropped(count):
    for view in range(1, count + 1):
        yield from (f"notarization {view} {view - 1} 7", f"verdict {view} true 1", f"finalization {view} {view - 1} 7 1", "prune")


def held(count):
    yield "replayed"
    for view in range(1, count + 1):
        yield from (f"notarization {view}", f"certified {view} true")


def failed(count):
    yield "replayed"
    for view in range(1, count + 1):
        yield from (f"notarization {view}", f"certified {view} false")


def peak(program, arguments, lines):
    """The most memory that a run took, in bytes."""
    with subprocess.Popen([program, *arguments], stdin=subprocess.PIPE, stdout=subprocess.PIPE, stderr=subprocess.DEVNULL) as running:
        for line in lines:
            running.stdin.write(f"{line}\n".encode())
            running.stdin.flush()
            running.stdout.readline()
        status = Path(f"/proc/{running.pid}/status").read_text().split("\n")
        return 1024 * int(next(row for row in status if row.startswith("VmHWM:")).split()[1])


def bytes_of_a_view(program, arguments, lines, views):
    return (peak(program, arguments, lines(2 * views)) - peak(program, arguments, lines(views))) / views


def main():
    parser = argparse.ArgumentParser(description=__doc__, formatter_class=argparse.RawDescriptionHelpFormatter)
    parser.add_argument("--program", required=True)
    parser.add_argument("--views", type=int, default=16384)
    given = parser.parse_args()
    measured = {it.__name__: bytes_of_a_view(given.program, VOTER, it, given.views) for it in (notarized, offered, judged, dropped)}
    measured |= {it.__name__: bytes_of_a_view(given.program, RESOLVER, it, given.views) for it in (held, failed)}
    rows = {
        "a view with a notarization, in the state and in the record": measured["notarized"],
        "an offer that has no verdict, besides": measured["offered"] - measured["notarized"],
        "a verdict, besides": measured["judged"] - measured["notarized"],
        "three entries of a view that the state has dropped": measured["dropped"],
        "a notarized view with a true verdict, in a resolver": measured["held"],
        "a notarized view with a false verdict, in a resolver, and its fetch": measured["failed"],
    }
    for what, size in rows.items():
        print(f"{size:>8.0f} bytes  {what}")


if __name__ == "__main__":
    main()
