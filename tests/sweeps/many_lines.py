#!/usr/bin/env python3
"""Many lines, in bounded memory: the record grows with what is recorded, and nothing else grows.

Each part is run with a tenth of the lines and with all of them, and the peaks of memory are compared:

  shown        a voter is asked what leaves nothing behind, over and over: each round has the replies of the first
  told         a resolver receives certificates that it has, and finalizations that rise
  pruned       a voter finalizes view after view, and begins a new lifetime from a pruned record now and then
  compacted    the same without restarts, asked of `enduring`: the record is pruned within the life now and then, and what is
               left takes the journal's place; in the end it has less than a thousand entries
  recorded     the same with neither, with a tenth of the lines: each entry of the record may take so many bytes, and the
               record has as many as the lines add

    tests/sweeps/many_lines.py                       200,000 lines a part
    tests/sweeps/many_lines.py --lines 10000000

It ends with status 1 where a peak is not as asked."""

import argparse
import subprocess
import sys
import tempfile
import time
from itertools import islice
from pathlib import Path
from threading import Thread
from typing import NamedTuple

sys.path.insert(0, str(Path(__file__).resolve().parents[1]))
from lib import program

VOTER = ("voter", "4", "0", "5", "4")
RESOLVER = ("resolver", "5")
SPARE = 2048
BYTES_OF_AN_ENTRY = 300
VIEWS_A_LIFE = 200
VIEWS_A_COMPACTION = 100
MOST_ENTRIES = 1000
NOT_SERVED = (b"fault", b"refused", b"not-allowed")
STANDING = (
    "notarization 1 0 7", "verdict 1 true 10", "finalize 1", "proposal 2 1 8", "verify", "verified 2", "notarize 2", "notarization 3 2 9",
    "propose", "candidates",
)
SHOWN = (
    "view", "record", "best", "verify", "propose", "candidates", "prune", "timeout 20", "notarization 1 0 7", "notarization 3 2 9",
    "proposal 2 1 8", "proposal 3 2 10", "notarize 1", "notarize 2", "finalize 1", "finalize 2", "nullify 1", "release 9", "abandon 2",
    "trigger 9 Inactivity 30", "broadcast notarization 9", "verified 2", "token 9 1",
)


class Part(NamedTuple):
    """A part: the program's arguments, its lines without end, how many of them, and how many entries each adds."""

    name: str
    arguments: tuple
    lines: object
    share: float
    entries_a_line: float


def shown_lines():
    yield from STANDING
    while True:
        yield from SHOWN


def told_lines():
    yield "replayed"
    view = 1
    while True:
        yield from (f"notarization {view + 3}", f"certified {view + 3} true", f"nullification {view + 9}", f"nullification {view + 9}")
        yield from (f"produce {view}", f"settled {view} notarization", "outstanding", f"finalization {view + 3}", f"certified {view + 2} false")
        view += 4


def recorded_lines():
    view, now = 1, 0
    while True:
        now += 10
        yield from (f"notarization {view} {view - 1} 7", f"verdict {view} true {now}", f"finalize {view}")
        yield from (f"finalization {view} {view - 1} 7 {now}", "prune")
        view += 1


def pruned_lines():
    lines, now = recorded_lines(), 0
    while True:
        yield from islice(lines, VIEWS_A_LIFE * 5)
        now += VIEWS_A_LIFE * 10
        yield f"restart-pruned 0 {now}"


def compacted_lines():
    lines = recorded_lines()
    while True:
        yield from islice(lines, VIEWS_A_COMPACTION * 5)
        yield "compact"


PARTS = (
    Part("shown", VOTER, shown_lines, 1, 0),
    Part("told", RESOLVER, told_lines, 1, 0),
    Part("pruned", VOTER, pruned_lines, 1, 0),
    Part("compacted", ("member", *VOTER), compacted_lines, 1, 0),
    Part("recorded", VOTER, recorded_lines, 0.1, 0.8),
)


class NotBounded(Exception):
    """Something that many lines must not do."""


def write_lines(pipe, lines):
    """Writes the lines, a thousand at a time, as long as they are read."""
    try:
        while batch := list(islice(lines, 1000)):
            pipe.write("".join(f"{line}\n" for line in batch).encode())
        pipe.flush()
    except BrokenPipeError:
        return


def peak_of(process):
    """The most memory that a process has had so far, in KiB."""
    with open(f"/proc/{process}/status") as status:
        return int(next(row for row in status if row.startswith("VmHWM:")).split()[1])


def peak(path, part, count):
    """The peak of memory of a run of so many lines, in KiB."""
    errors = subprocess.DEVNULL if part.arguments[0] == "member" else None
    with subprocess.Popen([path, *part.arguments], stdin=subprocess.PIPE, stdout=subprocess.PIPE, stderr=errors) as running:
        writer = Thread(target=write_lines, args=(running.stdin, islice(part.lines(), count)), daemon=True)
        writer.start()
        look = of_rounds if part.name == "shown" else of_served
        replies = look(islice(running.stdout, count))
        if replies != count:
            raise NotBounded(f"{replies} replies to {count} lines, and status {running.wait()}")
        reached = peak_of(running.pid)
        writer.join()
        entries = entries_of(running) if part.arguments != RESOLVER else 0
        running.stdin.close()
        if running.wait() != 0:
            raise NotBounded(f"it ended with status {running.returncode}")
    if entries < int(count * part.entries_a_line):
        raise NotBounded(f"{count} lines left {entries} entries alone")
    if entries > MOST_ENTRIES and not part.entries_a_line:
        raise NotBounded(f"{count} lines left {entries} entries")
    return reached


def entries_of(running):
    """How many entries the record of a voter has, which is asked for it."""
    running.stdin.write(b"record\n")
    running.stdin.flush()
    return int(running.stdout.readline().split()[1])


def of_rounds(replies):
    """How many replies there are, each round like the first."""
    count = sum(1 for _ in islice(replies, len(STANDING)))
    first = list(islice(replies, len(SHOWN)))
    count += len(first)
    while reply_round := list(islice(replies, len(SHOWN))):
        count += len(reply_round)
        if reply_round != first[:len(reply_round)]:
            raise NotBounded(f"another round has other replies: {reply_round}")
    return count


def of_served(replies):
    """How many replies there are, none of them a refusal."""
    count = 0
    for reply in replies:
        count += 1
        if reply.startswith(NOT_SERVED):
            raise NotBounded(f"line {count} is not served: {reply}")
    return count


def try_part(path, part, lines):
    """Compares the peaks of a part; what it took, and whether that is as asked."""
    start, count = time.monotonic(), int(lines * part.share)
    try:
        low, high = peak(path, part, count // 10), peak(path, part, count)
    except (NotBounded, BrokenPipeError) as fault:
        print(f"{part.name}: {fault}")
        return False
    bound = SPARE + int(count * 0.9 * part.entries_a_line * BYTES_OF_AN_ENTRY / 1024)
    is_bounded = high - low <= bound
    verdict = "" if is_bounded else f", more than {bound} KiB apart"
    print(f"{part.name}: {count} lines, peaks {low} and {high} KiB{verdict}; {time.monotonic() - start:.1f} s", flush=True)
    return is_bounded


def main():
    parser = argparse.ArgumentParser(description=__doc__, formatter_class=argparse.RawDescriptionHelpFormatter)
    program.add_option(parser)
    program.add_enduring_option(parser)
    parser.add_argument("--lines", type=int, default=200_000, help="how many lines a part has")
    given = parser.parse_args()
    with tempfile.TemporaryDirectory() as folder:
        path, enduring = program.find(given.program, folder), program.find_enduring(given.enduring, folder)
        failed = [it.name for it in PARTS if not try_part(enduring if it.arguments[0] == "member" else path, it, given.lines)]
    return 1 if failed else 0


if __name__ == "__main__":
    sys.exit(main())
