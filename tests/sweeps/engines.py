#!/usr/bin/env python3
"""Networks of engines: `example_network` with many settings, each with several seeds.

A run ends by itself with status 0 once all its views are finalized and every member knows of the last of them; it ends early
where two members hold two proposals final in one view, or where nothing makes progress. Links lose up to half of all messages, the
replies to fetches among them; faulty leaders stay silent or send two proposals; a member crashes and resumes from its disk.
Asked for besides: no record grows past what the engines' settings let stand, fetches are asked where messages are lost, and
in the end no more are open than for a few views. Of one network requests for memory are refused, one in each of
many runs: each ends with the error, and has printed a beginning of what it prints with none refused.

    tests/sweeps/engines.py                              two seeds of each setting
    tests/sweeps/engines.py --seeds 50
    tests/sweeps/engines.py --views 10000                one long run of the usual setting, with its peak of memory
    tests/sweeps/engines.py --wrong                      each wrong body below has to be found

It ends with status 1 where a run is not as asked, with what it printed."""

import argparse
import os
import re
import subprocess
import sys
import tempfile
from concurrent.futures import ThreadPoolExecutor
from itertools import product
from pathlib import Path
from typing import NamedTuple

sys.path.insert(0, str(Path(__file__).resolve().parents[1]))
from lib import program
from lib.refused.preload import compiled
from refusals import REFUSED

SECONDS = 600
# A record is made short past 400 entries, once more of its views would go than stay: a window of ten views and the open term stay.
MOST_ENTRIES = 1600
MOST_OPEN = 8


class Setting(NamedTuple):
    """What a network is asked for, and how many views."""

    words: str
    views: int
    asks: bool = True


SETTINGS = (
    Setting("--members 4 --faulty 1", 150),
    Setting("--members 4 --faulty 0 --loss 0", 150, asks=False),
    Setting("--members 4 --faulty 1 --loss 30", 80),
    Setting("--members 4 --faulty 1 --loss 50", 25),
    Setting("--members 4 --faulty 1 --term 5 --optimistic 4", 150),
    Setting("--members 7 --faulty 2 --loss 15", 80),
    Setting("--members 10 --faulty 3 --term 3 --optimistic 2 --loss 10", 80, asks=False),
    Setting("--members 2 --faulty 0 --loss 10", 50, asks=False),
    Setting("--members 1 --faulty 0 --loss 0", 200, asks=False),
)


class Wrong(NamedTuple):
    """A wrong body: a file below `crates`, a text there, and what is put in its place."""

    name: str
    path: str
    right: str
    wrong: str


WRONG = (
    Wrong("nothing is asked for again", "engine_fetches/src/fetches.rt", "moment: now.saturating_add(retry),", "moment: u64::MAX,"),
    Wrong("a certificate of votes is thrown away", "simplex_engine/src/engine/votes.rt",
          "match self.accept(&certificate, now) {", "match self.see() {"),
    Wrong("a timeout is never due", "engine_planner/src/plan/replies.rt", "if moment <= now {", "if moment < moment.min(now) {"),
    Wrong("a long record is never made short", "engine_outbox/src/journaled/reach.rt",
          "long < self.member.record().len()", "self.member.record().len() < long"),
)


def run(path, setting, seed, views=None):
    """What a network printed, and what is not as asked of it."""
    words = [*setting.words.split(), "--views", str(views or setting.views), "--seed", str(seed), "--quiet"]
    try:
        ended = subprocess.run([path, *words], capture_output=True, text=True, timeout=SECONDS)
    except subprocess.TimeoutExpired:
        return " ".join(words), "", ["it did not end"]
    return " ".join(words), ended.stdout + ended.stderr, faults_in(ended, setting)


def faults_in(ended, setting):
    """What is not as asked of a run that ended."""
    if ended.returncode != 0:
        return [f"it ended with status {ended.returncode}"]
    members = [[int(it) for it in row] for row in re.findall(
        r"^member \d+: (\d+) finalized, the last view (\d+), \d+ restarts, (\d+) fetches asked and (\d+) open, .*, (\d+) entries", ended.stdout, re.M)]
    found = []
    if len({last for _, last, *_ in members}) != 1:
        found.append("the members' last views differ")
    if any(finalized > last for finalized, last, *_ in members):
        found.append("more was reported final than there are views")
    if any(is_open > MOST_OPEN for *_, is_open, _ in members):
        found.append(f"more than {MOST_OPEN} fetches stand open in the end")
    if max(entries for *_, entries in members) > MOST_ENTRIES:
        found.append(f"a record has more than {MOST_ENTRIES} entries")
    if setting.asks and not any(asked for *_, asked, _, _ in members):
        found.append("nothing was asked for")
    return found


def sweep(path, seeds):
    """How many runs were not as asked, each printed."""
    wrong = 0
    with ThreadPoolExecutor() as pool:
        for words, printed, found in pool.map(lambda it: run(path, *it), product(SETTINGS, range(1, seeds + 1))):
            if found:
                wrong += 1
                print(f"{words}: {'; '.join(found)}\n{printed}")
    return wrong


REFUSED_WORDS = ("--members", "4", "--faulty", "1", "--loss", "20", "--views", "12", "--seed", "5")
REFUSALS = 150


def refuse(path, folder):
    """How many runs with a request for memory refused were not as asked, each printed, and how many there were."""
    preload = compiled(folder)
    right = subprocess.run([path, *REFUSED_WORDS], capture_output=True, text=True)
    requests = least_without(path, preload, right)
    numbers = range(1, requests, max(1, requests // REFUSALS))
    with ThreadPoolExecutor() as pool:
        ended = list(pool.map(lambda number: refused(path, preload, number), numbers))
    wrong = [number for number, (it, _) in zip(numbers, ended) if not is_refusal(it, right)]
    for number in wrong:
        print(f"request {number} refused: not as asked")
    return len(wrong) + (len(ended) < REFUSALS), len(ended)


def least_without(path, preload, right):
    """A number of a request that is not made any more, a power of two."""
    number = 1
    while refused(path, preload, number)[1]:
        number *= 2
    return number


def refused(path, preload, number):
    """A run with one request refused, and whether it was made."""
    with tempfile.TemporaryFile() as mark:
        environment = {**os.environ, "LD_PRELOAD": preload, "REFUSED_FD": str(mark.fileno()), "REFUSE_MEMORY": str(number)}
        ended = subprocess.run([path, *REFUSED_WORDS], capture_output=True, text=True, env=environment, pass_fds=(mark.fileno(),), timeout=SECONDS)
        return ended, REFUSED in os.pread(mark.fileno(), 1 << 20, 0)


def is_refusal(ended, right):
    """Whether a run ended with the error of a lack of memory, or did without what was refused."""
    if ended.returncode == 0:
        return ended.stdout == right.stdout
    return ended.returncode == 1 and "emory" in ended.stderr and right.stdout.startswith(ended.stdout)


def built(root, folder, name):
    """The program, unproved, of the crates in a folder."""
    return program.build(root / "crates/example_network", folder, name)


def try_wrong(folder):
    """How many wrong bodies the settings do not find."""
    missed = 0
    for number, body in enumerate(WRONG):
        root = folder / f"wrong-{number}"
        program.copy_crates(program.ROOT, root)
        file = root / "crates" / body.path
        text = file.read_text()
        if text.count(body.right) != 1:
            raise SystemExit(f"{body.name}: {body.right!r} stands {text.count(body.right)} times in {body.path}")
        file.write_text(text.replace(body.right, body.wrong))
        found = any(run(built(root, folder, f"program-{number}"), setting, 1, 1500 if "short" in body.name else None)[2] for setting in SETTINGS)
        print(f"{'found' if found else 'MISSED'}: {body.name}")
        missed += not found
    return missed


def long_run(path, views):
    """One long run; its summary and its peak of memory."""
    words = ["/usr/bin/time", "-f", "%M KiB at most, %e s", path, "--views", str(views), "--quiet"]
    ended = subprocess.run(words, capture_output=True, text=True)
    print(ended.stdout.partition("\nEach")[0] + ended.stderr)
    return bool(faults_in(ended, SETTINGS[0]))


def main():
    parser = argparse.ArgumentParser(description=__doc__.splitlines()[0])
    parser.add_argument("--program", help="the built program, if there is one")
    parser.add_argument("--seeds", type=int, default=2)
    parser.add_argument("--views", type=int, help="one long run of so many views")
    parser.add_argument("--wrong", action="store_true", help="try the wrong bodies")
    given = parser.parse_args()
    with tempfile.TemporaryDirectory() as room:
        folder = Path(room)
        if given.wrong:
            missed = try_wrong(folder)
            print(f"{len(WRONG)} wrong bodies, {missed} missed")
            return missed > 0
        path = given.program or built(copied(folder), folder, "example_network")
        if given.views:
            return long_run(path, given.views)
        wrong = sweep(path, given.seeds)
        wrong_refusals, refusals = refuse(path, folder)
        print(f"{len(SETTINGS) * given.seeds} networks of engines, {refusals} with a request for memory refused, {wrong + wrong_refusals} not as asked")
        return wrong + wrong_refusals > 0


def copied(folder):
    """A copy of the crates, so that a build need not wait for an `rt` that is at work in them."""
    program.copy_crates(program.ROOT, folder / "sources")
    return folder / "sources"


if __name__ == "__main__":
    sys.exit(main())
