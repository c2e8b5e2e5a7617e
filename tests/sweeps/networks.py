#!/usr/bin/env python3
"""A bench of networks of the built program: stored schedules, random ones with an adversary, fair ones, and ones that are cut and continued.

Each correct member is a process of `viewstate voter`, or of `enduring member voter`. After every reply all certificates that
the votes back are taken, made or not, and the laws of `checks.py` are looked for: agreement, and the rules of each member's
votes over all its lifetimes. A fair run has to let every correct member finalize views besides. A random one of at most f faulty
members, cut somewhere, has to be continued by the correct members alone, in one of three ways, until each finalizes a new view
within a bound; and stored corners, in which a premise or a duty of hosts is missing, have to be stuck or not, just as they say.

    tests/sweeps/networks.py                             all of it, at the default counts
    tests/sweeps/networks.py --only random --seed 7 --count 1 --draw
    tests/sweeps/networks.py --only progress --count 10000
    tests/sweeps/networks.py --only stored --name gate --draw
    tests/sweeps/networks.py --crashes                   members lose all but their journal at times, and resume from it
    tests/sweeps/networks.py --refuse 100                one request for memory in so many is refused; members that fail are restarted

The last two ask `enduring`, the second program; no stored schedule has its replies where memory is refused. Everything is made
by its seed. It ends with status 1 where something is broken, with the last lines before it, or where many runs saw less than is
asked for of so many."""

import argparse
import sys
import tempfile
import time
from collections import Counter
from concurrent.futures import ProcessPoolExecutor
from dataclasses import replace
from functools import partial
from pathlib import Path

sys.path.insert(0, str(Path(__file__).resolve().parents[1]))
from lib import program
from lib.floors import lacking
from lib.networks import corners, fair_runs, hostile_runs, progress_runs, schedules
from lib.networks.checks import Broken
from lib.networks.continuation import Stuck
from lib.networks.draw import drawn
from lib.networks.fair_runs import Stalled
from lib.networks.member import ProgramEnded, Served
from lib.networks.network import Network, NotBacked
from lib.refused.preload import compiled

FAILURES = (Broken, Stalled, Stuck, ProgramEnded, NotBacked, schedules.NotShown)
LINES_SHOWN = 12
# What is asked for of all stored schedules; and of each hundred runs, where these are many, no shorter than usual.
LEAST_STORED = {"runs": 19, "certificates": 80, "views finalized": 30, "conflicts tried": 10, "restarts": 80}
LEAST_STORED_WITH_CRASHES = {**LEAST_STORED, "runs": 25, "restarts": 120, "crashes": 35}
LEAST_OF_CORNERS = {"runs": 14, "stuck": 5, "finalized": 9, "restarts": 60}
LEAST_OF_A_HUNDRED = {
    "random": {"runs": 100, "certificates": 800, "views finalized": 250, "views nullified": 150, "conflicts tried": 70, "restarts": 1200},
    "fair": {"runs": 100, "certificates": 2500, "views finalized": 1200, "views nullified": 80, "restarts": 20},
    "progress": {
        "runs": 100, "constructed": 30, "synchronous": 30, "engine": 30, "new views finalized": 110, "views nullified": 120, "restarts": 400,
        "with faulty members": 25, "with members at several views": 30, "with several last finalized views": 6,
        "with votes above all current views": 8, "with certificates backed that nobody holds": 8, "with views pruned": 4, "with a false verdict": 2,
    },
}
LEAST_CRASHES_OF_A_HUNDRED = {"random": {"crashes": 500, "compactions": 300}, "fair": {"crashes": 10}, "progress": {"crashes": 200}}
LEAST_REFUSED_OF_A_HUNDRED = {"random": {"requests refused": 1000}, "fair": {"requests refused": 1000}, "progress": {"requests refused": 200}}
MANY_RUNS = 50
STEPS, GOAL = 300, 20


def options():
    parser = argparse.ArgumentParser(description=__doc__, formatter_class=argparse.RawDescriptionHelpFormatter)
    program.add_option(parser)
    program.add_enduring_option(parser)
    parser.add_argument("--only", choices=("stored", "corners", "random", "fair", "progress"), help="one part alone")
    parser.add_argument("--name", help="the stored schedule or the corner of this name alone")
    parser.add_argument("--seed", type=int, default=1, help="the first seed")
    parser.add_argument("--count", type=int, default=800, help="how many random runs, how many fair ones, and how many that are driven on")
    parser.add_argument("--members", type=int, help="so many members in each network, 4 or more (else up to 10, by the seed)")
    parser.add_argument("--steps", type=int, default=STEPS, help="the steps of a random run")
    parser.add_argument("--goal", type=int, default=GOAL, help="the view that each correct member finalizes in a fair run")
    parser.add_argument("--crashes", action="store_true", help="members crash too, and resume from their journals")
    parser.add_argument("--refuse", type=int, default=0, help="refuses one request for memory in so many")
    parser.add_argument("--jobs", type=int, default=2, help="how many runs go side by side")
    parser.add_argument("--draw", action="store_true", help="draws each run (with a small count, or with --name)")
    return parser.parse_args()


def stored_run(served, name):
    """Plays the stored schedule of a name; its network."""
    schedule = next(it for it in schedules.all_schedules(served.crashes) if it.name == name)
    network = Network(served, 4, {0}, schedule.terms)
    with network:
        try:
            schedules.play(schedule, network)
        except FAILURES as broken:
            broken.network = network
            raise
    return network


def tally(network):
    """What one run saw."""
    laws = network.laws
    return Counter({
        "runs": 1,
        "calls": len(network.log),
        "certificates": len(laws.backed),
        "views finalized": len(laws.finalized),
        "views nullified": len(laws.nullified),
        "conflicts tried": laws.conflicts(),
        "restarts": network.restarts,
        "crashes": network.crashes,
        "compactions": network.compactions,
        "requests refused": network.refusals,
        "runs with more than f faulty": len(network.faulty) > (network.size - 1) // 3,
    }) + network.saw


def told(play, is_drawn, run):
    """Plays one run; what it saw, its picture if it is drawn, and what is broken or None."""
    try:
        network, broken = play(run), None
    except FAILURES as failure:
        network, broken = failure.network, f"{type(failure).__name__}: {failure}\n{last_lines(failure.network)}"
    return tally(network), drawn(network) if is_drawn else None, broken


def last_lines(network):
    return "\n".join(f"  member {index}: {line} => {reply}" for index, line, reply in network.log[-LINES_SHOWN:])


def served_by(given, folder):
    """By which program the members are served, and how."""
    if not given.crashes and not given.refuse:
        return Served(program.find(given.program, folder))
    path, preload = program.find_enduring(given.enduring, folder), compiled(folder)
    return Served(path, True, given.crashes, given.refuse, preload)


def parts(given, served):
    """The parts that are asked for: a name, how a run is played, and the runs."""
    names = [it.name for it in schedules.all_schedules(served.crashes) if given.name in (None, it.name)]
    corner_names = [it.name for it in corners.ALL_CORNERS if given.name in (None, it.name)]
    seeds = range(given.seed, given.seed + given.count)
    all_parts = (
        ("stored", partial(stored_run, served), names),
        ("corners", partial(corners.play, served), corner_names),
        ("random", partial(random_run, served, given.steps, given.members), seeds),
        ("fair", partial(fair_run, served, given.goal, given.members), seeds),
        ("progress", partial(progress_run, served, given.members), seeds),
    )
    wanted = [given.only] if given.only else [it[0] for it in all_parts]
    unwanted = [*(["random", "fair", "progress"] if given.name else []), *(["stored", "corners"] if served.refuses_one_in else [])]
    return [it for it in all_parts if it[0] in wanted and it[0] not in unwanted and it[2]]


def random_run(served, steps, members, seed):
    return hostile_runs.play(replace(served, seed=seed), seed, steps, members)


def fair_run(served, goal, members, seed):
    return fair_runs.play(replace(served, seed=seed), seed, goal, members)


def progress_run(served, members, seed):
    return progress_runs.play(replace(served, seed=seed), seed, members)


def least_of(name, runs, given):
    """The least that so many runs of a part have to see."""
    if name in ("stored", "corners"):
        stored = LEAST_STORED_WITH_CRASHES if given.crashes else LEAST_STORED
        return {} if given.name else LEAST_OF_CORNERS if name == "corners" else stored
    if len(runs) < MANY_RUNS or given.steps < STEPS or given.goal < GOAL:
        return {}
    crashes = LEAST_CRASHES_OF_A_HUNDRED[name] if given.crashes else {}
    least = {**LEAST_OF_A_HUNDRED[name], **crashes, **(LEAST_REFUSED_OF_A_HUNDRED[name] if given.refuse else {})}
    return {what: count * len(runs) / 100 for what, count in least.items()}


def play_part(pool, name, play, runs, given):
    """Plays the runs of a part, and prints what it saw. Returns how many are broken, or what was seen too seldom."""
    seen, failed, start = Counter(), 0, time.monotonic()
    for run, (saw, picture, broken) in zip(runs, pool.map(partial(told, play, given.draw), runs, chunksize=4)):
        seen += saw
        failed += broken is not None
        if picture:
            print(f"{name} {run}:\n{picture}\n")
        if broken:
            print(f"{name} {run}: {broken}")
    told_all = ", ".join(f"{count} {what}" for what, count in seen.items())
    print(f"{name}: {told_all}; {failed} broken; {time.monotonic() - start:.1f} s", flush=True)
    lacks = lacking(seen, least_of(name, runs, given))
    print("".join(f"  {it}\n" for it in lacks), end="")
    return failed + len(lacks)


def main():
    given = options()
    with tempfile.TemporaryDirectory() as folder, ProcessPoolExecutor(given.jobs) as pool:
        served = served_by(given, folder)
        failed = sum(play_part(pool, *part, given) for part in parts(given, served))
    return 1 if failed else 0


if __name__ == "__main__":
    sys.exit(main())
