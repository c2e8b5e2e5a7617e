#!/usr/bin/env python3
"""Tests that the sweeps can fail: wrong bodies, each built unproved, and the schedule or the refusal of memory that finds each.

A wrong body is a must-fail edit, made in a copy of the repository and built by `rt try`, which proves nothing. The stored schedules
come first, then random ones. A law of one member's votes is mostly what breaks first; with `--agreement` random networks continue
besides, with these laws left alone, until the members disagree. Bodies that do too little keep all laws, and leave a network stuck
that is continued. Bodies that go wrong where memory is refused are found by `tests/sweeps/memory.py`. A body that stops as if out of memory
wherever its contract allows it is no must-fail edit (`tests/mutants/swept`): the scripts of `tests/scripts` find it.

    tests/mutants/wrong_bodies.py                              all of those below; half a minute each
    tests/mutants/wrong_bodies.py --least                      the four that the gate tries
    tests/mutants/wrong_bodies.py --only without_the_gate --agreement --draw

It ends with status 1 where a wrong body is not found."""

import argparse
import shutil
import subprocess
import sys
import tempfile
import time
from concurrent.futures import ProcessPoolExecutor
from functools import partial
from itertools import zip_longest
from pathlib import Path
from typing import NamedTuple

sys.path.insert(0, str(Path(__file__).resolve().parents[1]))
from lib import program, scripts
from lib.edits import edits
from lib.networks import hostile_runs, progress_runs, schedules
from lib.networks.checks import Broken
from lib.networks.continuation import Stuck
from lib.networks.draw import drawn
from lib.networks.member import ProgramEnded, Served
from lib.networks.network import Network, NotBacked
from lib.program import ROOT
from lib.refused.preload import compiled, limited
from sweeps import memory

WRONG_BODIES = (
    "simplex_voter/finalize_votes_without_the_gate",
    "simplex_voter/the_gate_opens_at_the_current_view",
    "simplex_voter/pruning_drops_later_nullify_votes",
    "simplex_voter/a_replayed_nullify_vote_is_forgotten",
    "simplex_voter/a_replayed_vote_to_notarize_is_forgotten",
    "simplex_voter/prefers_a_parent_below_a_gap",
    "simplex_round/finalize_without_certification",
    "simplex_record/a_pruning_that_takes_later_votes_to_nullify",
    "simplex_record/a_drop_that_takes_votes",
    "simplex_record/a_recovery_that_leaves_out_the_record",
    "simplex_member/a_vote_to_notarize_that_is_returned_and_not_recorded",
    "simplex_voter/nullify_away_from_the_current_view",
)
WRONG_AND_STUCK = (
    "simplex_voter/a_true_verdict_enters_nothing",
    "simplex_voter/never_votes_to_notarize",
    "simplex_voter/never_votes_to_nullify",
)
WRONG_WITHOUT_MEMORY = (
    "simplex_member/a_best_certificate_that_fails_the_member",
    "simplex_member/a_refused_resume_that_loses_the_entries",
    "simplex_resolver/continues_when_its_effects_are_out_of_memory",
    "simplex_voter/a_state_that_always_fails",
)
WRONG_AND_GIVING_UP = ("simplex_voter/no_notarization_has_memory",)
ALL_WRONG = WRONG_BODIES + WRONG_AND_STUCK + WRONG_WITHOUT_MEMORY + WRONG_AND_GIVING_UP
# Those that the gate has found: by the networks a vote to finalize after one to nullify that still covers it, and votes that are
# forgotten; by the scripts a state that stops as if out of memory wherever it may.
LEAST_FOUND = (
    "simplex_voter/finalize_votes_without_the_gate",
    "simplex_voter/a_replayed_vote_to_notarize_is_forgotten",
    "simplex_voter/pruning_drops_later_nullify_votes",
    "simplex_voter/no_notarization_has_memory",
)
RUNS_AT_ONCE = 16


class Found(NamedTuple):
    """A schedule that a wrong body breaks, what it broke, after how many runs, and its picture."""

    schedule: str
    broken: str
    runs: int
    picture: str


def options():
    parser = argparse.ArgumentParser(description=__doc__, formatter_class=argparse.RawDescriptionHelpFormatter)
    parser.add_argument("--only", default="", help="those alone whose name holds this")
    parser.add_argument("--least", action="store_true", help="only those that the gate tries")
    parser.add_argument("--count", type=int, default=400, help="the most random runs of each")
    parser.add_argument("--steps", type=int, default=300, help="the steps of a random run")
    parser.add_argument("--jobs", type=int, default=2, help="how many runs go side by side")
    parser.add_argument("--agreement", action="store_true", help="looks for disagreement besides")
    parser.add_argument("--draw", action="store_true", help="draws each schedule that is found")
    return parser.parse_args()


def wrong_program(folder, name):
    """Builds the program with a wrong body into a folder, or the second one; its path."""
    root = Path(folder) / "repository"
    program.copy_crates(ROOT, root)
    edits.make(root, name)
    if name in WRONG_WITHOUT_MEMORY:
        path = program.find_enduring(None, folder, root)
    else:
        path = program.build(root / "crates/viewstate", Path(folder))
    shutil.rmtree(root)
    return path


def first_refusal(path, folder, jobs):
    """What is not as asked of the wrong body where memory is refused, or None."""
    with ProcessPoolExecutor(jobs, initializer=limited) as pool:
        seen, faults = memory.sweep_all(pool, path, compiled(folder), 1)
    return Found("memory refused", faults[0], sum(seen.values()), "") if faults else None


def stored_runs(path):
    """Plays the stored schedules, up to the first that breaks a law."""
    for count, schedule in enumerate(schedules.all_schedules(), 1):
        with Network(Served(path), 4, {0}, schedule.terms) as network:
            try:
                schedules.play(schedule, network)
            except Broken as broken:
                return Found(f"stored {schedule.name}", str(broken), count, drawn(network))
            except (schedules.NotShown, NotBacked, ProgramEnded):
                continue
    return None


def random_run(path, steps, watches_votes, seed):
    """Plays a random run; what it broke, or None."""
    try:
        hostile_runs.play(Served(path), seed, steps, watches_votes=watches_votes)
    except Broken as broken:
        return Found(f"random --seed {seed} --steps {steps}", str(broken), seed, drawn(broken.network))
    except ProgramEnded:
        pass
    return None


def driven_run(path, seed):
    """Plays a random run and drives it on; what left it stuck, or None."""
    try:
        progress_runs.play(Served(path), seed)
    except Stuck as stuck:
        return Found(f"progress --seed {seed}", str(stuck), seed, drawn(stuck.network))
    except (Broken, ProgramEnded):
        pass
    return None


def first_random(pool, play, count):
    """The first of some random runs that finds the wrong body, or None."""
    for start in range(1, count + 1, RUNS_AT_ONCE):
        found = next((it for it in pool.map(play, range(start, start + RUNS_AT_ONCE)) if it), None)
        if found:
            return found
    return None


def first_script(path):
    """The first script whose replies the program doesn't give, or None."""
    for count, script in enumerate(scripts.all_scripts(), 1):
        done = subprocess.run([path, *script.arguments], input=script.input, capture_output=True, check=False)
        told = done.stdout.decode(errors="replace").splitlines()
        if any(reply not in (scripts.ANY, said) for reply, said in zip_longest(script.replies, told)):
            return Found(f"script {script.shows!r}", f"status {done.returncode}", count, "")
    return None


def first_found(pool, path, name, given):
    """What finds a wrong body first, or None."""
    if name in WRONG_AND_GIVING_UP:
        return first_script(path)
    if name in WRONG_WITHOUT_MEMORY:
        return first_refusal(path, Path(path).parent, given.jobs)
    if name in WRONG_AND_STUCK:
        return first_random(pool, partial(driven_run, path), given.count)
    return stored_runs(path) or first_random(pool, partial(random_run, path, given.steps, True), given.count)


def show(name, found, is_drawn):
    """Prints what was found, if anything was."""
    print(f"{name}: {found.schedule} (run {found.runs}): {found.broken}" if found else f"{name}: NOT FOUND", flush=True)
    if found and is_drawn:
        print(found.picture + "\n")


def try_one(pool, name, given):
    """Builds one wrong body and looks for what it breaks; whether that was found."""
    start = time.monotonic()
    with tempfile.TemporaryDirectory() as folder:
        path = wrong_program(folder, name)
        built = time.monotonic()
        found = first_found(pool, path, name, given)
        show(name, found, given.draw)
        if given.agreement and name in WRONG_BODIES:
            show(f"{name}, disagreement", first_random(pool, partial(random_run, path, given.steps, False), given.count), given.draw)
    print(f"  built in {built - start:.0f} s, tried for {time.monotonic() - built:.1f} s", flush=True)
    return found is not None


def main():
    given = options()
    names = [it for it in (LEAST_FOUND if given.least else ALL_WRONG) if given.only in it]
    with ProcessPoolExecutor(given.jobs) as pool:
        missed = [name for name in names if not try_one(pool, name, given)]
    print(f"wrong bodies: {len(names) - len(missed)} found, {len(missed)} not found")
    return 1 if missed or not names else 0


if __name__ == "__main__":
    sys.exit(main())
