#!/usr/bin/env python3
"""Tries the must-fail edits of the repository: each is a wrong body, and the contract of a function that it turns has to refuse it.

`rt ci` tries those of `crates/NAME/must-fail`, which it reads itself. This script tries them and those of `tests/mutants/must-fail/NAME`, many in
one check (`lib/batches.py`), over the libraries that `rt ci` or `rt lib` left. Where a library is not built, it is proved first.

    tests/mutants/edits.py                         all edits
    tests/mutants/edits.py simplex_round ..        those of some crates
    tests/mutants/edits.py --only verdict          those whose name holds a word
    tests/mutants/edits.py --gate FILE             those that `rt ci` does not try, and what it printed, in a file, of those that it tried
    tests/mutants/edits.py --gate FILE --beside    the same while `rt ci` is at work: an edit waits for the libraries that it needs
    tests/mutants/edits.py --seconds N             begins no check after N seconds, and says how many edits that left untried

It ends with status 1 where an edit is proved, can't be made or read, is refused only since a proof cites a name that it takes away, or
where one of those that the gate itself must try is missing."""

import argparse
import os
import re
import sys
import tempfile
import time
from concurrent.futures import ThreadPoolExecutor
from pathlib import Path

sys.path.insert(0, str(Path(__file__).resolve().parents[1]))
from lib import kit, libraries
from lib.edits import batches, edits
from lib.edits.beside import Gate
from lib.floors import lacking
from lib.program import ROOT

LEAST = {"edits": 319}
REFUSED_BY_THE_KIT = re.compile(r"must-fail (\S+/\S+)\.edit: refused, as it must be(?!.*only because a proof file names)")
TRIED_BY_THE_GATE = (
    "simplex_voter/never_votes_to_notarize",
    "simplex_voter/never_votes_to_nullify",
    "simplex_voter/never_votes_to_finalize",
    "simplex_voter/finalize_votes_without_the_gate",
    "simplex_voter/a_replayed_vote_to_notarize_is_forgotten",
    "simplex_view_maps/covered_by_a_later_view_of_its_term",
    "simplex_round/certificate_keeps_voted_proposal",
    "simplex_record/a_recovery_that_enters_nothing_after_a_true_verdict",
    "simplex_voter/pruning_drops_later_nullify_votes",
    "simplex_resolver/raise_inside_a_term_scans_nothing_again",
    "simplex_resolver/fetches_every_uncovered_view",
    "simplex_resolver/forgets_failures_of_the_replay",
    "simplex_voter/the_stall_deadline_of_the_latest_view_counts",
    "simplex_voter/a_release_that_is_out_of_memory",
    "simplex_voter/a_state_that_always_fails",
    "simplex_voter/a_state_that_has_always_failed",
    "simplex_member/a_member_that_always_fails",
    "simplex_member/a_member_that_never_has_memory",
    "simplex_member/a_second_result_of_a_verification",
    "simplex_resolver/serves_a_notarization_without_a_verdict",
    "simplex_record/a_check_that_refuses_every_record",
    "simplex_voter/notarize_votes_on_a_replaced_parent",
    "simplex_round/retry_moves_at_every_poll",
    "simplex_member/a_member_that_allows_nothing",
    "simplex_voter/nullify_away_from_the_current_view",
    "simplex_member/a_pruning_by_the_new_retention",
    "simplex_member/a_drop_of_entries_before_the_last_pruning",
    "simplex_record/a_pruning_that_takes_later_votes_to_nullify",
    "simplex_voter/notarize_votes_in_pruned_views",
    "simplex_member/a_vote_to_notarize_that_is_returned_and_not_recorded",
    "simplex_record/a_recovery_that_leaves_out_the_record",
)
WORDS = {
    "name": "is refused only since a proof cites a name that it takes away; change a value and keep the names",
    "proved": "is proved: the contract is too weak, or the edit changes nothing",
    "unknown": "has no verdict",
    "unread": "can't be read, so no contract was tried",
}


def options():
    parser = argparse.ArgumentParser(description=__doc__, formatter_class=argparse.RawDescriptionHelpFormatter)
    parser.add_argument("crates", nargs="*", help="the crates whose edits are tried (else all)")
    parser.add_argument("--only", default="", help="only those whose name holds this")
    parser.add_argument("--gate", type=Path, help="what `rt ci` printed")
    parser.add_argument("--beside", action="store_true", help="`rt ci` still writes that file: begin each crate's edits once what they need is proved")
    parser.add_argument("--seconds", type=float, default=float("inf"), help="begin no check after so many seconds")
    parser.add_argument("--jobs", type=int, default=len(os.sched_getaffinity(0)), help="how many checks run side by side")
    return parser.parse_args()


def missing_from_the_gate(told):
    """The edits that the gate itself must try and does not, and those that it tried and did not refuse at a contract."""
    there = {edit.title for edit in edits.edits_in(edits.TRIED_BY_THE_KIT)}
    yield from (f"{title} is not in crates/*/must-fail, where the gate tries it" for title in TRIED_BY_THE_GATE if title not in there)
    if told is not None:
        refused = set(REFUSED_BY_THE_KIT.findall(told))
        yield from (f"{title} was not refused at a contract by `rt ci`" for title in sorted(there - refused))


def build_below(crates):
    """Proves and builds the libraries below some crates that neither `rt ci` nor `rt lib` left."""
    wanted = {dep.name: dep for crate in crates for dep in crate.below()}
    for dep in sorted(wanted.values(), key=lambda it: len(it.below())):
        if not libraries.is_current(dep, ROOT):
            print(f"{dep.name} is not built: proving it first", flush=True)
            with tempfile.TemporaryFile("w+") as dep.out:
                is_refused = dep.build_rlib(["--jobs", "2"], anew=False)
            if is_refused:
                raise SystemExit(f"{dep.name} is not proved, so no edit above it can be tried")


def verdicts_of(rt, crate, chosen, kept, deadline, gate):
    """The verdicts on a crate's edits, batch after batch, and the seconds that they took. No batch begins after the deadline."""
    if unproved := gate.unproved([dep.name for dep in crate.below()]):
        return [batches.Verdict(edit, "unread", f"{unproved} is not proved") for edit in chosen]
    begun, found, trials = time.monotonic(), [], []
    folder = Path(crate.folder)
    for edit in chosen:
        try:
            trials.append(batches.trial_of(edit, folder))
        except edits.NotMade as fault:
            found.append(batches.Verdict(edit, "unread", str(fault)))
    parts = batches.in_batches(trials, folder)
    for part, texts in parts:
        if time.monotonic() > deadline:
            found += [batches.Verdict(trial.edit, "untried", "") for trial in part]
        else:
            with gate.room():
                found += batches.tried(rt, crate, part, texts, kept)
    print(f"  {crate.name}: {len(chosen)} edits in {len(parts)} checks, {time.monotonic() - begun:.0f} s", flush=True)
    print("".join(f"    {fault}\n" for fault in faults_of(found)), end="", flush=True)
    return found


def faults_of(verdicts):
    """What is not as asked of these verdicts."""
    return [f"{it.edit.title} {WORDS[it.kind]}: {it.said}" for it in verdicts if it.kind in WORDS]


def tried(rt, crates, chosen, jobs, deadline, gate):
    """The verdicts on edits, those of several crates side by side, the crates with the most to prove first."""
    of_crate = {name: [it for it in chosen if it.crate == name] for name in {it.crate for it in chosen}}
    first = sorted(of_crate, key=lambda name: -crates[name].count(b"\n"))
    lanes = len(first) if gate.is_at_work() else jobs
    with tempfile.TemporaryDirectory(prefix="edits-") as room, ThreadPoolExecutor(lanes) as pool:
        for name in first:
            Path(room, name).mkdir()
        work = [pool.submit(verdicts_of, rt, crates[name], of_crate[name], f"{room}/{name}", deadline, gate) for name in first]
        return [verdict for it in work for verdict in it.result()]


def main():
    given, begun = options(), time.monotonic()
    os.chdir(ROOT)
    rt = kit.guarded()
    crates = {crate.name: crate for crate in rt.rtlib.crates_below(str(ROOT))}
    every = edits.edits_in(edits.TRIED_IN_BATCHES) if given.gate else edits.all_edits()
    by_the_kit = edits.edits_in(edits.TRIED_BY_THE_KIT) if given.gate else []
    chosen = [it for it in every if given.only in it.title and (not given.crates or it.crate in given.crates)]
    if not chosen:
        print("no such edits")
        return 1
    needed = [crates[name] for name in sorted({it.crate for it in chosen})]
    gate = Gate(given.gate if given.beside else None, given.jobs)
    if not given.beside:
        build_below(needed)
    found = tried(rt, crates, chosen, given.jobs, begun + given.seconds, gate)
    gate.wait()
    untried = sum(it.kind == "untried" for it in found)
    faults = faults_of(found)
    faults += missing_from_the_gate(given.gate.read_text() if given.gate else None)
    if not given.only and not given.crates:
        faults += lacking({"edits": len(found) + len(by_the_kit)}, LEAST)
    print(f"must-fail edits: {len(found) - untried} in batches, {len(by_the_kit)} by the kit, {len(faults)} not as asked")
    if untried:
        print(f"  {untried} edits were not tried: the time was up")
    print("".join(f"  {fault}\n" for fault in faults), end="")
    return 1 if faults else 0


if __name__ == "__main__":
    sys.exit(main())
