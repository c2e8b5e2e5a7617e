#!/usr/bin/env python3
"""Tests that a wrong definition is refused: each is put in place on a copy, and the worked scripts and networks are computed from it.

A contract is an equation with a definition, so code and definition that are wrong alike agree. Against that there are
the examples: what was written down, computed from the definitions, and networks step by step. Here no code is proved: a copy
of each crate with examples gets a function whose proof imports them, and this alone is checked, with the crates below as
source. A minute each, on one processor.

    tests/mutants/wrong_definitions.py                     all of them
    tests/mutants/wrong_definitions.py --only verdict      those whose name holds a word
    tests/mutants/wrong_definitions.py --by engine         those that the examples of one crate refuse
    tests/mutants/wrong_definitions.py --page              writes `docs/inside/REFUSED.md` besides
    tests/mutants/wrong_definitions.py --built             reads the crates that a wrong definition leaves alone as `rt lib` builds them:
                                                   quicker where they are proved already

It ends with status 1 where a wrong definition passes, where it doesn't read, or where the examples fail without one."""

import argparse
import re
import shutil
import subprocess
import sys
import tempfile
from pathlib import Path
from typing import NamedTuple

sys.path.insert(0, str(Path(__file__).resolve().parents[1]))
from lib.program import ROOT

KIT = Path(shutil.which("rt") or "/").resolve().parent.parent
FUNCTION = "examples_compute"
PAGE = ROOT / "docs/inside/REFUSED.md"
HEAD = """# Wrong definitions that are refused

Written by `tests/mutants/wrong_definitions.py --page`; `docs/TESTED.md` says what it tries.

| Wrong definition | In `specs/` | Refused by |
|---|---|---|
"""


class Examples(NamedTuple):
    """Where a crate's examples stand in proofs/, and the modules of functions whose contracts are worked networks or laws."""

    modules: tuple
    functions: tuple = ()


EXAMPLES = {
    "laws_voter": Examples(tuple(f"Examples.{name}" for name in (
        "Configurations", "Definitions", "Votes", "Terms", "Parents", "Windows", "Moments", "Hostile", "Mixed"))),
    "simplex_record": Examples(("Examples", "RecoveryExamples")),
    "simplex_member": Examples(("RestartExamples", "CallExamples")),
    "simplex_resolver": Examples(("Examples",), ("resolver::laws",)),
    "laws_safety": Examples(
        tuple(f"networks.{name}" for name in ("Scripts", "DifferentLives", "AheadNetwork", "Rivals", "PlainNetwork")),
        ("laws::instances", "laws::plain", "laws::rivals")),
    "laws_history": Examples((), ("histories::histories_are_shown",)),
    "laws_progress": Examples((), ("progress::continuations", "progress::instances")),
    "laws_chains": Examples((), tuple(f"chains::{name}" for name in (
        "finalized_parents_are_certified", "finalized_chains_reach_genesis", "views_ahead_reach_genesis", "chains_need_offers",
        "parents_need_one_elector", "votes_may_be_on_another_parent", "verdicts_on_offers_await_parents"))),
    "laws_engine": Examples(("Examples", "Votes", "AskedFetches"), (
        "laws::calls_were_received_before", "laws::nullifies_once_due", "laws::work_was_given", "laws::engines_run_on_offers", "laws::polls_end")),
    "laws_hosts": Examples((), ("agreement",)),
    "laws_host_steps": Examples((), ("steps",)),
    "laws_rounds": Examples((), ("laws_rounds::rounds",)),
    "laws_meetings": Examples((), ("laws_meetings::meetings",)),
    "laws_finals": Examples((), ("laws_finals::finals",)),
}
VOTER, RECORD, MEMBER, RESOLVER, LAWS, HISTORIES, PROGRESS, CHAINS, ENGINE, HOSTS, STEPS, ROUNDS, MEETINGS, FINALS = (
    (name,) for name in (
        "laws_voter", "simplex_record", "simplex_member", "simplex_resolver", "laws_safety", "laws_history", "laws_progress", "laws_chains", "laws_engine",
        "laws_hosts", "laws_host_steps", "laws_rounds", "laws_meetings", "laws_finals"))


class Wrong(NamedTuple):
    """A wrong definition: what it means, its file below crates/, which texts are turned to what, and whose examples are computed."""

    name: str
    file: str
    turns: tuple
    crates: tuple


WRONG_DEFINITIONS = (
    Wrong(
        "a notarized parent is fetched all the same", "simplex_voter/specs/Certification.antt",
        (("is_none (explicit_ancestry_payload x q) && is_none (round_of x q).notarization", "is_none (explicit_ancestry_payload x q)"),), VOTER,
    ),
    Wrong(
        "a binding compares the payload alone", "simplex_voter/specs/Parents.antt",
        (("(is_payload same (parent_payload_for x v p.parent) bound.1 ||", "(is_payload same (ancestry_payload_for_child x v p.parent) bound.1 ||"),), VOTER,
    ),
    Wrong(
        "a request is superseded though nothing else can be built on", "simplex_voter/specs/ProposalRequests.antt",
        (("is_some (find_parent same elect x context.round.view) && not (context_stands x context)", "not (context_stands x context)"),), VOTER,
    ),
    Wrong(
        "the lowest nullification of a term helps into the next one", "simplex_voter/specs/StateAnswers.antt",
        (("map, filter}", "map, filter, slice_get}"),
         ("highest_nullification_in_term x v = last_or None (filter (λ u. covers x.terms.term_length u v) x.nullified)",
          "highest_nullification_in_term x v = slice_get (filter (λ u. covers x.terms.term_length u v) x.nullified) 0")), VOTER,
    ),
    Wrong(
        "a stall deadline at a round's timeout comes second", "simplex_voter/specs/Timeouts.antt",
        (("if nat_le deadline timeout.0 && nat_lt now timeout.0", "if nat_lt deadline timeout.0 && nat_lt now timeout.0"),), VOTER,
    ),
    Wrong(
        "a request to build stays open until a block is taken", "simplex_member/specs/CallSemantics.antt",
        (("outstanding_work_after x o (Proposed v _ _) = without_context o v",
          "outstanding_work_after x o (Proposed v payload _) = if option_map_or (λ context. proposed_answer same elect x context payload) (context_at o v) false"
          " then without_context o v else o"),), MEMBER,
    ),
    Wrong(
        "a verification stays open until its answer counts", "simplex_member/specs/CallSemantics.antt",
        (("outstanding_work_after x o (Verified v) = without_verification o v",
          "outstanding_work_after x o (Verified v) = if verified_answer same elect x v then without_verification o v else o"),), MEMBER,
    ),
    Wrong(
        "the newest offers alone stay open", "simplex_member/specs/OutstandingWork.antt",
        (("insert_key nat_cmp views p.round.view) o.offered proposals", "insert_key nat_cmp views p.round.view) [] proposals"),), MEMBER,
    ),
    Wrong(
        "a repeated vote is recorded again", "simplex_member/specs/CallSemantics.antt",
        (("unrepeated_vote (Some (retry, vote)) = if retry then [] else vote ∷ []", "unrepeated_vote (Some (retry, vote)) = vote ∷ []"),), MEMBER,
    ),
    Wrong(
        "the last life's retention bounds the next one", "simplex_member/specs/Restarts.antt",
        (("nat_lt m.least_retention retention", "nat_lt m.retention retention"),), MEMBER,
    ),
    Wrong(
        "two votes to finalize a view stand beside each other", "simplex_record/specs/Check.antt",
        (("contradicts_vote before (FinalizeVote p _) = stands p.round.view (finalizes_other p) before", "contradicts_vote before (FinalizeVote p _) = false"),), RECORD,
    ),
    Wrong(
        "a nullification is served before a certified notarization", "simplex_resolver/specs/Answers.antt",
        (("    else (if list_any (is_true_verdict v) calls then Some (OfCertified v)\n"
          "    else (if list_any (is_covering t v) calls then Some (OfNullified (greatest (map (covering_view t v) calls)))\n",
          "    else (if list_any (is_covering t v) calls then Some (OfNullified (greatest (map (covering_view t v) calls)))\n"
          "    else (if list_any (is_true_verdict v) calls then Some (OfCertified v)\n"),), RESOLVER,
    ),
    Wrong(
        "a failed notarization settles again", "simplex_resolver/specs/Steps.antt",
        (("if nat_lt (last_finalized x) v && not (map.contains_key x.uncertifiable v) then Settled OfNotarization v v ∷ [] else []",
          "if nat_lt (last_finalized x) v then Settled OfNotarization v v ∷ [] else []"),), RESOLVER,
    ),
    Wrong(
        "a refused certificate counts as accepted", "laws_safety/specs/Traces.antt",
        (("  accepted_by call _ = []", "  accepted_by call _ = passed_certificates call"),), LAWS,
    ),
    Wrong(
        "a refused restart accepts its floor", "laws_safety/specs/Traces.antt",
        (("  accepted_at (Restarts r) _ = []", "  accepted_at (Restarts r) _ = of_floor r.start.floor"),), LAWS,
    ),
    Wrong(
        "a nullification contradicts no finalization", "laws_safety/specs/Accountability.antt",
        (("Contradicts term_length (Nullify round) (Finalize final) = covers term_length round.view final.round.view ≡ true", "Contradicts term_length (Nullify round) (Finalize final) = ⊥"),
         ("Contradicts term_length (Finalize final) (Nullify round) = covers term_length round.view final.round.view ≡ true", "Contradicts term_length (Finalize final) (Nullify round) = ⊥")), LAWS,
    ),
    Wrong(
        "two proposals of a view don't contradict", "laws_safety/specs/Accountability.antt",
        (("  Contradicts term_length (Notarize p) (Notarize q) = AreRivals p q", "  Contradicts term_length (Notarize p) (Notarize q) = ⊥"),), LAWS,
    ),
    Wrong(
        "a skipped finalized view is no contradiction", "laws_safety/specs/Accountability.antt",
        (("Contradicts term_length (Notarize p) (Finalize final) = AreRivals p final ⊎ ((p.parent < final.round.view) × (final.round.view < p.round.view))",
          "Contradicts term_length (Notarize p) (Finalize final) = AreRivals p final"),
         ("Contradicts term_length (Finalize final) (Notarize p) = AreRivals p final ⊎ ((p.parent < final.round.view) × (final.round.view < p.round.view))",
          "Contradicts term_length (Finalize final) (Notarize p) = AreRivals p final")), LAWS,
    ),
    Wrong(
        "no two votes are evidence", "laws_safety/specs/Accountability.antt",
        (("  IsEvidence (Notarize p) (Notarize q) = AreRivals p q", "  IsEvidence (Notarize p) (Notarize q) = ⊥"),
         ("  IsEvidence (Finalize p) (Finalize q) = AreRivals p q", "  IsEvidence (Finalize p) (Finalize q) = ⊥"),
         ("  IsEvidence (Nullify round) (Finalize p) = round.view ≡ p.round.view", "  IsEvidence (Nullify round) (Finalize p) = ⊥"),
         ("  IsEvidence (Finalize p) (Nullify round) = round.view ≡ p.round.view", "  IsEvidence (Finalize p) (Nullify round) = ⊥")), LAWS,
    ),
    Wrong(
        "a start accepts no floor", "laws_safety/specs/Executions.antt",
        (("trace_of s = of_floor s.start.floor ++ trace_of_steps s.steps s.replies", "trace_of s = trace_of_steps s.steps s.replies"),), LAWS,
    ),
    Wrong(
        "a quorum has one vote less", "laws_safety/specs/Replicas.antt",
        (("quorum n = n - max_faults n", "quorum n = n - max_faults n - 1"),), LAWS,
    ),
    Wrong(
        "a nullification enters the next view, not the next term", "simplex_voter/specs/Acceptance.antt",
        (("let next = next_term_start x.terms.term_length c.round.view in\n      nullified_also", "let next = c.round.view + 1 in\n      nullified_also"),), VOTER,
    ),
    Wrong(
        "a later entry of a view takes the first one's place", "simplex_voter/specs/ViewEntry.antt",
        (("entered_at = Some (unwrap_or r.entered_at now)", "entered_at = Some now"),), VOTER,
    ),
    Wrong(
        "a call on a view that is not tracked tracks it", "simplex_voter/specs/Facts.antt",
        (("with_tracked x v r = if is_tracked x v then with_round x v r else x", "with_tracked x v r = with_round x v r"),), VOTER,
    ),
    Wrong(
        "a gap begins just above the parent alone", "simplex_voter/specs/Gaps.antt",
        (("gap_starts x p = (p + 1) ∷ map (next_term_start x.terms.term_length) x.nullified", "gap_starts x p = (p + 1) ∷ []"),), VOTER,
    ),
    Wrong(
        "an opened window ends one view earlier", "simplex_voter/specs/Leaders.antt",
        (("(v + x.terms.optimistic_views + 1) - v)", "(v + x.terms.optimistic_views) - v)"),), VOTER,
    ),
    Wrong(
        "a chain rests on what was verified, voted for or not", "simplex_voter/specs/Payloads.antt",
        (("is_verified_slot r.slot && r.notarize_decided", "is_verified_slot r.slot"),), VOTER,
    ),
    Wrong(
        "a parent may be too large", "simplex_voter/specs/Refusals.antt",
        (("names_too_large p = is_too_large p.round.view || is_too_large p.parent", "names_too_large p = is_too_large p.round.view"),), VOTER,
    ),
    Wrong(
        "a replayed vote readies no next view", "simplex_voter/specs/Replay.antt",
        (("if is_some (voted_proposal a) then with_next_view_ready elect restored (artifact_view a) else restored", "restored"),), VOTER,
    ),
    Wrong(
        "a finalization of the nullified view leaves the gate shut", "simplex_voter/specs/Rules.antt",
        (("nat_lt u v && covers x.terms.term_length u v && nat_lt x.finalized u", "nat_lt u v && covers x.terms.term_length u v && nat_lt x.finalized (u + 1)"),), VOTER,
    ),
    Wrong(
        "a member without a key decides no vote", "simplex_voter/specs/Votes.antt",
        (("after_construct_finalize x v = if may_finalize elect x v then", "after_construct_finalize x v = if is_some x.me && may_finalize elect x v then"),), VOTER,
    ),
    Wrong(
        "the next term's start is voted for two views early", "simplex_voter/specs/Windows.antt",
        (("nat_le (view - current) (max 1 optimistic))", "nat_le (view - current) (max 2 optimistic))"),), VOTER,
    ),
    Wrong(
        "a certificate that was asked for is asked for again", "simplex_voter/specs/Verification.antt",
        (("fetch_once r w kind = if is_last_request r w then NothingToDo else Lacks w kind", "fetch_once r w kind = Lacks w kind"),), VOTER,
    ),
    Wrong(
        "a third proposal hides that two were seen", "simplex_round/specs/Slot.antt",
        (("conflict = s.conflict || not (same h p); verified = s.verified && same h p", "conflict = not (same h p); verified = s.verified && same h p"),), VOTER,
    ),
    Wrong(
        "a later reason to give a view up takes the first one's place", "simplex_round/specs/Round.antt",
        (("with_first_timeout (Pending leader certification (Some first)) timeout = Pending leader certification (Some first)",
          "with_first_timeout (Pending leader certification (Some first)) timeout = Pending leader certification (Some timeout)"),), VOTER,
    ),
    Wrong(
        "a nullification covers its whole term", "simplex_types/specs/Terms.antt",
        (("covers length u view = nat_le u view && (term_start length u == term_start length view)", "covers length u view = term_start length u == term_start length view"),), VOTER,
    ),
    Wrong(
        "proposals on two parents are the same", "simplex_types/specs/Proposal.antt",
        (("same_round p.round q.round && (p.parent == q.parent) && same_payload", "same_round p.round q.round && same_payload"),), VOTER,
    ),
    Wrong(
        "a window reaches below its term", "simplex_types/specs/Window.antt",
        (("Some (max (term_start length view - 1) (view - 1 - optimistic))", "Some (view - 1 - optimistic)"),), VOTER,
    ),
    Wrong(
        "an inactive leader is skipped at the certification timeout", "simplex_types/specs/Config.antt",
        (("nat_le skip_timeout timeout", "nat_le (skip_timeout + 1) timeout"), ("use Rattle.std.specs.Prelude.{ℕ,", "use Rattle.std.specs.Prelude.{ℕ, ◌+◌,")), VOTER,
    ),
    Wrong(
        "a drop takes what is closed", "simplex_record/specs/Cuts.antt",
        (("nat_lt closed (length entries) && not", "not"),), RECORD,
    ),
    Wrong(
        "a recovery takes what lies below the kept views", "simplex_record/specs/Recovery.antt",
        (("after_kept_entry x now e = if nat_lt (entry_view e) (min_active x) then x else after_entry x now e", "after_kept_entry x now e = after_entry x now e"),), RECORD,
    ),
    Wrong(
        "a verification is answered that nobody asked for", "simplex_member/specs/CallConditions.antt",
        (("  is_allowed x o (Verified v) = is_verifying o v", "  is_allowed x o (Verified v) = true"),), MEMBER,
    ),
    Wrong(
        "a call that is refused changes the member", "simplex_member/specs/MemberFacts.antt",
        (("  unless_retained (Some fault) m next = m", "  unless_retained (Some fault) m next = next"),), MEMBER,
    ),
    Wrong(
        "a start records no floor", "simplex_member/specs/Start.antt",
        (("entries = with_floor [] floor;", "entries = [];"),), MEMBER,
    ),
    Wrong(
        "a journal may lose an entry that is closed", "simplex_member/specs/Journal.antt",
        (("has_lost stored entries = nat_lt (length entries) stored.closed", "has_lost stored entries = nat_lt (length entries + 1) stored.closed"),
         ("nat_lt, List, length", "nat_lt, ◌+◌, List, length")), MEMBER,
    ),
    Wrong(
        "the first view above the floor is no anchor", "simplex_resolver/specs/Facts.antt",
        (("is_anchor t floor v = nat_lt floor v && (starts_term t v || v == floor + 1)", "is_anchor t floor v = nat_lt floor v && starts_term t v"),), RESOLVER,
    ),
    Wrong(
        "a failed view is not wanted", "simplex_resolver/specs/ReceivedFacts.antt",
        (("    || (list_any (is_false_verdict v) calls && nat_lt (floor_of calls) v))", "    || false)"),), RESOLVER,
    ),
    Wrong(
        "a verdict of a record is on the oldest notarization", "simplex_resolver/specs/RecordCalls.antt",
        (("option_or (notarization_at v e) (newest_notarization v before)", "option_or (newest_notarization v before) (notarization_at v e)"),), RESOLVER,
    ),
    Wrong(
        "a record may have a verdict without its notarization", "simplex_resolver/specs/RecordRules.antt",
        (("if is_some (newest_notarization round.view before) then None else Some error.VerdictWithoutNotarization", "None"),), RESOLVER,
    ),
    Wrong(
        "a nullification is served first, in the state", "simplex_resolver/specs/Served.antt",
        (("    (or_else (certified_encoding x.notarizations v)\n    (or_else (covering_encoding x.nullifications v) (floor_for x v)))",
          "    (or_else (covering_encoding x.nullifications v)\n    (or_else (certified_encoding x.notarizations v) (floor_for x v)))"),), RESOLVER,
    ),
    Wrong(
        "a floor that rises ends no fetch", "simplex_resolver/specs/Repair.antt",
        (("settles v (Raised u) = nat_le v u", "settles v (Raised u) = false"),), RESOLVER,
    ),
    Wrong(
        "where skipping is disabled terms are skipped", "simplex_record/specs/Settings.antt",
        (("skip_budget_of skip.Disabled participants = 0", "skip_budget_of skip.Disabled participants = participants"),), RECORD,
    ),
    Wrong(
        "a finalization enters its own view", "laws_history/specs/HistoryFolds.antt",
        (("entered_by term_length is_notarized (AddFinalization c _) = c.proposal.round.view + 1",
          "entered_by term_length is_notarized (AddFinalization c _) = c.proposal.round.view"),), HISTORIES,
    ),
    Wrong(
        "a view may be finalized again", "laws_safety/specs/Continuations.antt",
        (("→ Backed network (Finalize p) → p.round.view < final.round.view", "→ ⊤"),), PROGRESS,
    ),
    Wrong(
        "a member that continues may forget", "laws_safety/specs/Continuations.antt",
        (("(later ≡ and_then s more)", "(more ≡ more)"),), PROGRESS,
    ),
    Wrong(
        "a certificate may be made with faulty votes", "laws_safety/specs/Continuations.antt",
        (("SomeHonest network (HasAccepted c) ⊎ HonestlyBacked later c)", "SomeHonest network (HasAccepted c) ⊎ Backed later c)"),), PROGRESS,
    ),
    Wrong(
        "a proposal may come from a faulty member", "laws_safety/specs/Continuations.antt",
        (("SomeHonest later (HasBuilt p))", "⊤)"),), PROGRESS,
    ),
    Wrong(
        "a proposal is built that nobody voted for", "laws_safety/specs/Continuations.antt",
        (("(Proposed p.round.view p.payload now))) × HasSignedAs (Notarize p) i s", "(Proposed p.round.view p.payload now))) × ⊤"),), PROGRESS,
    ),
    Wrong(
        "a vote is a proposal that was built", "laws_safety/specs/Continuations.antt",
        (("HasBuilt p i s = ((now : ℕ) × Contains s.steps (Calls (Proposed p.round.view p.payload now))) ×", "HasBuilt p i s = ℕ ×"),), PROGRESS,
    ),
    Wrong(
        "a finalization need not be signed", "laws_safety/specs/Continuations.antt",
        (("HasSignedAs (Finalize final) i s × HasAccepted (Finalize final) i s", "⊤ × HasAccepted (Finalize final) i s"),), PROGRESS,
    ),
    Wrong(
        "a finalization need not be accepted", "laws_safety/specs/Continuations.antt",
        (("HasSignedAs (Finalize final) i s × HasAccepted (Finalize final) i s", "HasSignedAs (Finalize final) i s × ⊤"),), PROGRESS,
    ),
    Wrong(
        "the later members need not run", "laws_safety/specs/Continuations.antt",
        (("pub runs : IsNetworkOf same elect term_length later", "pub runs : IsNetworkOf same elect term_length network"),), PROGRESS,
    ),
    Wrong(
        "one honest vote makes a certificate", "laws_safety/specs/Continuations.antt",
        (("AtLeastFrom 0 (quorum (length network)) (IsHonestlySigned vote)", "AtLeastFrom 0 1 (IsHonestlySigned vote)"),), PROGRESS,
    ),
    Wrong(
        "a faulty vote counts as an honest one", "laws_safety/specs/Continuations.antt",
        (("IsHonestlySigned vote i Faulty = ⊥", "IsHonestlySigned vote i Faulty = ⊤"),), PROGRESS,
    ),
    Wrong(
        "another member continues in its place", "laws_safety/specs/Continuations.antt",
        (("(Honest t ∷ later) = ExecutionContinues s t × ReplicasContinue network later", "(Honest t ∷ later) = ⊤ × ReplicasContinue network later"),), PROGRESS,
    ),
    Wrong(
        "nothing is asked of honest members", "laws_safety/specs/Continuations.antt",
        (("EachHonest network P = (i : ℕ) (s : Execution K L D) → slice_get network i ≡ Some (Honest s) → P i s", "EachHonest network P = ⊤"),), PROGRESS,
    ),
    Wrong(
        "an exchange changes the members", "laws_progress/specs/MessageExchanges.antt",
        (("    pub continues : ReplicasContinue network later\n", "    pub continues : ReplicasContinue network network\n"),), PROGRESS,
    ),
    Wrong(
        "an exchange brings votes of its own", "laws_progress/specs/MessageExchanges.antt",
        (("⊎ HonestlyBacked network c)", "⊎ HonestlyBacked later c)"),), PROGRESS,
    ),
    Wrong(
        "an exchange brings proposals of its own", "laws_progress/specs/MessageExchanges.antt",
        (("⊎ SomeHonest network (HasBuilt p))", "⊎ SomeHonest later (HasBuilt p))"),), PROGRESS,
    ),
    Wrong(
        "one exchange counts for two", "laws_progress/specs/MessageExchanges.antt",
        (("(between : List (Replica K L D)) × IsExchange network between ×", "(half between : List (Replica K L D)) × IsExchange network half × IsExchange half between ×"),),
        PROGRESS,
    ),
    Wrong(
        "no network may continue", "laws_progress/specs/NotStuck.antt",
        (("pub few_faulty : faults network ≤ max_faults (length network)", "pub few_faulty : ⊥"),), PROGRESS,
    ),
    Wrong(
        "no faulty member is borne", "laws_progress/specs/NotStuck.antt",
        (("pub few_faulty : faults network ≤ max_faults (length network)", "pub few_faulty : faults network ≤ 0"),), PROGRESS,
    ),
    Wrong(
        "the next view alone may be finalized", "laws_progress/specs/NotStuck.antt",
        (("(x.current < start))", "(start ≡ suc x.current))"),
         ("use Rattle.std.specs.Prelude.{◌≡◌, ℕ,", "use Rattle.std.specs.Prelude.{◌≡◌, ℕ, suc,")), PROGRESS,
    ),
    Wrong(
        "a verdict is on whatever was offered", "laws_chains/specs/Chains.antt",
        (("Contains s.replies (Candidates offers fetches) × Contains offers q", "Contains s.replies (Candidates offers fetches) × Unit {0}"),), CHAINS,
    ),
    Wrong(
        "one honest member witnesses a handoff", "laws_chains/specs/Parents.antt",
        (("TwoHonest network = faults network + 2 ≤ quorum (length network)", "TwoHonest network = faults network + 1 ≤ quorum (length network)"),), CHAINS,
    ),
    Wrong(
        "a parent has to be finalized", "laws_chains/specs/Parents.antt",
        (("(Backed network (subject.Notarize q) × IsCertifiedByHonest network q)", "(Backed network (subject.Finalize q) × IsCertifiedByHonest network q)"),),
        CHAINS,
    ),
    Wrong(
        "a proposal that was found bad is certified", "laws_chains/specs/Parents.antt",
        (("Contains (judged_of s) (true, q)", "Contains (judged_of s) (false, q)"),), CHAINS,
    ),
    Wrong(
        "a verdict is of an engine's own accord", "engine_planner/specs/Causes.antt",
        (("of_task (task.Verified view) = Message (task.Verified view) ∷ []", "of_task (task.Verified view) = []"),), ENGINE,
    ),
    Wrong(
        "a view may be nullified before its timeout", "engine_planner/specs/Causes.antt",
        (("if nat_le moment now then Expiry ∷ [] else []", "Expiry ∷ []"),), ENGINE,
    ),
    Wrong(
        "a resolver receives a known certificate once more", "engine_planner/specs/FetchRequests.antt",
        (("(reply.Added is_new _) asked = if is_new then views_received bytes asked else []", "(reply.Added is_new _) asked = views_received bytes asked"),), ENGINE,
    ),
    Wrong(
        "a resolver hears of genesis", "engine_planner/specs/FetchRequests.antt",
        (("above_genesis view it = if view == 0 then [] else it ∷ []", "above_genesis view it = it ∷ []"),), ENGINE,
    ),
    Wrong(
        "what is settled of a kind ends fetches of each", "engine_planner/specs/FetchRequests.antt",
        (("same_kind (fetch_kind of) kind && nat_le start view", "nat_le start view"),), ENGINE,
    ),
    Wrong(
        "a fetch counts as asked though no output asks for it", "engine_planner/specs/AskedFetches.antt",
        (("list_any (is_ask (ask_of old due)) works ≡ true", "list_any (is_ask (ask_of old due)) works ≡ list_any (is_ask (ask_of old due)) works"),), ENGINE,
    ),
    Wrong(
        "a fetch counts as asked before it is due", "engine_planner/specs/AskedFetches.antt",
        (("due.moment ≤ now", "now ≤ now"),), ENGINE,
    ),
    Wrong(
        "an outstanding fetch disappears", "engine_planner/specs/AskedFetches.antt",
        (("→ is_fetch_open kind view new ≡ true", "→ is_fetch_open kind view new ≡ is_fetch_open kind view new"),), ENGINE,
    ),
    Wrong(
        "a peer is asked whose turn it is not", "engine_planner/specs/AskedFetches.antt",
        (("same_kind a.kind b.kind && a.view == b.view && same_member a.of b.of", "same_kind a.kind b.kind && a.view == b.view"),), ENGINE,
    ),
    Wrong(
        "a peer is asked for any certificate that is outstanding", "engine_planner/specs/FetchRequests.antt",
        (("IsWanted : same_kind ask.kind Nullification ≡ true", "IsWanted : same_kind ask.kind ask.kind ≡ same_kind ask.kind ask.kind"),), ENGINE,
    ),
    Wrong(
        "work may be caused by nothing", "simplex_engine/specs/Provenance.antt",
        (("AreAmong (unrequested left) causes ×", "AreAmong (unrequested left) left ×"),), ENGINE,
    ),
    Wrong(
        "views that are kept may be forgotten", "simplex_engine/specs/Provenance.antt",
        (("WorkItem (Forget (min_active x))", "WorkItem (Forget x.finalized)"),), ENGINE,
    ),
    Wrong(
        "the last finalized view is not yet final", "simplex_engine/specs/Provenance.antt",
        (("nat_le view x.finalized", "nat_lt view x.finalized"), ("nat_le, Bool", "nat_le, nat_lt, Bool")), ENGINE,
    ),
    Wrong(
        "fetches may lie a view above all that was heard of", "simplex_engine/specs/FetchHeights.antt",
        (("highest_received m x = max", "highest_received m x = 1 + max"), ("{◌≡◌, ◌≤◌, ℕ", "{◌≡◌, ◌≤◌, ◌+◌, ℕ")), ENGINE,
    ),
    Wrong(
        "an engine that had failed reports out of memory", "simplex_engine/specs/Failures.antt",
        (("(if had_failed then Failed else OutOfMemory)", "OutOfMemory"),), ENGINE,
    ),
    Wrong(
        "polls of a settled engine may return anything", "laws_engine/specs/Polls.antt",
        (("(out ≡ first_of queue) × ReturnQueue (drop 1 queue) rest", "ReturnQueue (drop 1 queue) rest"),), ENGINE,
    ),
    Wrong(
        "all entries of a view are alike", "laws_safety/specs/RecordsOnce.antt",
        (("  are_of_one_kind _ _ = false", "  are_of_one_kind _ _ = true"),), ENGINE,
    ),
    Wrong(
        "a pruning asks the state alone what stays", "engine_outbox/specs/RecordReach.antt",
        (("lowest_retained_after m x = min (min_active x) (finalized_in m.entries - m.retention)", "lowest_retained_after m x = min_active x"),), ENGINE,
    ),
    Wrong(
        "a member asks itself", "engine_fetches/specs/Fetches.antt",
        (("member_at peers place = if nat_lt place peers.me then place else place + 1", "member_at peers place = place"),), ENGINE,
    ),
    Wrong(
        "what is asked for is asked for twice", "engine_fetches/specs/Fetches.antt",
        (("if is_fetch_open kind view fetches then fetches else fetches ++ fresh kind view first moment ∷ []", "fetches ++ fresh kind view first moment ∷ []"),), ENGINE,
    ),
    Wrong(
        "votes for two payloads are on the same", "engine_votes/specs/Subjects.antt",
        (("(subject.Notarize p) (subject.Notarize q) = same_proposal same p q", "(subject.Notarize p) (subject.Notarize q) = same_round p.round q.round"),), ENGINE,
    ),
    Wrong(
        "a certificate has signatures on anything", "engine_votes/specs/Polls.antt",
        (("if same_subject same ballot.subject subject then (member, ballot.signature) ∷ [] else []", "(member, ballot.signature) ∷ []"),), ENGINE,
    ),
    Wrong(
        "a certificate has a signature less", "simplex_types/specs/Quorums.antt",
        (("quorum_of members = members - (members - 1) / 3", "quorum_of members = members - members / 3"),), ENGINE,
    ),
    Wrong(
        "a certificate of hosts needs a vote less", "laws_hosts/specs/HostNetworks.antt",
        (("AtLeastFrom 0 (quorum (length hosts)) (MayHaveSent subject) hosts", "AtLeastFrom 0 (quorum (length hosts) - 1) (MayHaveSent subject) hosts"),), HOSTS,
    ),
    Wrong(
        "one host more than f may be faulty", "laws_hosts/specs/HostNetworks.antt",
        (("(count_by is_faulty_host hosts ≤ max_faults (length hosts))", "(count_by is_faulty_host hosts ≤ max_faults (length hosts) + 1)"),
         ("◌-◌, ◌*◌", "◌+◌, ◌-◌, ◌*◌")), HOSTS,
    ),
    Wrong(
        "a passed vote need not have been carried out", "laws_hosts/specs/HostNetworks.antt",
        (("Some host → MayHaveSent vote.subject vote.signer host", "Some host → Unit {0}"),), HOSTS,
    ),
    Wrong(
        "a floor need not have votes", "laws_hosts/specs/HostNetworks.antt",
        (("(Accepts subject) → IsCertifiable hosts subject", "(Accepts subject) → Unit {0}"),), HOSTS,
    ),
    Wrong(
        "a process is resumed from outputs that were not carried out", "laws_hosts/specs/Processes.antt",
        (("(before ++ process.carried) rest", "(before ++ outputs_of process.calls) rest"),), HOSTS,
    ),
    Wrong(
        "a host carries out what its engine did not return", "laws_hosts/specs/Processes.antt",
        (("pub carries_out : MayBeCarriedOut (outputs_of process.calls) process.carried", "pub carries_out : Unit {0}"),), HOSTS,
    ),
    Wrong(
        "an engine counts another number of members", "laws_hosts/specs/Processes.antt",
        (("pub members_are : length (keys_of process.start.settings.scheme) ≡ members", "pub members_are : Unit {0}"),), HOSTS,
    ),
    Wrong(
        "a chain of hosts names other parents", "laws_hosts/specs/HostAgreement.antt",
        (("× (p.parent ≡ q.round.view) ×", "× (q.parent ≡ q.round.view) ×"),), HOSTS,
    ),
    Wrong(
        "a host's step passes any certificate", "laws_host_steps/specs/HostSteps.antt",
        (("IsCertifiable hosts (certificate_subject (certificate_facts bytes_of certificate))", "Unit {0}"),), STEPS,
    ),
    Wrong(
        "a host's step carries out what its engine did not return", "laws_host_steps/specs/HostSteps.antt",
        (("pub may : MayBeCarriedOut (outputs_of old.calls) (old.carried ++ more)", "pub may : Unit {0}"),), STEPS,
    ),
    Wrong(
        "a host's process begins from another journal", "laws_host_steps/specs/HostSteps.antt",
        (("(journal_of (carried_by processes)) new.start", "(journal_of []) new.start"),), STEPS,
    ),
    Wrong(
        "other hosts change in a step", "laws_host_steps/specs/HostSteps.antt",
        (("(j ≡ i → ⊥) → slice_get later j ≡ slice_get hosts j", "(j ≡ i → ⊥) → Unit {0}"),), STEPS,
    ),
    Wrong(
        "a delivered certificate may be declined", "laws_rounds/specs/Deliveries.antt",
        (("pub taken : IsAnswered true passed old new", "pub taken : IsAnswered false passed old new"),), ROUNDS,
    ),
    Wrong(
        "an engine takes up its work again after a failure", "laws_rounds/specs/Deliveries.antt",
        (("pub stays : has_failed old.core ≡ true → new ≡ old", "pub stays : Unit {0}"),), ROUNDS,
    ),
    Wrong(
        "a finalization counts in each epoch", "laws_rounds/specs/Finality.antt",
        (("HasFinalized (Finalized c) x = c.proposal.round.epoch ≡ x.settings.epoch → c.proposal.round.view ≤ x.finalized",
          "HasFinalized (Finalized c) x = c.proposal.round.view ≤ x.finalized"),), ROUNDS,
    ),
    Wrong(
        "in a round what was sent reaches the process that was the last one before", "laws_rounds/specs/Rounds.antt",
        (("IsLastProcess later j last → IsDelivered", "IsLastProcess hosts j last → IsDelivered"),), ROUNDS,
    ),
    Wrong(
        "an engine may lose the work that is ahead", "laws_meetings/specs/EngineRuns.antt",
        (("pub ahead : AreAmong (work_ahead old) (work_returned call ++ work_ahead new)", "pub ahead : Unit {0}"),), MEETINGS,
    ),
    Wrong(
        "an engine may begin settled", "laws_meetings/specs/EngineRuns.antt",
        (("pub unsettled : IsUnsettled engine", "pub unsettled : Unit {0}"),), MEETINGS,
    ),
    Wrong(
        "an engine may begin with offers that were not returned", "laws_meetings/specs/EngineRuns.antt",
        (("pub reported : HasReportedAll [] engine", "pub reported : Unit {0}"),), MEETINGS,
    ),
    Wrong(
        "an engine may lose what the application must receive", "laws_meetings/specs/EngineRuns.antt",
        (("→ HasReportedAll (given ++ returned_by call) new", "→ HasReportedAll given old"),), MEETINGS,
    ),
    Wrong(
        "views below the last finalized one await their verdicts", "laws_meetings/specs/AwaitedVerdicts.antt",
        (("last.finalized < view →", "view < last.finalized →"),), MEETINGS,
    ),
    Wrong(
        "an application is asked for the verdict on a parent", "laws_meetings/specs/AwaitedVerdicts.antt",
        (("pub of_view : proposal.round.view ≡ view", "pub of_view : proposal.parent ≡ view"),), MEETINGS,
    ),
    Wrong(
        "a verdict is awaited that was given", "laws_meetings/specs/AwaitedVerdicts.antt",
        (("pub no_verdict : is_offered waiting view ≡ true", "pub no_verdict : is_offered waiting view ≡ false"),), MEETINGS,
    ),
    Wrong(
        "a certified view was refused", "laws_meetings/specs/AwaitedVerdicts.antt",
        (("is_judged false (round_of x view).certification ≡ true", "is_judged true (round_of x view).certification ≡ true"),), MEETINGS,
    ),
    Wrong(
        "a view awaits a parent that its parent requires", "laws_meetings/specs/AwaitedVerdicts.antt",
        (("required_certification_parent elect x view p", "required_certification_parent elect x parent p"),), MEETINGS,
    ),
    Wrong(
        "a parent is wrong that a proposal may have", "laws_meetings/specs/AwaitedVerdicts.antt",
        (("has_valid_parent_span x view p.parent ≡ false", "has_valid_parent_span x view p.parent ≡ true"),), MEETINGS,
    ),
    Wrong(
        "at rest certificates of views below the last finalized one were sent", "laws_meetings/specs/Broadcasts.antt",
        (("(kind : KindOfCertificate) (view : ℕ) → last.finalized ≤ view →", "(kind : KindOfCertificate) (view : ℕ) → 0 ≤ view →"),), MEETINGS,
    ),
    Wrong(
        "at rest certificates were sent that the process began with", "laws_meetings/specs/Broadcasts.antt",
        (("→ has_had kind first view ≡ false → IsSent", "→ (first ≡ first) → IsSent"),), MEETINGS,
    ),
    Wrong(
        "a nullification leads to the next view within its term", "laws_meetings/specs/Meetings.antt",
        (("next_view Nullification x view = next_term_start x.terms.term_length view", "next_view Nullification x view = view + 1"),), MEETINGS,
    ),
    Wrong(
        "members of different epochs follow each other", "laws_meetings/specs/Meetings.antt",
        (("→ last.settings.epoch ≡ state.settings.epoch", "→ last.settings.epoch ≡ last.settings.epoch"),), MEETINGS,
    ),
    Wrong(
        "hosts meet that have not sent what their processes began with", "laws_meetings/specs/Meetings.antt",
        (("→ HasSentCertificate bytes_of hosts i kind (round_number earlier view)", "→ Unit {0}"),), MEETINGS,
    ),
    Wrong(
        "a certificate counts as sent by one of another view", "laws_meetings/specs/Meetings.antt",
        (("IsSent bytes_of (carried_by processes) kind round", "((other : Round) × IsSent bytes_of (carried_by processes) kind other)"),), MEETINGS,
    ),
    Wrong(
        "a member waits for a verdict that it has given", "laws_meetings/specs/Meetings.antt",
        (("→ has_certified state view ≡ false → awaits view", "→ has_certified state view ≡ true → awaits view"),), MEETINGS,
    ),
    Wrong(
        "a member awaits the verdicts that another one lacks", "laws_meetings/specs/Meetings.antt",
        (("(AwaitsVerdictOn elect at.process state)", "(AwaitsVerdictOn elect at.process last)"),), MEETINGS,
    ),
    Wrong(
        "members meet whose verdicts differ", "laws_meetings/specs/Meetings.antt",
        (("      → has_certified state view ≡ true", "      → tracks Notarization state view ≡ true"),), MEETINGS,
    ),
    Wrong(
        "a host stops with another record in its journal", "laws_finals/specs/HostLifetimes.antt",
        (("pub entries : entries_of bytes_of (journal_of (before ++ process.carried)).entries ≡ life.left.entries", "pub entries : Unit {0}"),), FINALS,
    ),
    Wrong(
        "a host carries out a vote that its member did not sign", "laws_finals/specs/HostLifetimes.antt",
        (("→ Contains (earlier ++ trace_in life) (Signs vote.signer vote.subject)", "→ Unit {0}"),), FINALS,
    ),
    Wrong(
        "a member accepts in a lifetime what can't exist", "laws_finals/specs/HostLifetimes.antt",
        (("Contains (trace_in life) (Accepts certificate) → MayExist certificate", "Contains (trace_in life) (Accepts certificate) → Unit {0}"),), FINALS,
    ),
    Wrong(
        "one honest host witnesses a handoff", "laws_finals/specs/HostStarts.antt",
        (("count_by is_faulty_host hosts + 2 ≤ quorum", "count_by is_faulty_host hosts + 1 ≤ quorum"),), FINALS,
    ),
    Wrong(
        "hosts start in different epochs", "laws_finals/specs/HostStarts.antt",
        (("(start.settings.epoch ≡ epoch)", "(epoch ≡ epoch)"),), FINALS,
    ),
)


def options():
    parser = argparse.ArgumentParser(description=__doc__, formatter_class=argparse.RawDescriptionHelpFormatter)
    parser.add_argument("--only", default="", help="those alone whose name holds this")
    parser.add_argument("--by", default="", help="those alone that the examples of a crate refuse whose name holds this")
    parser.add_argument("--page", action="store_true", help="write the page")
    parser.add_argument("--built", action="store_true", help="prove what a wrong definition leaves alone, and read that as built")
    return parser.parse_args()


def uses():
    """Each crate with the libraries that it names."""
    lines = (ROOT / "crates.txt").read_text().splitlines()
    return {line.split(":")[0].split()[0]: line.split(":")[1].split() for line in lines if ":" in line}


def below(crate, used):
    """The repository's crates below a crate, each after those that it uses."""
    found = []
    for name in used[crate]:
        if name in used:
            found += [it for it in [*below(name, used), name] if it not in found]
    return found


def import_examples(crate_folder, crate):
    """Adds a function to a crate whose proof imports the crate's examples."""
    modules = EXAMPLES[crate].modules
    with open(crate_folder / "src/lib.rt", "a", encoding="utf-8") as it:
        it.write(f"\n/// The examples compute.\npub fn {FUNCTION}()\n    ensures {{ Unit {{0}} }}\n{{}}\n")
    proof = crate_folder / "proofs" / FUNCTION
    proof.mkdir()
    lines = [f"use Rattle.{crate}.proofs.{module} as examples{at}\n" for at, module in enumerate(modules)]
    lines.append(f"use Rattle.{crate}.proofs.{FUNCTION}.Goals as goal\n")
    (proof / "Answers.antt").write_text("".join(lines))


def copy_crates(root, used):
    """Copies the crates with examples and those below them."""
    for name in sorted({it for crate in EXAMPLES for it in [crate, *below(crate, used)]}):
        for part in ("src", "specs", "proofs"):
            if (ROOT / "crates" / name / part).is_dir():
                shutil.copytree(ROOT / "crates" / name / part, root / name / part)
    for crate in EXAMPLES:
        import_examples(root / crate, crate)


def command(crate, used, kept, built):
    """The check of a crate's examples, in its folder, over these built libraries and the other ones as source."""
    words = ["nice", f"{KIT}/bin/rattle", "check", "--crate-name", crate, "src/lib.rt", "-L", f"dependency={KIT}/rlibs"]
    lower = below(crate, used)
    libraries = {"core", "std", *(name for it in [crate, *lower] for name in used[it] if name not in used)}
    for name in sorted(libraries):
        words += ["--extern", f"{name}={KIT}/rlibs/{name}.rlib"]
    for name in lower:
        if name in built:
            words += ["--extern", f"{name}={ROOT}/crates/{name}/out/rlib/{name}.rlib"]
        else:
            words += ["--lib", f"{name}:{','.join(['core', 'std', *used[name]])}=../{name}/src/lib.rt"]
    words += ["--antt-project", f"{KIT}/rattle/logic/antt-project.json", "--logic-built", f"{KIT}/logic_built", "--incremental", str(kept)]
    for name in (FUNCTION, *EXAMPLES[crate].functions):
        words += ["--only", name]
    return words


def refused(root, crate, used, kept, built):
    """Who refuses, of a crate: the examples that don't compute, else the laws that aren't proved; and what doesn't read."""
    kept.mkdir(exist_ok=True)
    ran = subprocess.run(command(crate, used, kept, built), cwd=root / crate, capture_output=True, text=True, check=False)
    told = ran.stdout + ran.stderr
    files = tuple(f"proofs/{module.replace('.', '/')}.antt" for module in EXAMPLES[crate].modules)
    examples = [name for path, name in re.findall(r"^\S*?(proofs/[^\s:]+)\S*: error: `([^`]+)`:", told, re.MULTILINE) if path in files]
    laws = re.findall(r"^fn \S+::(\w+): not proved", told, re.MULTILINE)
    unread = [line for line in told.splitlines() if re.match(r"\S*(specs|src)/\S+: error", line)]
    if not re.search(r"^only=", told, re.MULTILINE):
        unread = unread or told.splitlines()[-3:]
    return list(dict.fromkeys(examples or laws)), unread


class Stale(Exception):
    """A wrong definition whose text is not in its file exactly once."""


def turned(wrong, text):
    """The text of its file with the wrong definition in it."""
    for old, new in wrong.turns:
        # (a line may have been broken since, at any space)
        place = r"\s+".join(map(re.escape, old.split(" "))) if old.strip() == old else re.escape(old)
        text, count = re.subn(place, lambda _, new=new: new, text)
        if count != 1:
            raise Stale(f"{wrong.name}: {wrong.file} has {old!r} {count} times")
    return text


def put(root, wrong):
    """Puts a wrong definition in place; returns the text that stood there."""
    path = root / wrong.file
    before = path.read_text()
    path.write_text(turned(wrong, before))
    return before


def tried(root, wrong, used, kept, built):
    """Who refuses a wrong definition: the crate and its examples, or what went wrong."""
    text = put(root, wrong)
    turned = wrong.file.split("/")[0]
    try:
        over = {name for name in built if turned != name and turned not in below(name, used)}
        for crate in wrong.crates:
            examples, unread = refused(root, crate, used, kept / crate, over)
            if unread:
                return None, unread
            if examples:
                return crate, examples
        return None, ["nothing refuses it"]
    finally:
        (root / wrong.file).write_text(text)


def build(crates, used):
    """Builds the libraries below these crates, where they are proved: quick where a check kept them."""
    names = {name for crate in crates for name in below(crate, used)}
    for name in sorted(names, key=lambda it: len(below(it, used))):
        subprocess.run(["rt", "lib"], cwd=ROOT / "crates" / name, check=True, stdout=subprocess.DEVNULL)
    return names


def row_of(wrong, crate, told):
    """The row of a wrong definition that is refused."""
    file = wrong.file.removesuffix(".antt").replace("/specs/", "`: `")
    return f"| {wrong.name} | `{file}` | `{crate}`: `{told[0]}` |\n"


def main():
    given = options()
    chosen = [it for it in WRONG_DEFINITIONS if given.only in it.name and any(given.by in crate for crate in it.crates)]
    crates = sorted({crate for it in chosen for crate in it.crates})
    used, failed, rows = uses(), 0, []
    built = build(crates, used) if given.built else set()
    with tempfile.TemporaryDirectory() as folder:
        root, kept = Path(folder) / "crates", Path(folder) / "kept"
        kept.mkdir()
        copy_crates(root, used)
        for crate in crates:
            examples, unread = refused(root, crate, used, kept / crate, built)
            if examples or unread:
                print(f"{crate} as it stands: {examples} {unread}")
                return 1
        for wrong in chosen:
            crate, told = tried(root, wrong, used, kept, built)
            failed += crate is None
            rows += [row_of(wrong, crate, told)] if crate else []
            print(f"{wrong.name}: {f'refused by {crate}: ' if crate else ''}{', '.join(told[:4])}", flush=True)
    if given.page and not failed and not given.only and not given.by:
        PAGE.write_text(HEAD + "".join(rows))
    print(f"{len(chosen)} wrong definitions, {failed} not refused")
    return 1 if failed or not chosen else 0


if __name__ == "__main__":
    sys.exit(main())
