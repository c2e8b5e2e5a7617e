#!/usr/bin/env python3
"""Serves lines as bindings/rust/examples/engine_lines.rs does, and writes the same replies.

    engine_lines.py N ME T OPTIMISTIC < LINES"""

from __future__ import annotations

import sys
from typing import List, Optional

from simplex_view_state import (
    Certificate, Config, Context, Engine, Entries, FetchKind, Input, Kind, Options, Output, Proposal, Round, SimplexError, Subject,
    TimeoutReason, Vote, inputs, outputs,
)

EPOCH = 1
NAMESPACE = bytes([1, *[0] * 31])
OPTIONS = Options(long_record=40)
VOTES = {Kind.NOTARIZATION: "notarize", Kind.NULLIFICATION: "nullify", Kind.FINALIZATION: "finalize"}
CERTIFICATES = {Kind.NOTARIZATION: "notarization", Kind.NULLIFICATION: "nullification", Kind.FINALIZATION: "finalization"}
FETCHES = {FetchKind.NOTARIZATION: "notarization", FetchKind.NULLIFICATION: "nullification", FetchKind.DECISION: "decision"}


def sum_of(data: bytes) -> str:
    """Returns how many bytes there are, and their FNV-1a hash."""
    made = 0xCBF29CE484222325
    for byte in data:
        made = (made ^ byte) * 0x100000001B3 & 0xFFFFFFFFFFFFFFFF
    return f"{len(data)}:{made}"


def payload(number: int) -> bytes:
    """Returns the payload of a number: its bytes at the end."""
    return number.to_bytes(32, "big")


def proposal_of(view: int, parent: int, number: int) -> Proposal:
    return Proposal(Round(EPOCH, view), parent, payload(number))


def bytes_of(number: int) -> bytes:
    """Returns as many bytes of a number as it says, eight times."""
    return bytes([number % 256]) * (8 * number)


def input_of(word: str, it: List[int]) -> Input:
    if word == "proposal":
        return inputs.ProposalFrom(it[0], proposal_of(*it[1:4]))
    if word == "vote":
        return Vote(Subject(Kind(it[0]), proposal_of(*it[2:5])), it[1], bytes_of(it[5]))
    if word == "certificate":
        return Certificate(Subject(Kind(it[0]), proposal_of(*it[1:4])), bytes_of(it[4]))
    if word == "built":
        return inputs.Built(Context(Round(EPOCH, it[0]), it[3], it[1], payload(it[2])), payload(it[4]))
    if word == "verified":
        return inputs.Verified(it[0], it[1] == 1)
    if word == "certified":
        return inputs.Certified(it[0], it[1] == 1)
    if word == "given-up":
        return inputs.GivenUp(it[0], TimeoutReason(it[1]))
    raise ValueError(f"not a line: {word}")


def word_of(it: bool) -> str:
    return "true" if it else "false"


def member_word(member: Optional[int]) -> str:
    return "-" if member is None else str(member)


def round_text(it: Round) -> str:
    return f"{it.epoch}.{it.view}"


def proposal_text(it: Proposal) -> str:
    return f" {round_text(it.round)} {it.parent} {sum_of(it.payload)}"


def context_text(it: Context) -> str:
    return f" {round_text(it.round)} {it.leader} {it.parent} {sum_of(it.parent_payload)}"


def subject_text(words, it: Subject) -> str:
    is_nullify = it.kind == Kind.NULLIFICATION
    return f" {words[it.kind]}{f' {round_text(it.proposal.round)}' if is_nullify else proposal_text(it.proposal)}"


def vote_text(it: Vote) -> str:
    return f"{subject_text(VOTES, it.subject)} {it.signer} {sum_of(it.signature)}"


def entries_text(it: Entries) -> str:
    beside = it.stored
    return f"{sum_of(it.bytes)} {beside.entries} {beside.closed} {beside.retention} {beside.least_retention} {word_of(beside.is_pruned)}"


TEXTS = {
    outputs.Store: lambda it: f"store {entries_text(it.entries)}",
    outputs.Replace: lambda it: f"replace {entries_text(it.entries)}",
    outputs.Sign: lambda it: f"vote{vote_text(Vote(it.subject, it.signer, it.text))}",
    outputs.Broadcast: lambda it: f"broadcast{subject_text(CERTIFICATES, it.certificate.subject)} {sum_of(it.certificate.bytes)}",
    outputs.Verify: lambda it: f"verify{context_text(it.context)}{proposal_text(it.proposal)}",
    outputs.Build: lambda it: f"build{context_text(it.context)}",
    outputs.StopBuilding: lambda it: f"stop {it.view}",
    outputs.Certify: lambda it: f"certify{proposal_text(it.proposal)}",
    outputs.Fetch: lambda it: f"fetch {FETCHES[it.kind]} {it.view} {member_word(it.of)}",
    outputs.Finalized: lambda it: f"finalized{proposal_text(it.proposal)}",
    outputs.Equivocated: lambda it: f"equivocated{vote_text(it.one)}{vote_text(it.other)}",
    outputs.ProposedTwice: lambda it: f"twice {it.view} {it.leader}",
    outputs.Forget: lambda it: f"forget {it.view}",
}


class Lifetime:
    """An engine, and what it stored."""

    def __init__(self, config: Config) -> None:
        self.config, self.engine = config, Engine.start(config, OPTIONS, 0)
        self.stored: Optional[Entries] = None

    def reply(self, line: str) -> str:
        word, *rest = line.split()
        numbers = [int(it) for it in rest]
        if word in ("poll", "resume", "status", "open", "view", "withheld", "shown", "served"):
            return getattr(self, word)(*numbers)
        given = input_of(word, numbers)
        try:
            return word_of(self.engine.handle(given, numbers[-1]))
        except SimplexError:
            return "failed"

    def poll(self, now: int) -> str:
        try:
            output = self.engine.poll(now)
        except SimplexError:
            return "failed"
        self.store(output)
        return "nothing" if output is None else TEXTS[type(output)](output)

    def store(self, output: Optional[Output]) -> None:
        if isinstance(output, outputs.Store):
            self.stored = Entries(self.stored.bytes + output.entries.bytes, output.entries.stored)
        elif isinstance(output, outputs.Replace):
            self.stored = output.entries

    def resume(self, now: int) -> str:
        if self.stored is None:
            return "nothing is stored"
        try:
            self.engine = Engine.resume(self.config, OPTIONS, now, self.stored.stored, self.stored.bytes)
        except SimplexError:
            return "refused"
        return "resumed"

    def status(self) -> str:
        it = self.engine.state()
        return f"status {word_of(it.is_failed)} {it.wake} {it.ignored} {it.fetches}"

    def open(self, index: int) -> str:
        found = self.engine.fetches()[index:index + 1]
        return next((f"open {FETCHES[it.kind]} {it.view} {it.count} {it.moment}" for it in found), "none")

    def view(self, view: int) -> str:
        it = self.engine.view(view)
        return f"view {it.current} {it.last_finalized} {member_word(it.leader)} {word_of(it.admits_vote)} {word_of(it.admits_certificate)}"

    def withheld(self, kind: int, view: int) -> str:
        return f"withheld {int(self.engine.withheld(Kind(kind), view) or 0)}"

    def shown(self, kind: int, view: int) -> str:
        found = self.engine.certificate(Kind(kind), view)
        return f"shown {sum_of(found.bytes)}" if found else "none"

    def served(self, view: int) -> str:
        found = self.engine.serve(view)
        return f"served {sum_of(found.subject.encoded() + found.bytes)}" if found else "none"


def main() -> None:
    if len(sys.argv) != 5:
        sys.exit(__doc__)
    members, me, terms, optimistic = (int(it) for it in sys.argv[1:])
    signer = me if me < members else None
    lifetime = Lifetime(Config(NAMESPACE, members, signer, EPOCH, term_length=terms, optimistic_views=optimistic))
    for line in sys.stdin:
        print(lifetime.reply(line))


if __name__ == "__main__":
    main()
