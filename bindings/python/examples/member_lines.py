#!/usr/bin/env python3
"""Serves the lines of the repository's program viewstate (docs/PROGRAM.md) through this package, and writes the replies of the examples
first_script and resolver of the Rust package.

    member_lines.py voter N ME T OPTIMISTIC [resume|compact] < LINES
    member_lines.py resolver T < LINES"""

from __future__ import annotations

import sys
from typing import Callable, List, Optional

from simplex_view_state import (
    Certificate, Config, Context, Cut, Effect, Ending, Entries, FetchEffect, FetchReason, FinalizedEffect, Kind, Member, Missing, Proposal,
    Resolver, Round, SettledEffect, SimplexError, Status, Subject, TimeoutReason, scan,
)

EPOCH = 1
NAMESPACE = bytes([1, *[0] * 31])
VOTES = {"notarize": Kind.NOTARIZATION, "nullify": Kind.NULLIFICATION, "finalize": Kind.FINALIZATION}
CERTIFICATES = {"notarization": Kind.NOTARIZATION, "nullification": Kind.NULLIFICATION, "finalization": Kind.FINALIZATION}
WORDS = {kind: word for word, kind in CERTIFICATES.items()}
FETCHED = {FetchReason.MISSING_NULLIFICATION: "missing_nullification", FetchReason.CERTIFICATION_FAILED: "certification_failed"}
FAULTS = {Status.FAILED: "fault 2 Failed", Status.VIEW_TOO_LARGE: "fault 3 ViewTooLarge", Status.TIME_OVERFLOW: "fault 4 TimeOverflow",
          Status.NOT_ALLOWED: "not-allowed"}
REFUSED = ("1 OutOfOrder", "2 OtherEpoch", "3 ZeroView", "4 ViewTooLarge", "5 ForeignSigner", "6 ParentNotBelow",
           "7 VerdictWithoutNotarization", "8 ContradictingVerdicts", "9 NullifyBesideFinalize", "10 ContradictingVotes",
           "11 FinalizeWithoutVerdict", "12 TimeOverflow", "14 RetentionGrown")


def sum_of(data: bytes) -> str:
    """Returns how many bytes there are, and their FNV-1a hash."""
    made = 0xCBF29CE484222325
    for byte in data:
        made = (made ^ byte) * 0x100000001B3 & 0xFFFFFFFFFFFFFFFF
    return f"{len(data)}:{made}"


def number_of(payload: bytes) -> int:
    """Returns the number of a payload: its last eight bytes."""
    return int.from_bytes(payload[24:], "big")


def proposal_of(view: int, parent: int, number: int) -> Proposal:
    return Proposal(Round(EPOCH, view), parent, number.to_bytes(32, "big"))


def certificate_of(kind: Kind, proposal: Proposal) -> Certificate:
    """Returns a certificate of this example: one byte that no one reads."""
    return Certificate(Subject(kind, proposal), b"\1")


def word_of(it: bool) -> str:
    return "true" if it else "false"


def camel_of(name: str) -> str:
    return name.title().replace("_", "")


def participant_text(it: Optional[int]) -> str:
    return "-" if it is None else str(it)


def proposal_text(word: str, it: Proposal) -> str:
    return f"{word} {it.round.view} {it.parent} {number_of(it.payload)}"


def context_text(word: str, it: Context) -> str:
    return f"{word} {it.round.view} {it.leader} {it.parent} {number_of(it.parent_payload)}"


def certificate_text(it: Optional[Certificate]) -> str:
    return f"{WORDS[it.subject.kind]} {it.subject.proposal.round.view}" if it else "none"


def entries_text(it: Entries) -> str:
    beside = it.stored
    return f"{sum_of(it.bytes)} {beside.entries} {beside.closed} {beside.retention} {beside.least_retention} {word_of(beside.is_pruned)}"


class Voter:
    """A member of which lines are asked, with the journal of a host that compacts it."""

    def __init__(self, config: Config, way: str) -> None:
        self.config, self.member, self.resumes = config, Member.start(config, 0), way == "resume"
        self.stored: Optional[Entries] = self.member.entries_since(0) if way == "compact" else None
        self.taken = 0

    def reply(self, line: str) -> str:
        word, *rest = line.split()
        made = self.reply_to(word, rest)
        if self.stored:
            self.grow(word == "prune")
        return made

    def reply_to(self, word: str, rest: List[str]) -> str:
        numbers = [int(it) for it in rest if it.isdigit()]
        if word in ("restart", "restart-pruned"):
            return self.restart(Cut(numbers[0], word == "restart-pruned"), numbers[1])
        try:
            if word in VOTES:
                return self.vote(word, *numbers)
            if word in CERTIFICATES:
                return self.add(CERTIFICATES[word], *numbers)
            if word in PLAIN:
                return PLAIN[word](self.member, *numbers)
            return getattr(self, f"reply_{word}")(*rest)
        except SimplexError as error:
            return FAULTS[error.status]

    def add(self, kind: Kind, view: int, *rest: int) -> str:
        if kind == Kind.NULLIFICATION:
            return f"added {word_of(self.member.add(certificate_of(kind, proposal_of(view, 0, 0)), *rest).is_new)}"
        parent, number, now = (*rest, 0)[:3]
        it = self.member.add(certificate_of(kind, proposal_of(view, parent, number)), now)
        return f"added {word_of(it.is_new)} {participant_text(it.equivocator)}"

    def vote(self, word: str, view: int) -> str:
        it = self.member.construct(VOTES[word], view)
        if it is None:
            return "none"
        assert it.text == it.subject.text(NAMESPACE), "a vote signs its subject's text"
        return f"nullify {it.subject.proposal.round.view} {word_of(it.is_repeat)}" if word == "nullify" else proposal_text(word, it.subject.proposal)

    def reply_propose(self) -> str:
        it = self.member.try_propose()
        return context_text("prepare" if it.is_handoff else "propose", it.context) if it else "none"

    def reply_abandon(self, view: str) -> str:
        reason = self.member.pending_handoff_abandonment(int(view))
        return "none" if reason is None else camel_of(reason.name)

    def reply_verify(self) -> str:
        it = self.member.try_verify()
        if isinstance(it, Missing):
            return f"resolve {it.proposal} {it.view} {WORDS[it.kind]} {it.target}"
        return f"{context_text('ready', it.context)} {number_of(it.proposal.payload)}" if it else "wait"

    def reply_candidates(self) -> str:
        it = self.member.certify_candidates()
        offered = "".join(f" {proposal.round.view}" for proposal in it.proposals)
        return f"candidates{offered} fetch{''.join(f' {fetch.proposal}:{fetch.view}' for fetch in it.fetches)}"

    def reply_verdict(self, view: str, success: str, now: str) -> str:
        it = self.member.certified(int(view), success == "true", int(now))
        return f"certified {it.subject.proposal.round.view}" if it else "none"

    def reply_broadcast(self, kind: str, view: str) -> str:
        return certificate_text(self.member.broadcast(CERTIFICATES[kind], int(view)))

    def reply_trigger(self, view: str, reason: str, now: str) -> str:
        reasons = {camel_of(it.name): it for it in TimeoutReason}
        self.member.trigger_timeout(int(view), reasons[reason], int(now))
        return "ok"

    def reply_timeout(self, now: str) -> str:
        it = self.member.next_timeout(int(now))
        return f"timeout {it.moment} {camel_of(it.reason.name)}"

    def reply_view(self) -> str:
        it = self.member.view(0)
        return f"view {it.current} {it.last_finalized} {it.min_active}"

    def reply_known(self, view: str) -> str:
        it = self.member.view(int(view))
        flags = " ".join(word_of(flag) for flag in (it.is_tracked, it.admits_vote, it.admits_certificate, it.voted_nullify))
        return f"known {participant_text(it.leader)} {flags} {number_of(it.forwardable.payload) if it.forwardable else '-'}"

    def reply_withheld(self, kind: str, view: str) -> str:
        return f"withheld {int(self.member.withheld(Kind(int(kind)), int(view)) or 0)}"

    def reply_shown(self, kind: str, view: str) -> str:
        it = self.member.certificate(Kind(int(kind)), int(view))
        return f"shown {sum_of(it.bytes)}" if it else "none"

    def reply_scan(self, cut: str) -> str:
        journal = self.member.entries_since(0).bytes
        it = scan(journal[:max(0, len(journal) - int(cut))])
        return f"scan {it.entries} {it.bytes} {Ending(it.ending).name.lower()}"

    def restart(self, cut: Cut, now: int) -> str:
        """Begins another lifetime from the record: in place, or as another process would, from the bytes that were stored."""
        if self.resumes and cut == Cut() and self.resume(self.member.entries_since(0), now) is None:
            return "ok"
        resumed = self.resume(self.stored, now) if self.stored else None
        # Where a resume is refused, a restart in place is refused alike, and leaves the member failed.
        restarted = self.status_of(lambda: self.member.restart(self.config, now, cut))
        if resumed is not None and resumed != restarted:
            raise ValueError("a resume is refused where a restart is not")
        if self.stored:
            self.stored = self.member.entries_since(0)
        return "ok" if restarted is None else f"refused {REFUSED[restarted - Status.OUT_OF_ORDER]}"

    def resume(self, stored: Entries, now: int) -> Optional[Status]:
        def begin() -> None:
            self.member = Member.resume(self.config, now, stored.stored, stored.bytes)
        return self.status_of(begin)

    @staticmethod
    def status_of(body: Callable[[], None]) -> Optional[Status]:
        """Returns the status by which a call is refused; None where it is not."""
        try:
            body()
        except SimplexError as error:
            return error.status
        return None

    def grow(self, is_pruned: bool) -> None:
        """Appends what the record has grown by; with a pruning, puts all that is left in place of the journal."""
        grown = self.member.entries_since(self.stored.stored.entries)
        self.stored = Entries(self.stored.bytes + grown.bytes, grown.stored)
        if is_pruned:
            before, self.stored = self.stored.stored.entries, self.member.prune_record()
            self.taken += before - self.stored.stored.entries


def done(_: object) -> str:
    return "ok"


# The lines of a word and numbers.
PLAIN = {
    "proposal": lambda member, *it: word_of(member.set_proposal(proposal_of(*it))),
    "proposed": lambda member, view, number, now: word_of(member.proposed(view, number.to_bytes(32, "big"), now)),
    "supersede": lambda member, view: word_of(member.supersede_proposal_request(view)),
    "release": lambda member, view: done(member.release_proposal_request(view)),
    "verified": lambda member, view: word_of(member.verified(view)),
    "rejected": lambda member, view, now: done(member.verification_failed(view, TimeoutReason.INVALID_PROPOSAL, now)),
    "token": lambda member, view, token: done(member.set_certify_handle(view, token)),
    "best": lambda member: certificate_text(member.best_certificate()),
    "prune": lambda member: "".join(["pruned", *(f" {view}" for view in member.prune())]),
    "record": lambda member: f"record {member.stored().entries}",
    "entries": lambda member, count: f"entries {entries_text(member.entries_since(count))}",
}


class Asked:
    """A resolver of which lines are asked."""

    def __init__(self, term_length: int) -> None:
        self.resolver = Resolver.start(term_length, b"")

    def reply(self, line: str) -> str:
        word, *rest = line.split()
        view = int(rest[0]) if rest else 0
        replies = {
            "replayed": lambda: "-",
            "settled": lambda: word_of(self.resolver.is_settled(view, CERTIFICATES[rest[1]])),
            "key-settled": lambda: word_of(all(self.resolver.is_settled(view, kind) for kind in (Kind.NOTARIZATION, Kind.NULLIFICATION))),
            "uncertifiable": lambda: word_of(self.resolver.is_uncertifiable(view)),
            "open": lambda: word_of(self.resolver.is_open(view)),
            "fetches": lambda: str(self.resolver.fetches()),
            "outstanding": lambda: "".join(["outstanding", *(f" {it}" for it in self.resolver.outstanding())]),
            "produce": lambda: "some" if self.resolver.produce(view) else "none",
            "served": lambda: self.served(view),
        }
        try:
            return replies[word]() if word in replies else self.told(word, view, rest)
        except SimplexError as error:
            return FAULTS[error.status]

    def told(self, word: str, view: int, rest: List[str]) -> str:
        proposal = proposal_of(view, max(0, view - 1), 0)
        if word == "certified":
            effects = self.resolver.certified(certificate_of(Kind.NOTARIZATION, proposal), rest[1] == "true")
        else:
            effects = self.resolver.updated(certificate_of(CERTIFICATES[word], proposal))
        return "; ".join(effect_text(it) for it in effects) or "-"

    def served(self, view: int) -> str:
        found = self.resolver.produce(view)
        return f"served {sum_of(found.subject.encoded() + found.bytes)}" if found else "none"


def effect_text(it: Effect) -> str:
    if isinstance(it, FetchEffect):
        return f"fetch {it.view} {it.cause} {FETCHED[it.reason]}"
    if isinstance(it, SettledEffect):
        return f"settled {WORDS[it.kind]} {it.start} {it.end}"
    return f"finalized {it.view}" if isinstance(it, FinalizedEffect) else f"raised {it.view}"


def main(words: List[str]) -> None:
    if len(words) == 2 and words[0] == "resolver":
        served = Asked(int(words[1]))
    elif len(words) in (5, 6) and words[0] == "voter":
        members, terms, optimistic = (int(words[place]) for place in (1, 3, 4))
        signer = None if words[2] == "-" else int(words[2])
        config = Config(NAMESPACE, members, signer, EPOCH, term_length=terms, optimistic_views=optimistic)
        served = Voter(config, (*words, "")[5])
    else:
        sys.exit(__doc__)
    for line in sys.stdin:
        print(served.reply(line))
    if isinstance(served, Voter) and served.stored:
        print(f"{served.taken} entries taken away", file=sys.stderr)


if __name__ == "__main__":
    main(sys.argv[1:])
