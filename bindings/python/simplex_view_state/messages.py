"""Proposals, votes and certificates. Views, members and moments (milliseconds) are numbers."""

from __future__ import annotations

from dataclasses import dataclass, field
from enum import IntEnum
from typing import Any, Callable, List, Optional, Tuple

from ._library import ffi, lib
from .errors import require

DIGEST_SIZE = 32
NO_DIGEST = bytes(DIGEST_SIZE)
NAMESPACE_SIZE = 32


class Kind(IntEnum):
    """What a vote says, and which certificate such votes make."""

    NOTARIZATION = lib.SIMPLEX_NOTARIZATION
    NULLIFICATION = lib.SIMPLEX_NULLIFICATION
    FINALIZATION = lib.SIMPLEX_FINALIZATION


class FetchKind(IntEnum):
    """Which certificate is fetched: the view's notarization, a nullification that covers it, or whatever certificate decides it."""

    NOTARIZATION = lib.SIMPLEX_FETCH_NOTARIZATION
    NULLIFICATION = lib.SIMPLEX_FETCH_NULLIFICATION
    DECISION = lib.SIMPLEX_FETCH_DECISION


class Withheld(IntEnum):
    """Why a member withholds a vote: the first part of the vote's rule that is false. simplex.h says what each means."""

    NO_KEY = lib.SIMPLEX_WITHHELD_NO_KEY
    NOT_ADMITTED = lib.SIMPLEX_WITHHELD_NOT_ADMITTED
    ALREADY_VOTED = lib.SIMPLEX_WITHHELD_ALREADY_VOTED
    VOTED_TO_NULLIFY = lib.SIMPLEX_WITHHELD_VOTED_TO_NULLIFY
    VOTED_TO_FINALIZE = lib.SIMPLEX_WITHHELD_VOTED_TO_FINALIZE
    NO_PROPOSAL = lib.SIMPLEX_WITHHELD_NO_PROPOSAL
    EQUIVOCATED = lib.SIMPLEX_WITHHELD_EQUIVOCATED
    NOT_VERIFIED = lib.SIMPLEX_WITHHELD_NOT_VERIFIED
    ANCESTRY_NOT_READY = lib.SIMPLEX_WITHHELD_ANCESTRY_NOT_READY
    BINDING_CHANGED = lib.SIMPLEX_WITHHELD_BINDING_CHANGED
    NOT_CURRENT = lib.SIMPLEX_WITHHELD_NOT_CURRENT
    ALREADY_FINALIZED = lib.SIMPLEX_WITHHELD_ALREADY_FINALIZED
    CONFLICTING_NULLIFY = lib.SIMPLEX_WITHHELD_CONFLICTING_NULLIFY
    PARENT_NOT_CERTIFIED = lib.SIMPLEX_WITHHELD_PARENT_NOT_CERTIFIED
    NOT_NOTARIZED = lib.SIMPLEX_WITHHELD_NOT_NOTARIZED
    CERTIFICATION_FAILED = lib.SIMPLEX_WITHHELD_CERTIFICATION_FAILED
    NOT_CERTIFIED = lib.SIMPLEX_WITHHELD_NOT_CERTIFIED


class TimeoutReason(IntEnum):
    """Why a view times out."""

    RETRY = lib.SIMPLEX_RETRY
    INACTIVITY = lib.SIMPLEX_INACTIVITY
    LEADER_NULLIFY = lib.SIMPLEX_LEADER_NULLIFY
    LEADER_TIMEOUT = lib.SIMPLEX_LEADER_TIMEOUT
    CERTIFICATION_TIMEOUT = lib.SIMPLEX_CERTIFICATION_TIMEOUT
    STALL_TIMEOUT = lib.SIMPLEX_STALL_TIMEOUT
    MISSING_PROPOSAL = lib.SIMPLEX_MISSING_PROPOSAL
    IGNORED_PROPOSAL = lib.SIMPLEX_IGNORED_PROPOSAL
    INVALID_PROPOSAL = lib.SIMPLEX_INVALID_PROPOSAL
    FAILED_CERTIFICATION = lib.SIMPLEX_FAILED_CERTIFICATION


@dataclass(frozen=True)
class Round:
    """A view of an epoch."""

    epoch: int = 0
    view: int = 0


@dataclass(frozen=True)
class Proposal:
    """A block that a leader proposes: its round, the view of its parent, and its payload's digest of 32 bytes."""

    round: Round = field(default_factory=Round)
    parent: int = 0
    payload: bytes = NO_DIGEST


@dataclass(frozen=True)
class Subject:
    """What a vote or a certificate is on. Of a nullification only the proposal's round is read."""

    kind: Kind
    proposal: Proposal

    def text(self, namespace: bytes) -> bytes:
        """Returns the text that a vote on it signs in a network: the namespace, and then its bytes."""
        proposal = ffi.new("struct simplex_proposal *", flat_proposal(self.proposal))
        text = lib.simplex_subject(namespace_bytes(namespace), self.kind, proposal)
        require(text.status)
        return bytes(ffi.buffer(text.bytes, text.count))

    def encoded(self) -> bytes:
        """Returns its bytes, with which the encoding of a certificate begins."""
        return self.text(bytes(NAMESPACE_SIZE))[NAMESPACE_SIZE:]


@dataclass(frozen=True)
class Vote:
    """A member's vote, signed."""

    subject: Subject
    signer: int
    signature: bytes


@dataclass(frozen=True)
class Certificate:
    """A certificate of votes on a subject."""

    subject: Subject
    bytes: bytes

    def signatures(self) -> Optional[List[Tuple[int, bytes]]]:
        """Returns each signer, by rising index, and its signature, where the bytes are as an engine makes them of votes; else None."""
        signatures: List[Tuple[int, bytes]] = []
        rest = self.bytes
        while rest:
            signer, length = int.from_bytes(rest[:4], "big"), int.from_bytes(rest[4:12], "big")
            if len(rest) < 12 + length or signatures and signatures[-1][0] >= signer:
                return None
            signatures.append((signer, rest[12:12 + length]))
            rest = rest[12 + length:]
        return signatures


@dataclass(frozen=True)
class Context:
    """In what a block is built or verified."""

    round: Round
    leader: int
    parent: int
    parent_payload: bytes


def digest(payload: bytes) -> bytes:
    """A digest, whose length is tested."""
    if len(payload) != DIGEST_SIZE:
        raise ValueError(f"a digest has {DIGEST_SIZE} bytes, and not {len(payload)}")
    return payload


def namespace_bytes(namespace: bytes) -> bytes:
    """A namespace, whose length is tested."""
    if len(namespace) != NAMESPACE_SIZE:
        raise ValueError(f"a namespace has {NAMESPACE_SIZE} bytes, and not {len(namespace)}")
    return namespace


def flat_round(it: Round) -> dict:
    return {"epoch": it.epoch, "view": it.view}


def flat_proposal(it: Proposal) -> dict:
    return {"round": flat_round(it.round), "parent": it.parent, "payload": list(digest(it.payload))}


def flat_subject(it: Subject, member: int) -> dict:
    return {"kind": it.kind, "member": member, "proposal": flat_proposal(it.proposal)}


def round_of(it) -> Round:
    return Round(it.epoch, it.view)


def proposal_of(it) -> Proposal:
    return Proposal(round_of(it.round), it.parent, bytes(ffi.buffer(it.payload)))


def subject_of(kind: int, proposal) -> Subject:
    return Subject(Kind(kind), proposal_of(proposal))


def context_of(it, leader: int) -> Context:
    return Context(round_of(it.round), leader, it.parent, bytes(ffi.buffer(it.payload)))


def member_of(index: int) -> Optional[int]:
    return None if index == lib.SIMPLEX_NOBODY else index


def all_bytes(part: Callable[[int], Any]) -> bytes:
    """All bytes that wait; `part` returns those from a byte on, and none where there are no more."""
    read = bytearray()
    while True:
        chunk = part(len(read))
        require(chunk.status)
        if not chunk.count:
            return bytes(read)
        read += ffi.buffer(chunk.bytes, chunk.count)


def served_of(served: bytes) -> Certificate:
    """The certificate in bytes that are served: the text of its votes, 17 bytes of a nullification and else 57, and its own bytes after it."""
    kind = (Kind.NOTARIZATION, Kind.NULLIFICATION, Kind.FINALIZATION)[served[0]]
    of_round = Round(int.from_bytes(served[1:9], "big"), int.from_bytes(served[9:17], "big"))
    if kind == Kind.NULLIFICATION:
        return Certificate(Subject(kind, Proposal(of_round)), served[17:])
    return Certificate(Subject(kind, Proposal(of_round, int.from_bytes(served[17:25], "big"), served[25:57])), served[57:])
