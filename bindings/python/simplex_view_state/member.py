"""A member, for a host that writes its own engine: docs/EMBEDDING.md, "The member's loop"."""

from __future__ import annotations

from dataclasses import dataclass
from enum import IntEnum
from typing import List, Optional, Tuple, Union

from ._library import ffi, lib
from .errors import Status, require
from .messages import (
    Certificate, Context, Kind, Proposal, Subject, TimeoutReason, Withheld, all_bytes, context_of, digest, flat_proposal, flat_round, member_of,
    proposal_of, subject_of,
)
from .outputs import Verify
from .settings import Config, Entries, Stored, stored_of
from .views import Views, views_of, withheld_of


class AbandonedReason(IntEnum):
    """Why a handoff, a proposal that is built before its parent is certified, must be abandoned."""

    VIEW_EXIT = lib.SIMPLEX_VIEW_EXIT
    ANCESTRY_SUPERSEDED = lib.SIMPLEX_ANCESTRY_SUPERSEDED
    ANCESTRY_INVALIDATED = lib.SIMPLEX_ANCESTRY_INVALIDATED
    PARENT_NULLIFY = lib.SIMPLEX_PARENT_NULLIFY
    VIEW_NULLIFY = lib.SIMPLEX_VIEW_NULLIFY
    RESPONSE_CLOSED = lib.SIMPLEX_RESPONSE_CLOSED
    INELIGIBLE_AT_RECORDING = lib.SIMPLEX_INELIGIBLE_AT_RECORDING


@dataclass(frozen=True)
class Added:
    """The result of adding a certificate. `equivocator` is a leader that signed two proposals, which certificates show."""

    is_new: bool
    equivocator: Optional[int]


@dataclass(frozen=True)
class ProposalRequest:
    """A block to build. The parent of a handoff is not certified yet."""

    context: Context
    is_handoff: bool


@dataclass(frozen=True)
class Missing:
    """The proposal of the view `proposal` waits for a certificate of the view `view`, a notarization or a nullification: ask `target`."""

    proposal: int
    view: int
    kind: Kind
    target: int


@dataclass(frozen=True)
class CertificateFetch:
    """A notarization to fetch for other members, and the view of the proposal that waits for it."""

    proposal: int
    view: int


@dataclass(frozen=True)
class Candidates:
    """The proposals to certify, and the notarizations to fetch."""

    proposals: Tuple[Proposal, ...]
    fetches: Tuple[CertificateFetch, ...]


@dataclass(frozen=True)
class VoteOrder:
    """A vote that the member cast: once the new entries of the record are stored, sign the text with the signer's key, and send it.
    `is_repeat` says that a vote to nullify was cast before."""

    subject: Subject
    signer: int
    text: bytes
    is_repeat: bool


@dataclass(frozen=True)
class Timeout:
    """The next timeout of a view."""

    moment: int
    reason: TimeoutReason


@dataclass(frozen=True)
class Cut:
    """What a restart removes from the record: at most the `last` entries, but never a vote or an entry before one; with `prune` all entries
    further below the highest finalized view than the last lifetime's retention."""

    last: int = 0
    prune: bool = False


class Member:
    """A member: the state of its voter, with the record from which the member can be made again. One thread calls it at a time.

    A call that returns a vote has recorded it: store the new entries before you send the vote. `Member.start` and `Member.resume` make one.
    Python frees it with its last reference; `close` frees it at once, and calls after it raise `Status.NO_HANDLE`. After
    `Status.OUT_OF_MEMORY` nothing has changed, or the member has failed and raises `Status.FAILED` until a restart; after each other status
    nothing has changed."""

    def __init__(self, at) -> None:
        self._at = ffi.gc(at, lib.simplex_member_free)

    @staticmethod
    def start(config: Config, now: int) -> Member:
        """Begins a member that never voted. One that voted must resume, or it could vote twice in a view. Raises `SimplexError` where the
        settings or the floor are refused."""
        at = ffi.new("simplex_member **")
        require(lib.simplex_member_start(*config.arguments(), now, at))
        return Member(at[0])

    @staticmethod
    def resume(config: Config, now: int, stored: Stored, journal: bytes) -> Member:
        """Resumes a member from its journal, the bytes of its entries in their order, and what was stored beside them last. Raises
        `SimplexError` where these or the settings are refused."""
        at = ffi.new("simplex_member **")
        beside = ffi.new("struct simplex_stored *", stored.flat())
        require(lib.simplex_member_resume(*config.arguments(), now, beside, journal, len(journal), at))
        return Member(at[0])

    def restart(self, config: Config, now: int, cut: Cut = Cut()) -> None:
        """Ends the lifetime, also of a member that has failed, and begins another from its record. Where the settings or
        `Status.RETENTION_GROWN` are refused nothing has changed. After another error the record is cut and the member has failed: store
        `entries_since(0)` in place of the journal."""
        settings, *rest = config.arguments()
        restart = ffi.new("struct simplex_restart *", {"drop": cut.last, "moment": now, "prune": int(cut.prune), "settings": settings[0]})
        require(lib.simplex_member_restart(self._at, restart, *rest))

    def close(self) -> None:
        """Frees the member. Does nothing where it is closed."""
        if self._at:
            ffi.release(self._at)
            self._at = ffi.NULL

    def _call(self, kind: int, certificate: bytes = b"", **fields):
        reply = lib.simplex_member_call(self._at, ffi.new("struct simplex_call *", {"kind": kind, **fields}), certificate, len(certificate))
        require(reply.status)
        return reply

    def _bytes(self, which: int) -> bytes:
        return all_bytes(lambda begin: lib.simplex_member_bytes(self._at, which, begin))

    def _certificate_in(self, has: int, proposal, which: int) -> Optional[Certificate]:
        return Certificate(subject_of(has, proposal), self._bytes(which)) if has else None

    def add(self, certificate: Certificate, now: int) -> Added:
        """Passes a certificate that the host made or received, and verified."""
        proposal = certificate.subject.proposal
        of = {"round": flat_round(proposal.round), "proposal": flat_proposal(proposal)}
        reply = self._call(_ADDS[certificate.subject.kind], certificate.bytes, moment=now, **of)
        return Added(reply.flag != 0, member_of(reply.member) if reply.kind == lib.SIMPLEX_REPLY_ADDED else None)

    def set_proposal(self, proposal: Proposal) -> bool:
        """Passes a proposal of its view's leader. Returns whether it must be verified."""
        return self._call(lib.SIMPLEX_SET_PROPOSAL, view=proposal.round.view, proposal=flat_proposal(proposal)).flag != 0

    def try_propose(self) -> Optional[ProposalRequest]:
        """Returns the next block to build; None where there is none."""
        reply = self._call(lib.SIMPLEX_TRY_PROPOSE)
        return ProposalRequest(context_of(reply.context, reply.member), reply.has == 2) if reply.has else None

    def proposed(self, view: int, payload: bytes, now: int) -> bool:
        """Passes the payload that was built on request in the view. Returns whether it is accepted."""
        return self._call(lib.SIMPLEX_PROPOSED, view=view, moment=now, proposal={"payload": list(digest(payload))}).flag != 0

    def supersede_proposal_request(self, view: int) -> bool:
        """Returns whether the request to build in the view is superseded; then ask again, for another parent."""
        return self._call(lib.SIMPLEX_SUPERSEDE_PROPOSAL_REQUEST, view=view).flag != 0

    def pending_handoff_abandonment(self, view: int) -> Optional[AbandonedReason]:
        """Returns why the handoff that is built in the view must be abandoned; None where it need not be."""
        reply = self._call(lib.SIMPLEX_PENDING_HANDOFF_ABANDONMENT, view=view)
        return AbandonedReason(reply.reason) if reply.has else None

    def release_proposal_request(self, view: int) -> bool:
        """Abandons the request to build in the view. Returns whether one was open."""
        return self._call(lib.SIMPLEX_RELEASE_PROPOSAL_REQUEST, view=view).flag != 0

    def try_verify(self) -> Optional[Union[Verify, Missing]]:
        """Returns the next proposal to verify, or the certificate that one waits for; None where there is neither."""
        reply = self._call(lib.SIMPLEX_TRY_VERIFY)
        if not reply.has:
            return None
        if reply.has == 1:
            return Verify(context_of(reply.context, reply.member), proposal_of(reply.proposal))
        return Missing(reply.waiting, reply.lacking, Kind(reply.reason), reply.member)

    def verified(self, view: int) -> bool:
        """Reports the view's proposal as valid. Returns whether it is marked so: not if it or its parent changed since it was returned."""
        return self._call(lib.SIMPLEX_VERIFIED, view=view).flag != 0

    def verification_failed(self, view: int, reason: TimeoutReason, now: int) -> None:
        """Reports the view's proposal as invalid, or as one that could not be verified."""
        self._call(lib.SIMPLEX_VERIFICATION_FAILED, view=view, reason=reason, moment=now)

    def certify_candidates(self) -> Candidates:
        """Returns the proposals to certify, and the notarizations to fetch for other members."""
        reply = self._call(lib.SIMPLEX_CERTIFY_CANDIDATES)
        proposals = [proposal_of(it.proposal) for it in self._items(lib.SIMPLEX_PROPOSALS, reply.count)]
        fetches = [CertificateFetch(it.fetch.proposal, it.fetch.view) for it in self._items(lib.SIMPLEX_FETCHES, reply.fetches)]
        return Candidates(tuple(proposals), tuple(fetches))

    def _items(self, which: int, count: int) -> list:
        return [lib.simplex_member_item(self._at, which, index) for index in range(count)]

    def set_certify_handle(self, view: int, token: int) -> None:
        """Notes the host's token for the certification of the view's proposal."""
        self._call(lib.SIMPLEX_SET_CERTIFY_HANDLE, view=view, token=token)

    def certified(self, view: int, is_success: bool, now: int) -> Optional[Certificate]:
        """Passes the application's verdict on the view's proposal. Returns the notarization that was judged; None where the view is not
        tracked."""
        reply = self._call(lib.SIMPLEX_CERTIFIED, view=view, success=int(is_success), moment=now)
        return self._certificate_in(lib.SIMPLEX_NOTARIZATION if reply.has else 0, reply.proposal, lib.SIMPLEX_OF_REPLY)

    def construct(self, kind: Kind, view: int) -> Optional[VoteOrder]:
        """Returns this member's vote of a kind on the view; None where the vote's rule does not allow it."""
        reply = self._call(_CONSTRUCTS[kind], view=view)
        if not reply.has:
            return None
        is_repeat = kind == Kind.NULLIFICATION and reply.flag != 0
        return VoteOrder(subject_of(kind, reply.proposal), reply.member, self._bytes(lib.SIMPLEX_OF_REPLY), is_repeat)

    def broadcast(self, kind: Kind, view: int) -> Optional[Certificate]:
        """Returns the view's certificate of a kind for broadcast, once."""
        reply = self._call(_BROADCASTS[kind], view=view)
        return self._certificate_in(reply.has, reply.proposal, lib.SIMPLEX_OF_REPLY)

    def best_certificate(self) -> Optional[Certificate]:
        """Returns the certificate that lets other members enter the current view."""
        reply = self._call(lib.SIMPLEX_GET_BEST_CERTIFICATE)
        return self._certificate_in(reply.has, reply.proposal, lib.SIMPLEX_OF_REPLY)

    def trigger_timeout(self, view: int, reason: TimeoutReason, now: int) -> bool:
        """Times the view out for a reason that the member does not see by itself. Returns whether that timeout counts from now on."""
        return self._call(lib.SIMPLEX_TRIGGER_TIMEOUT, view=view, reason=reason, moment=now).flag != 0

    def next_timeout(self, now: int) -> Timeout:
        """Returns the next timeout of the current view. Once it has come, the member votes to nullify the view."""
        reply = self._call(lib.SIMPLEX_NEXT_TIMEOUT, moment=now)
        return Timeout(reply.moment, TimeoutReason(reply.reason))

    def prune(self) -> List[int]:
        """Drops the views that are no longer retained, and returns them, lowest first. The record stays: `prune_record`."""
        reply = self._call(lib.SIMPLEX_PRUNE)
        return [it.view for it in self._items(lib.SIMPLEX_DROPPED, reply.count)]

    def entries_since(self, count: int) -> Entries:
        """Returns the entries of the record after its first count, to be stored before a vote is sent. Also of a member that has failed."""
        return self._entries_of(lib.simplex_member_entries(self._at, count))

    def prune_record(self) -> Entries:
        """Prunes the record, after `prune`, and returns all that is left, to be stored in place of the journal in one step. The lifetime
        continues. After an error the record is pruned and not returned: ask for `entries_since(0)`."""
        return self._entries_of(lib.simplex_member_prune_record(self._at))

    def _entries_of(self, shown) -> Entries:
        require(shown.status)
        return Entries(self._bytes(lib.SIMPLEX_SHOWN), stored_of(shown.stored))

    def stored(self) -> Stored:
        """Returns what is stored beside the journal, with the number of entries of the record. Also of a member that has failed."""
        shown = lib.simplex_member_entries(self._at, 2**64 - 1)
        require(shown.status)
        return stored_of(shown.stored)

    def is_failed(self) -> bool:
        """Returns whether the member has failed: out of memory, or a restart was refused."""
        status = lib.simplex_member_view(self._at, 0).status
        if status != Status.FAILED:
            require(status)
        return status == Status.FAILED

    def view(self, view: int) -> Views:
        """Returns what the member knows, and what it knows of a view. Raises `SimplexError` once the member has failed."""
        return views_of(lib.simplex_member_view(self._at, view))

    def withheld(self, kind: Kind, view: int) -> Optional[Withheld]:
        """Returns why the member withholds its vote of a kind on a view; None exactly where `construct` returns the vote."""
        return withheld_of(lib.simplex_member_withheld(self._at, kind, view))

    def certificate(self, kind: Kind, view: int) -> Optional[Certificate]:
        """Returns a view's certificate; None where the view is not tracked or has none."""
        found = lib.simplex_member_certificate(self._at, kind, view)
        require(found.status)
        return self._certificate_in(found.has, found.proposal, lib.SIMPLEX_SHOWN)


_ADDS = {
    Kind.NOTARIZATION: lib.SIMPLEX_ADD_NOTARIZATION,
    Kind.NULLIFICATION: lib.SIMPLEX_ADD_NULLIFICATION,
    Kind.FINALIZATION: lib.SIMPLEX_ADD_FINALIZATION,
}
_CONSTRUCTS = {
    Kind.NOTARIZATION: lib.SIMPLEX_CONSTRUCT_NOTARIZE,
    Kind.NULLIFICATION: lib.SIMPLEX_CONSTRUCT_NULLIFY,
    Kind.FINALIZATION: lib.SIMPLEX_CONSTRUCT_FINALIZE,
}
_BROADCASTS = {
    Kind.NOTARIZATION: lib.SIMPLEX_BROADCAST_NOTARIZATION,
    Kind.NULLIFICATION: lib.SIMPLEX_BROADCAST_NULLIFICATION,
    Kind.FINALIZATION: lib.SIMPLEX_BROADCAST_FINALIZATION,
}
