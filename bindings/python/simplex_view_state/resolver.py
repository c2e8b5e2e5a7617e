"""A peer resolver, for a host that writes its own engine."""

from __future__ import annotations

from dataclasses import dataclass
from enum import IntEnum
from typing import List, Optional, Union

from ._library import ffi, lib
from .errors import require
from .messages import Certificate, Kind, all_bytes, flat_proposal, served_of


class FetchReason(IntEnum):
    """Why a nullification is fetched."""

    MISSING_NULLIFICATION = lib.SIMPLEX_MISSING_NULLIFICATION
    CERTIFICATION_FAILED = lib.SIMPLEX_CERTIFICATION_FAILED


@dataclass(frozen=True)
class FetchEffect:
    """Fetch a nullification that covers the view, for the view of the cause."""

    view: int
    cause: int
    reason: FetchReason


@dataclass(frozen=True)
class SettledEffect:
    """No certificate of the kind, a notarization or a nullification, is left to ask for at the views from start to end."""

    kind: Kind
    start: int
    end: int


@dataclass(frozen=True)
class FinalizedEffect:
    """Each ask at or below the view is settled."""

    view: int


@dataclass(frozen=True)
class RaisedEffect:
    """Each fetch at or below the view ends."""

    view: int


Effect = Union[FetchEffect, SettledEffect, FinalizedEffect, RaisedEffect]


class Resolver:
    """A peer resolver: it decides which certificates are retained, served and fetched. One thread calls it at a time.

    Pass it each certificate that the member newly added and each verdict: its outstanding fetches are then exactly the views whose certificate
    is missing. Python frees it with its last reference; `close` frees it at once, and calls after it raise `Status.NO_HANDLE`. After
    `Status.OUT_OF_MEMORY` it has failed: start another. After each other status it received nothing."""

    def __init__(self, at) -> None:
        self._at = ffi.gc(at, lib.simplex_resolver_free)

    @staticmethod
    def start(term_length: int, journal: bytes) -> Resolver:
        """Starts a resolver from a member's whole journal, with its first fetches outstanding. The term's length is that of the member's
        settings. Raises `SimplexError` where these are refused."""
        at = ffi.new("simplex_resolver **")
        require(lib.simplex_resolver_start(term_length, journal, len(journal), at))
        return Resolver(at[0])

    def close(self) -> None:
        """Frees the resolver. Does nothing where it is closed."""
        if self._at:
            ffi.release(self._at)
            self._at = ffi.NULL

    def updated(self, certificate: Certificate) -> List[Effect]:
        """Passes a certificate that the member newly added. Raises `Status.NOT_ALLOWED` for one of genesis."""
        return self._tell(certificate.subject.kind, 0, certificate)

    def certified(self, notarization: Certificate, is_success: bool) -> List[Effect]:
        """Passes a verdict on a notarization, as `Member.certified` returns it."""
        return self._tell(lib.SIMPLEX_TOLD_VERDICT, int(is_success), notarization)

    def _tell(self, kind: int, success: int, it: Certificate) -> List[Effect]:
        told = ffi.new("struct simplex_told *", {"kind": kind, "success": success, "proposal": flat_proposal(it.subject.proposal)})
        shown = lib.simplex_resolver_told(self._at, told, it.bytes, len(it.bytes))
        require(shown.status)
        return [_effect_of(lib.simplex_resolver_effect(self._at, index)) for index in range(shown.count)]

    def _known(self, view: int):
        known = lib.simplex_resolver_settled(self._at, view)
        require(known.status)
        return known

    def is_failed(self) -> bool:
        """Returns whether it has failed, out of memory."""
        return self._known(0).is_failed != 0

    def is_open(self, view: int) -> bool:
        """Returns whether the view's fetch is outstanding."""
        return self._known(view).is_open != 0

    def is_settled(self, view: int, kind: Kind) -> bool:
        """Returns whether no certificate of a kind, a notarization or a nullification, is left to ask for at the view."""
        known = self._known(view)
        return (known.nullification if kind == Kind.NULLIFICATION else known.notarization) != 0

    def is_uncertifiable(self, view: int) -> bool:
        """Returns whether the view's certification failed."""
        return self._known(view).uncertifiable != 0

    def fetches(self) -> int:
        """Returns how many fetches are outstanding."""
        return self._known(0).fetches

    def outstanding(self) -> List[int]:
        """Returns the views with an outstanding fetch, rising."""
        require(lib.simplex_resolver_outstanding(self._at).status)
        shown = self._bytes()
        return [int.from_bytes(shown[place:place + 8], "big") for place in range(0, len(shown), 8)]

    def produce(self, view: int) -> Optional[Certificate]:
        """Returns the certificate to serve to a peer that asks for the view; None where there is none."""
        served = lib.simplex_resolver_produce(self._at, view)
        require(served.status)
        return served_of(self._bytes()) if served.has else None

    def _bytes(self) -> bytes:
        return all_bytes(lambda begin: lib.simplex_resolver_bytes(self._at, begin))


def _effect_of(it) -> Effect:
    if it.kind == lib.SIMPLEX_FETCH:
        return FetchEffect(it.view, it.cause, FetchReason(it.reason))
    if it.kind == lib.SIMPLEX_SETTLED:
        return SettledEffect(Kind(it.reason), it.view, it.end)
    return {lib.SIMPLEX_FINALIZED: FinalizedEffect, lib.SIMPLEX_RAISED: RaisedEffect}[it.kind](it.view)
