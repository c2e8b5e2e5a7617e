"""How a member and its engine are set up, and what is stored beside a journal. Times are milliseconds."""

from __future__ import annotations

import struct
from dataclasses import dataclass
from typing import Optional, Tuple, Union

from ._library import ffi, lib
from .errors import SimplexError, Status
from .messages import NO_DIGEST, Certificate, Proposal, flat_proposal, namespace_bytes

_STORED = struct.Struct(">QQQQ?")


@dataclass(frozen=True)
class Config:
    """How a member is set up. All members of an epoch have the same, except for the signer and the floor."""

    # The bytes that each text to sign begins with: a digest of the network's name, its epoch and its members' keys, say. In two networks with
    # one namespace the signatures of one count in the other.
    namespace: bytes
    members: int
    signer: Optional[int]
    epoch: int
    # What is final at the start: genesis by its payload, or a finalization that the host verified.
    floor: Union[bytes, Certificate] = NO_DIGEST
    # Each term's leader, round-robin; None for all members by rising index.
    leaders: Optional[Tuple[int, ...]] = None
    # Certificates name leaders: simplex.h, simplex_settings.
    draws: bool = False
    term_length: int = 1
    optimistic_views: int = 0
    stall_timeout: Optional[int] = None
    leader_timeout: int = 1000
    certification_timeout: int = 2000
    timeout_retry: int = 500
    view_retention: int = 10
    # 0: no view is skipped.
    skip_timeout: int = 3000
    # 0: as many as there are members.
    skip_budget: int = 0

    def flat(self) -> dict:
        """The settings as the library takes them."""
        if self.signer == lib.SIMPLEX_NOBODY:
            raise SimplexError(Status.NO_SUCH_MEMBER)
        finalized = self.floor if isinstance(self.floor, Certificate) else None
        floor = finalized.subject.proposal if finalized else Proposal(payload=self.floor)
        same = ("members", "epoch", "term_length", "optimistic_views", "leader_timeout", "certification_timeout", "timeout_retry",
                "view_retention", "skip_timeout", "skip_budget")
        return {
            **{name: getattr(self, name) for name in same},
            "signer": lib.SIMPLEX_NOBODY if self.signer is None else self.signer,
            "draws": int(self.draws),
            "stalls": int(self.stall_timeout is not None),
            "stall_timeout": self.stall_timeout or 0,
            "is_finalized": int(finalized is not None),
            "floor": flat_proposal(floor),
            "namespace_bytes": list(namespace_bytes(self.namespace)),
        }

    def table(self) -> Tuple[int, ...]:
        """The table of leaders."""
        return tuple(range(self.members)) if self.leaders is None else self.leaders

    def certificate(self) -> bytes:
        """The floor's certificate; no bytes for genesis."""
        return self.floor.bytes if isinstance(self.floor, Certificate) else b""

    def arguments(self) -> tuple:
        """The settings, the table of leaders and the floor's certificate, as the library's functions take them."""
        table, certificate = self.table(), self.certificate()
        return ffi.new("struct simplex_settings *", self.flat()), ffi.new("uint32_t[]", table), len(table), certificate, len(certificate)


@dataclass(frozen=True)
class Options:
    """Intervals, and the length of a record. They need not be those of the other members."""

    # After how long a fetch asks again: 1 at least.
    retry: int = 250
    # How long a missing certificate may be on its way.
    on_its_way: int = 25
    # A record with more entries is compacted.
    long_record: int = 2048

    def flat(self) -> dict:
        return dict(vars(self))


@dataclass(frozen=True)
class Stored:
    """What is stored beside a journal."""

    entries: int
    closed: int
    retention: int
    least_retention: int
    is_pruned: bool

    def to_bytes(self) -> bytes:
        """Returns the 33 bytes that it is stored as."""
        return _STORED.pack(self.entries, self.closed, self.retention, self.least_retention, self.is_pruned)

    @staticmethod
    def from_bytes(stored: bytes) -> Optional[Stored]:
        """Returns what was stored as these bytes; None where they are no such bytes."""
        if len(stored) != _STORED.size or stored[-1] > 1:
            return None
        return Stored(*_STORED.unpack(stored))

    def flat(self) -> dict:
        return dict(vars(self))


@dataclass(frozen=True)
class Entries:
    """Entries of the record, as bytes of the journal, and what to store beside it."""

    bytes: bytes
    stored: Stored


def stored_of(it) -> Stored:
    return Stored(it.entries, it.closed, it.retention, it.least_retention, it.is_pruned != 0)
