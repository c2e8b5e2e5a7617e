"""The outputs of an engine: carry them out in order. `simplex_output_kind` in simplex.h says what to do for each."""

from __future__ import annotations

from dataclasses import dataclass
from typing import Callable, Optional, Union

from ._library import lib
from .messages import Certificate, Context, FetchKind, Proposal, Subject, Vote, context_of, member_of, subject_of
from .settings import Entries, stored_of


@dataclass(frozen=True)
class Store:
    """Append the entries to the journal, with what is stored beside it, and sync both before the next output."""

    entries: Entries


@dataclass(frozen=True)
class Replace:
    """The same in place of all that is stored, in one step."""

    entries: Entries


@dataclass(frozen=True)
class Sign:
    """Sign the text with the signer's key, send the vote to all, and pass it to this engine too."""

    subject: Subject
    signer: int
    text: bytes


@dataclass(frozen=True)
class Broadcast:
    """Send the certificate to all others."""

    certificate: Certificate


@dataclass(frozen=True)
class Verify:
    """Verify the proposal in the context, and pass a `Verified`."""

    context: Context
    proposal: Proposal


@dataclass(frozen=True)
class Build:
    """Build a block in the context, and pass a `Built`."""

    context: Context


@dataclass(frozen=True)
class StopBuilding:
    """The view's block is not needed any more."""

    view: int


@dataclass(frozen=True)
class Certify:
    """Pass a `Certified` with the verdict on the proposal."""

    proposal: Proposal


@dataclass(frozen=True)
class Fetch:
    """Ask a member for a certificate; nobody where `of` is None."""

    kind: FetchKind
    view: int
    of: Optional[int]


@dataclass(frozen=True)
class Finalized:
    """The proposal and its ancestors are final. The ancestors are not reported."""

    proposal: Proposal


@dataclass(frozen=True)
class Equivocated:
    """Two votes of one member that contradict each other."""

    one: Vote
    other: Vote


@dataclass(frozen=True)
class ProposedTwice:
    """The view's leader signed two proposals."""

    view: int
    leader: int


@dataclass(frozen=True)
class Forget:
    """Drop what is stored of the views below this one."""

    view: int


Output = Union[Store, Replace, Sign, Broadcast, Verify, Build, StopBuilding, Certify, Fetch, Finalized, Equivocated, ProposedTwice, Forget]
Read = Callable[[int], bytes]


def _subject(it) -> Subject:
    return subject_of(it.subject.kind, it.subject.proposal)


def _proposal(it) -> Proposal:
    return subject_of(lib.SIMPLEX_NOTARIZATION, it.subject.proposal).proposal


def _context(it) -> Context:
    return context_of(it.context, it.subject.member)


def _entries(it, read: Read) -> Entries:
    return Entries(read(lib.SIMPLEX_OF_OUTPUT), stored_of(it.stored))


def _equivocated(it, read: Read) -> Equivocated:
    one = Vote(_subject(it), it.subject.member, read(lib.SIMPLEX_OF_OUTPUT))
    return Equivocated(one, Vote(subject_of(it.other.kind, it.other.proposal), it.other.member, read(lib.SIMPLEX_OTHER_OF_OUTPUT)))


_MADE = {
    lib.SIMPLEX_NOTHING: lambda it, read: None,
    lib.SIMPLEX_STORE: lambda it, read: Store(_entries(it, read)),
    lib.SIMPLEX_REPLACE: lambda it, read: Replace(_entries(it, read)),
    lib.SIMPLEX_VOTE: lambda it, read: Sign(_subject(it), it.subject.member, read(lib.SIMPLEX_OF_OUTPUT)),
    lib.SIMPLEX_BROADCAST: lambda it, read: Broadcast(Certificate(_subject(it), read(lib.SIMPLEX_OF_OUTPUT))),
    lib.SIMPLEX_VERIFY: lambda it, read: Verify(_context(it), _proposal(it)),
    lib.SIMPLEX_BUILD: lambda it, read: Build(_context(it)),
    lib.SIMPLEX_STOP_BUILDING: lambda it, read: StopBuilding(it.view),
    lib.SIMPLEX_CERTIFY: lambda it, read: Certify(_proposal(it)),
    lib.SIMPLEX_ASK: lambda it, read: Fetch(FetchKind(it.fetch), it.view, member_of(it.member)),
    lib.SIMPLEX_FINAL: lambda it, read: Finalized(_proposal(it)),
    lib.SIMPLEX_EQUIVOCATED: _equivocated,
    lib.SIMPLEX_PROPOSED_TWICE: lambda it, read: ProposedTwice(it.view, it.member),
    lib.SIMPLEX_FORGET: lambda it, read: Forget(it.view),
}


def output_of(it, read: Read) -> Optional[Output]:
    """The output of numbers and of bytes, which `read` reads; None where there is none."""
    return _MADE[it.kind](it, read)
