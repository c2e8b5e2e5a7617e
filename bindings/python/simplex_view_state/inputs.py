"""The inputs of an engine. `simplex_input_kind` in simplex.h says when to pass each."""

from __future__ import annotations

from dataclasses import dataclass
from typing import Tuple, Union

from ._library import lib
from .messages import Certificate, Context, Proposal, TimeoutReason, Vote, digest, flat_proposal, flat_round, flat_subject


@dataclass(frozen=True)
class ProposalFrom:
    """A proposal, and the member that sent it, whose signature the host has verified."""

    sender: int
    proposal: Proposal


@dataclass(frozen=True)
class Verified:
    """The result of a `Verify`."""

    view: int
    is_valid: bool


@dataclass(frozen=True)
class Built:
    """The result of a `Build`."""

    context: Context
    payload: bytes


@dataclass(frozen=True)
class Certified:
    """The application's verdict on the proposal of a `Certify`."""

    view: int
    is_success: bool


@dataclass(frozen=True)
class GivenUp:
    """The view times out for a reason that the engine can't see: its leader nullifies it, or is silent."""

    view: int
    reason: TimeoutReason


Input = Union[ProposalFrom, Vote, Certificate, Verified, Built, Certified, GivenUp]


def flat_input(it: Input) -> Tuple[dict, bytes]:
    """The input as the library takes it, and its bytes."""
    if isinstance(it, ProposalFrom):
        return {"kind": lib.SIMPLEX_TELL_PROPOSAL, "subject": {"member": it.sender, "proposal": flat_proposal(it.proposal)}}, b""
    if isinstance(it, Vote):
        return {"kind": lib.SIMPLEX_TELL_VOTE, "subject": flat_subject(it.subject, it.signer)}, it.signature
    if isinstance(it, Certificate):
        return {"kind": lib.SIMPLEX_TELL_CERTIFICATE, "subject": flat_subject(it.subject, lib.SIMPLEX_NOBODY)}, it.bytes
    if isinstance(it, Verified):
        return {"kind": lib.SIMPLEX_TELL_VERIFIED, "view": it.view, "success": int(it.is_valid)}, b""
    if isinstance(it, Certified):
        return {"kind": lib.SIMPLEX_TELL_CERTIFIED, "view": it.view, "success": int(it.is_success)}, b""
    if isinstance(it, GivenUp):
        return {"kind": lib.SIMPLEX_TELL_GIVEN_UP, "view": it.view, "reason": it.reason}, b""
    if isinstance(it, Built):
        return flat_built(it), b""
    raise TypeError(f"{type(it).__name__} is no input of an engine")


def flat_built(it: Built) -> dict:
    context = {"round": flat_round(it.context.round), "parent": it.context.parent, "payload": list(digest(it.context.parent_payload))}
    subject = {"member": it.context.leader, "proposal": flat_proposal(Proposal(payload=it.payload))}
    return {"kind": lib.SIMPLEX_TELL_BUILT, "subject": subject, "context": context}
