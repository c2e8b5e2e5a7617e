"""What a member knows of its views."""

from __future__ import annotations

from dataclasses import dataclass
from typing import Optional

from .errors import require
from .messages import Proposal, Withheld, member_of, proposal_of


@dataclass(frozen=True)
class Views:
    """What the member knows, and what it knows of a view."""

    epoch: int
    current: int
    last_finalized: int
    min_active: int
    is_tracked: bool
    admits_vote: bool
    admits_certificate: bool
    voted_nullify: bool
    leader: Optional[int]
    forwardable: Optional[Proposal]


def views_of(it) -> Views:
    """The views that the library shows. Raises `SimplexError` where it shows none."""
    require(it.status)
    flags = (it.is_tracked != 0, it.admits_vote != 0, it.admits_certificate != 0, it.voted_nullify != 0)
    forwardable = proposal_of(it.forwardable) if it.has_forwardable else None
    return Views(it.epoch, it.current, it.last_finalized, it.min_active, *flags, member_of(it.leader), forwardable)


def withheld_of(it) -> Optional[Withheld]:
    """The reason that the library shows; None where the vote is not withheld."""
    require(it.status)
    return Withheld(it.reason) if it.reason else None
