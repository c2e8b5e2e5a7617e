"""An engine of the Simplex consensus protocol, over libsimplex.a, which the package holds.

docs/EMBEDDING.md has the loop of a host, and simplex.h says what the host must do. The inputs are in `inputs`, the outputs in `outputs`. For
hosts that write their own engine there are `Member`, which decides in it, and its peer `Resolver`: docs/EMBEDDING.md."""

from . import inputs, outputs
from ._library import ffi as _ffi, lib as _lib
from .engine import Engine, OpenFetch, State
from .errors import SimplexError, Status
from .inputs import Input
from .journal import Ending, Scan, scan
from .member import AbandonedReason, Added, Candidates, CertificateFetch, Cut, Member, Missing, ProposalRequest, Timeout, VoteOrder
from .messages import Certificate, Context, FetchKind, Kind, Proposal, Round, Subject, TimeoutReason, Vote, Withheld
from .outputs import Output
from .resolver import Effect, FetchEffect, FetchReason, FinalizedEffect, RaisedEffect, Resolver, SettledEffect
from .settings import Config, Entries, Options, Stored
from .views import Views

__all__ = [
    "AbandonedReason", "Added", "Candidates", "Certificate", "CertificateFetch", "Config", "Context", "Cut", "Effect", "Ending", "Engine",
    "Entries", "FetchEffect", "FetchKind", "FetchReason", "FinalizedEffect", "Input", "Kind", "Member", "Missing", "OpenFetch", "Options",
    "Output", "Proposal", "ProposalRequest", "RaisedEffect", "Resolver", "Round", "Scan", "SettledEffect", "SimplexError", "State", "Status",
    "Stored", "Subject", "Timeout", "TimeoutReason", "Views", "Vote", "VoteOrder", "Withheld", "build_info", "inputs", "outputs", "scan",
]

if _lib.simplex_version() != _lib.SIMPLEX_VERSION:
    raise ImportError("libsimplex.a has another version than simplex.h: build the archive again, and this package after it")


def build_info() -> str:
    """Returns what the linked library is: whether it is proved, of which commit and kit."""
    return _ffi.string(_lib.simplex_build_info()).decode()
