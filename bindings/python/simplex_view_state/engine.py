"""An engine."""

from __future__ import annotations

from dataclasses import dataclass
from typing import List, Optional

from ._library import ffi, lib
from .errors import Status, require
from .inputs import Input, flat_input
from .messages import Certificate, FetchKind, Kind, Withheld, all_bytes, served_of, subject_of
from .outputs import Output, output_of
from .settings import Config, Options, Stored
from .views import Views, views_of, withheld_of


@dataclass(frozen=True)
class State:
    """What an engine knows of itself. Poll at the moment `wake` if no input comes before."""

    is_failed: bool
    wake: int
    ignored: int
    fetches: int


@dataclass(frozen=True)
class OpenFetch:
    """An outstanding fetch: how often it was asked for, and when it is asked for next."""

    kind: FetchKind
    view: int
    count: int
    moment: int


class Engine:
    """An engine: a member with its resolver, a batcher of votes and the outstanding fetches. One thread calls it at a time.

    `Engine.start` and `Engine.resume` make one. Python frees it with its last reference; `close` frees it at once, and calls after it raise
    `Status.NO_HANDLE`."""

    def __init__(self, at) -> None:
        self._at = ffi.gc(at, lib.simplex_engine_free)

    @staticmethod
    def start(config: Config, options: Options, now: int) -> Engine:
        """Begins an engine whose member never voted. A member that voted must resume, or it could vote twice in a view. Raises
        `SimplexError` where the settings, the options or the floor are refused."""
        return Engine(_begun(lib.simplex_engine_start, config, options, now))

    @staticmethod
    def resume(config: Config, options: Options, now: int, stored: Stored, journal: bytes) -> Engine:
        """Resumes an engine from its journal and what was stored beside it last. Raises `SimplexError` where these or the settings are
        refused."""
        beside = ffi.new("struct simplex_stored *", stored.flat())
        return Engine(_begun(lib.simplex_engine_resume, config, options, now, beside, journal, len(journal)))

    def close(self) -> None:
        """Frees the engine. Does nothing where it is closed."""
        if self._at:
            ffi.release(self._at)
            self._at = ffi.NULL

    def handle(self, given: Input, now: int) -> bool:
        """Passes an input. Returns False if it was ignored, which changes nothing. Raises `SimplexError`."""
        flat, data = flat_input(given)
        taken = lib.simplex_engine_handle(self._at, ffi.new("struct simplex_input *", flat), data, len(data), now)
        require(taken.status)
        return taken.is_of_use != 0

    def poll(self, now: int) -> Optional[Output]:
        """Returns the next output to carry out; None where there is none until another input or the moment `state().wake`. Raises
        `SimplexError`."""
        output = lib.simplex_engine_poll(self._at, now)
        require(output.status)
        return output_of(output, self._bytes)

    def _bytes(self, which: int) -> bytes:
        return all_bytes(lambda begin: lib.simplex_engine_bytes(self._at, which, begin))

    def state(self) -> State:
        """Returns what the engine knows of itself."""
        it = lib.simplex_engine_status(self._at)
        if it.status != Status.FAILED:
            require(it.status)
        return State(it.status == Status.FAILED, it.wake, it.ignored, it.fetches)

    def fetches(self) -> List[OpenFetch]:
        """Returns the outstanding fetches."""
        found: List[OpenFetch] = []
        while True:
            it = lib.simplex_engine_open(self._at, len(found))
            require(it.status)
            if not it.fetch:
                return found
            found.append(OpenFetch(FetchKind(it.fetch), it.view, it.count, it.moment))

    def view(self, view: int) -> Views:
        """Returns what the member knows, and what it knows of a view. Raises `SimplexError` once the engine has failed."""
        return views_of(lib.simplex_engine_view(self._at, view))

    def withheld(self, kind: Kind, view: int) -> Optional[Withheld]:
        """Returns why the member withholds its vote of a kind on a view; None where it does not."""
        return withheld_of(lib.simplex_engine_withheld(self._at, kind, view))

    def certificate(self, kind: Kind, view: int) -> Optional[Certificate]:
        """Returns a view's certificate; None where the view is not tracked or has none."""
        found = lib.simplex_engine_certificate(self._at, kind, view)
        require(found.status)
        return Certificate(subject_of(found.has, found.proposal), self._bytes(lib.SIMPLEX_SHOWN_OF_ENGINE)) if found.has else None

    def serve(self, view: int) -> Optional[Certificate]:
        """Returns the certificate to serve to a peer that asks for the view; None where there is none."""
        served = lib.simplex_engine_serve(self._at, view)
        require(served.status)
        return served_of(self._bytes(lib.SIMPLEX_SHOWN_OF_ENGINE)) if served.has else None


def _begun(function, config: Config, options: Options, now: int, *journal):
    at, flat = ffi.new("simplex_engine **"), ffi.new("struct simplex_options *", options.flat())
    require(function(*config.arguments(), flat, now, *journal, at))
    return at[0]
