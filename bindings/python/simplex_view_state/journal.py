"""What the bytes of a journal are."""

from __future__ import annotations

from dataclasses import dataclass
from enum import IntEnum

from ._library import lib


class Ending(IntEnum):
    """How a journal ends after its whole entries. `simplex_ending` in simplex.h says what each means."""

    WHOLE = lib.SIMPLEX_WHOLE
    CUT = lib.SIMPLEX_CUT
    BROKEN = lib.SIMPLEX_BROKEN


@dataclass(frozen=True)
class Scan:
    """How many whole entries a journal begins with, how many bytes these are, and how it ends after them. An append that was cut off is
    truncated to these bytes."""

    entries: int
    bytes: int
    ending: Ending


def scan(journal: bytes) -> Scan:
    """Reads the entries of a journal, and returns where they end."""
    it = lib.simplex_scan(journal, len(journal))
    return Scan(it.entries, it.bytes, Ending(it.ending))
