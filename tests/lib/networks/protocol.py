"""Views, terms, proposals, certificates and votes, as the program's lines and replies write them."""

from dataclasses import dataclass
from typing import NamedTuple

NOTARIZATION = "notarization"
NULLIFICATION = "nullification"
FINALIZATION = "finalization"
MOMENTS = {"finalization": 4, "nullification": 2, "rejected": 2, "proposed": 3, "verdict": 3, "trigger": 3, "timeout": 1, "restart": 2, "restart-pruned": 2}
CERTIFIED_BY = {"notarize": NOTARIZATION, "nullify": NULLIFICATION, "finalize": FINALIZATION}


@dataclass(frozen=True)
class Terms:
    """How views are parted into terms, and how many views ahead of the current one may be voted for."""

    length: int
    optimistic: int

    def index(self, view):
        """The number of a view's term, from 0."""
        return (view - 1) // self.length if view else 0

    def end(self, view):
        """The last view of a view's term."""
        return (self.index(view) + 1) * self.length

    def next_start(self, view):
        """The first view of the term after a view's term."""
        return self.end(view) + 1

    def covers(self, nullified, view):
        """Whether a nullification covers a view: from its own view to its term's end."""
        return nullified <= view <= self.end(nullified)

    def are_together(self, view, other):
        """Whether two views stand in one term."""
        return self.index(view) == self.index(other)


def max_faults(members):
    """How many of the members may be faulty."""
    return (members - 1) // 3


def quorum(members):
    """How many votes a certificate takes."""
    return members - max_faults(members)


def most_faults(members):
    """How many of the members may be faulty while agreement still has to hold: f, or one fewer than n - 2f."""
    return max(max_faults(members), members - 2 * max_faults(members) - 1)


class Proposal(NamedTuple):
    view: int
    parent: int
    payload: int

    def line(self):
        return f"proposal {self.view} {self.parent} {self.payload}"


class Certificate(NamedTuple):
    """A certificate; one that nullifies has neither parent nor payload. A vote is named by the certificate that it counts for."""

    kind: str
    view: int
    parent: int | None = None
    payload: int | None = None

    def line(self, now):
        """The line that hands it to a member."""
        if self.kind == NULLIFICATION:
            return f"{self.kind} {self.view} {now}"
        moment = f" {now}" if self.kind == FINALIZATION else ""
        return f"{self.kind} {self.view} {self.parent} {self.payload}{moment}"

    def proposal(self):
        return Proposal(self.view, self.parent, self.payload)

    def __str__(self):
        if self.kind == NULLIFICATION:
            return f"{self.kind} of {self.view}"
        return f"{self.kind} of {self.view} on {self.parent} with payload {self.payload}"


def certificate_in(line):
    """The certificate that a line passes, or None."""
    words = line.split(" ")
    if words[0] == NULLIFICATION and len(words) == 3:
        return Certificate(NULLIFICATION, int(words[1]))
    if (words[0], len(words)) in ((NOTARIZATION, 4), (FINALIZATION, 5)):
        return Certificate(words[0], *map(int, words[1:4]))
    return None


def vote_in(line, reply):
    """The vote that a reply to a line holds, as the certificate that it counts for, or None."""
    words = reply.split(" ")
    kind = CERTIFIED_BY.get(line.split(" ")[0])
    if kind is None or CERTIFIED_BY.get(words[0]) != kind:
        return None
    if kind == NULLIFICATION:
        return Certificate(kind, int(words[1]))
    return Certificate(kind, *map(int, words[1:4]))


def moment_of(line):
    """The moment that a line carries, or 0."""
    words = line.split(" ")
    return int(words[MOMENTS[words[0]]]) if words[0] in MOMENTS else 0


def is_restart(line):
    """Whether a line asks for another life."""
    return line.startswith(("restart", "crash", "lose-compaction"))
