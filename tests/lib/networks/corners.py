"""Stored schedules of networks that are left in a corner, each with its end: it is stuck, or a view is finalized.

A premise of the theorem is missing in some; in others a host leaves out a duty, or does it. After the steps, which are
written as those of `schedules.py` are, the correct members continue alone, in a way of `continuation.py`: the faulty ones helped before,
and are silent then. Where the network is stuck whatever its members are asked, they are asked at random besides: votes, timeouts,
verdicts, restarts, lines that nobody should have written."""

from dataclasses import dataclass, field, replace
from random import Random

from lib.networks import schedules
from lib.networks.adversary import Leaders
from lib.networks.continuation import WAYS, Stuck
from lib.networks.hostile_runs import Temper
from lib.networks.progress_runs import Past
from lib.networks.protocol import Terms
from lib.networks.recorded import RecordedNetwork
from lib.networks.schedules import NotShown, joined, steps_in, verified


STEPS_AT_RANDOM = 400
TEMPER = Temper(delivery=0.9, timeout=0.1, restart=0.1, noise=0.1, refusal=0.0, lag=0.0, patience=8)


@dataclass(frozen=True)
class Corner:
    """Steps, the continuation with what its hosts leave out or do, and its end: the view that all finalize first, or where
    the members of a stuck network stand, whatever they are asked."""

    name: str
    shows: str
    terms: Terms
    text: str
    finalizes: int | None = None
    stand: dict | None = None
    members: int = 4
    faulty: frozenset = frozenset({0})
    keyless: frozenset = frozenset()
    way: str = "synchronous"
    flags: dict = field(default_factory=dict)

    @property
    def steps(self):
        return steps_in(self.text)

    backing = {}


# Each of three votes for view 1 and takes its notarization; the application of one finds it good, those of two find it bad.
DIFFERING_VERDICTS = joined(
    verified("1 2 3", 1, 0, 7),
    "1 2 3: notarization 1 0 7 => added true -",
    "1 2 3: candidates => candidates 1 fetch",
    "1: verdict 1 true 10 => certified 1",
    "2 3: verdict 1 false 10 => certified 1",
    "1: finalize 1 => finalize 1 0 7",
    "1: nullify 1 => none",
    "2 3: nullify 1 => nullify 1 false",
    "2 3: verdict 1 true 20 => not-allowed",
    "2 3: restart 9 30 => ok",
    "2 3: verdict 1 true 40 => not-allowed",
    "2 3: finalize 1 => none",
)
# Two vote for views 1 and 2 ahead; the third takes the notarization of 2, which the faulty one helped to make, and not that of 1.
UNOFFERED_VERDICT = joined(
    verified("1 2", 1, 0, 7),
    verified("1 2", 2, 1, 8),
    "3: notarization 2 1 8 => added true -",
    "3: candidates => candidates fetch 2:1",
    "3: verdict 2 true 10 => certified 2",
    "3: view => view 3 0 0",
    "3: nullify 1 => none",
    "3: nullify 3 => nullify 3 false",
    "1 2: notarization 2 1 8 => added true -",
    "1 2: candidates => candidates fetch 2:1",
    "1 2: nullify 1 => nullify 1 false",
)
# View 2 was built on view 1 before that was certified, and then the application finds view 1 bad.
ALONE = """
    0: propose => propose 1 0 0 0
    0: proposed 1 7 0 => true
    0: notarize 1 => notarize 1 0 7
    0: propose => prepare 2 0 1 7
    0: proposed 2 8 0 => true
    0: notarize 2 => notarize 2 1 8
    0: notarization 1 0 7 => added true -
    0: candidates => candidates 1 fetch
    0: verdict 1 false 1 => certified 1
    0: notarization 2 1 8 => added true -
    0: candidates => candidates fetch
"""
# One member holds the notarization of view 3, and that of its parent does not come when `candidates` names it; then 2 is nullified.
LOST_FETCH = joined(
    verified("1 2 3", 1, 0, 7),
    "1 2 3: notarization 1 0 7 => added true -",
    "1 2 3: verdict 1 true 10 => certified 1",
    verified("1 2", 2, 1, 8),
    "1 3: nullify 2 => nullify 2 false",
    "1 2: notarization 2 1 8 => added true -",
    "1 2: verdict 2 true 20 => certified 2",
    verified("1 2", 3, 2, 10),
    "1 2 3: notarization 3 2 10 => added true -",
    "1 2: verdict 3 true 30 => certified 3",
    "3: candidates => candidates fetch 3:2",
    "3: candidates => candidates fetch",
    "1 2 3: nullification 2 40 => added true",
    "1 2 3: view => view 5 0 0",
)
# Member 1 was asked to build view 3 on view 2, and then view 1 is nullified, which covers view 2.
LASTING_REQUEST = joined(
    verified("1", 1, 0, 7),
    verified("1", 2, 1, 8),
    "1: propose => prepare 3 1 2 8",
    "2 3: nullify 1 => nullify 1 false",
    "1 2 3: nullification 1 10 => added true",
    "1: view => view 3 0 0",
    "1: propose => none",
    "1: abandon 3 => AncestryInvalidated",
)
# Member 1 comes to lead view 2; a proposal of it that it did not build is passed in.
OWN_VIEW = joined("1 2 3: nullify 1 => nullify 1 false", "1 2 3: nullification 1 10 => added true")
FOREIGN_PROPOSAL = joined(OWN_VIEW, "1: proposal 2 0 9", "1: propose => none")
UNOFFERED = "a verdict on a view that was not offered: the parent's notarization, which two voted for, never comes"
LOST = "a notarization that `candidates` named once is lost, and its view is nullified"
REQUEST = "a request to build that outlives its parent"
SINGLE = "a member alone, whose view 2 is built on view 1, which its application then finds bad"
FOREIGN = "a leader is handed a proposal of its own view that it did not build, and builds none"

ALL_CORNERS = (
    Corner(
        "differing-verdicts", "the application of one member finds a view good, those of the others find it bad", Terms(1, 0),
        DIFFERING_VERDICTS, stand={1: (2, 0, 0), 2: (1, 0, 0), 3: (1, 0, 0)},
    ),
    Corner("too-many-faulty", "more than f members are silent", Terms(1, 0), "", stand={2: (1, 0, 0), 3: (1, 0, 0)}, faulty=frozenset({0, 1})),
    Corner(
        "no-key", "a member that is not faulty has no key", Terms(1, 0), "",
        stand={1: (1, 0, 0), 2: (1, 0, 0), 3: (1, 0, 0)}, keyless=frozenset({3}),
    ),
    Corner("all-keys", "the same member has its key", Terms(1, 0), "", finalizes=2),
    Corner("unoffered-verdict", UNOFFERED, Terms(5, 4), UNOFFERED_VERDICT, stand={1: (1, 0, 0), 2: (1, 0, 0), 3: (3, 0, 0)}),
    Corner(
        "unoffered-verdicts", f"{UNOFFERED}, and the others give such verdicts too", Terms(5, 4),
        UNOFFERED_VERDICT, finalizes=6, flags={"judges_unoffered": True},
    ),
    Corner("alone-and-ahead", f"{SINGLE}, and which builds ahead", Terms(1, 0), ALONE, members=1, faulty=frozenset(),
           flags={"builds_ahead": True, "bound": 200}),
    Corner("alone", f"{SINGLE}, and which builds in its current view alone", Terms(1, 0), ALONE, finalizes=3, members=1, faulty=frozenset()),
    Corner("lost-fetch", LOST, Terms(4, 0), LOST_FETCH, finalizes=13, way="engine", flags={"keeps_fetches": False}),
    Corner("kept-fetch", f"{LOST}, and it is asked for again", Terms(4, 0), LOST_FETCH, finalizes=5, way="engine"),
    Corner("lasting-request", f"{REQUEST}, and is left open", Terms(2, 3), LASTING_REQUEST, finalizes=5, flags={"gives_up_requests": False}),
    Corner("superseded-request", f"{REQUEST}, and is superseded", Terms(2, 3), LASTING_REQUEST, finalizes=3),
    Corner("foreign-proposal", FOREIGN, Terms(1, 0), FOREIGN_PROPOSAL, finalizes=3),
    Corner("own-proposal", "the same leader is handed none, and builds", Terms(1, 0), OWN_VIEW, finalizes=2),
)


class SilentLeaders(Leaders):
    """Only correct leaders propose."""

    def proposal_for(self, view):
        made = self.proposals.get(view)
        return made[0] if made else None


class AtRandom(Past):
    """What correct members may be asked at random, with what they alone hold and make, and verdicts on offered views alone."""

    def __init__(self, network, way):
        super().__init__(network, Random(2), is_honest=True)
        self.temper = TEMPER
        self.way = way
        self.leaders = way.leaders

    def backed(self):
        held = self.way.held()
        return [it for it in super().backed() if it in held or self.way.is_made(it)]

    def noisy_line(self, index):
        line = super().noisy_line(index)
        return "view" if line.startswith("proposal ") else line


def play(served, name):
    """Plays the corner of a name to its end; its network. What is not as it says is raised with the network in it."""
    corner = next(it for it in ALL_CORNERS if it.name == name)
    network = RecordedNetwork(replace(served, keyless=corner.keyless), corner.members, corner.faulty, corner.terms)
    with network:
        try:
            schedules.play(corner, network)
            way = WAYS[corner.way](network, SilentLeaders(network, Random(1)), **corner.flags)
            network.saw["finalized" if comes_of(corner, way) else "stuck"] += 1
        except Exception as broken:
            broken.network = network
            raise
    return network


def comes_of(corner, way):
    """Whether a view is finalized, where that is as the corner says."""
    try:
        way.play()
    except Stuck as stuck:
        if corner.finalizes is not None:
            raise NotShown(f"{corner.name}: {stuck}") from None
        if corner.stand is not None:
            stand_still(corner, way)
        return False
    finalized = min(place[1] for place in way.places().values())
    if finalized != corner.finalizes:
        raise NotShown(f"{corner.name}: view {finalized} is finalized, where {corner.finalizes or 'none'} is said to be")
    return True


def stand_still(corner, way):
    """Whether the members of a stuck network stand where the corner says, also after many steps at random."""
    before = way.places()
    AtRandom(way.network, way).play(STEPS_AT_RANDOM)
    if before != corner.stand or way.places() != corner.stand:
        raise NotShown(f"{corner.name}: members stand at {before}, and then at {way.places()}, where {corner.stand} is said")
