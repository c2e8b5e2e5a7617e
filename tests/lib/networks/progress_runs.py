"""Random networks that are continued: a run with an adversary is cut somewhere, and then the correct members alone have to finalize
a new view, in one of the ways of `continuation.py`.

What the past may hold is bounded by what the continuation asks for. In all pasts the application's verdicts are the same at all correct
members, and good of what a correct leader built. Where the constructed way follows they are given as it comes, and proposals of
any leader are made up; the hosts of the other two ways were honest before as well: verdicts come on offered views alone, and a
correct leader's view has its own proposals alone. A run is made by its seed alone."""

from collections import Counter
from random import Random

from lib.networks.continuation import WAYS, Application
from lib.networks.hostile_runs import HostileRun
from lib.networks.protocol import NOTARIZATION, Terms, max_faults
from lib.networks.recorded import RecordedNetwork

SIZES = (1, 2, 3, 4, 4, 4, 4, 4, 5, 6, 7, 7, 8, 10)
LENGTHS = (5, 20, 60, 150, 300, 600)
MOST_OF_A_MEMBER = 100
MOST_OFFERS = (0, 1, 1, 3)


class Past(HostileRun):
    """A random run whose applications do not contradict each other."""

    def __init__(self, network, chance, is_honest):
        super().__init__(network, chance)
        self.is_honest = is_honest
        self.application = Application(self.leaders)

    def verdict(self, view):
        held = self.network.laws.proposals.get(view)
        is_good = held is not None and self.application.is_good(held)
        return [f"token {view} {view}", f"verdict {view} {'true' if is_good else 'false'} {self.network.now}"]

    def certificates(self, index):
        if not self.is_honest:
            super().certificates(index)
            return
        backed = self.backed()
        recent = backed[-8:] if self.chance.random() < 0.9 else backed
        told = [it for it in recent if self.chance.random() < 0.5]
        self.chance.shuffle(told)
        self.network.ask_all(index, [it.line(self.network.now) for it in told] + ["candidates"])
        for _ in range(self.chance.choice(MOST_OFFERS)):
            for view in sorted(self.network.records[index].offered):
                if self.chance.random() < 0.8:
                    self.network.ask_all(index, self.verdict(view))
            self.network.ask(index, "candidates")

    def noisy_line(self, index):
        while True:
            line = self.allowed(index, super().noisy_line(index))
            if line is not None:
                return line

    def allowed(self, index, line):
        """The line as it may come in such a past, or None."""
        words = line.split(" ")
        if words[0] == "verdict":
            is_offered = int(words[1]) in self.network.records[index].offered
            return self.verdict(int(words[1]))[1] if is_offered or not self.is_honest else None
        if words[0] == "proposal" and self.is_honest and not self.leaders.has_faulty(int(words[1])):
            made = self.leaders.proposals.get(int(words[1]))
            return made[0].line() if made else None
        return line


def drawn_network(served, chance, members):
    """A network of a random size and terms, with at most f faulty members."""
    size = members or chance.choice(SIZES)
    faulty = chance.sample(range(size), chance.randint(0, max_faults(size)))
    return RecordedNetwork(served, size, faulty, Terms(chance.randint(1, 5), chance.randint(0, 4)))


def seen_in_past(network, places):
    """Which of these a past left."""
    held = {it for record in network.records.values() for it in record.certificates()}
    voted = Counter(vote.view for vote in network.laws.signers if vote.kind == NOTARIZATION)
    highest = max(current for current, _, _ in places.values())
    return Counter({
        "with faulty members": bool(network.faulty),
        "with members at several views": len({it[0] for it in places.values()}) > 1,
        "with several last finalized views": len({it[1] for it in places.values()}) > 1,
        "with views pruned": any(low > 1 for _, _, low in places.values()),
        "with a false verdict": any(False in record.verdicts().values() for record in network.records.values()),
        "with two proposals voted for in a view": any(count > 1 for count in voted.values()),
        "with votes above all current views": any(vote.view > highest for vote in network.laws.signers),
        "with certificates backed that nobody holds": any(it not in held for it in network.backed()),
        "with requests left open": any(record.building for record in network.records.values()),
        "with nothing recorded": not any(record.entries for record in network.records.values()),
    })


def way_of(seed):
    """The name of the way on from a seed's past: each in turn."""
    return list(WAYS)[seed % len(WAYS)]


def play(served, seed, members=None):
    """Plays the run of a seed; its network, whose processes have ended. What is broken is raised with the network in it."""
    chance = Random(seed)
    name = way_of(seed)
    network = drawn_network(served, chance, members)
    with network:
        try:
            past = Past(network, chance, name != "constructed")
            past.play(min(chance.choice(LENGTHS), MOST_OF_A_MEMBER * network.size))
            network.settle()
            way = WAYS[name](network, past.leaders)
            network.saw = +seen_in_past(network, way.places())
            finalized = len(network.laws.finalized)
            way.play()
            network.saw += Counter({name: 1, "new views finalized": len(network.laws.finalized) - finalized}) + way.seen()
        except Exception as broken:
            broken.network = network
            raise
    return network
