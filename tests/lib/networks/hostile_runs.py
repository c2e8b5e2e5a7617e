"""Random networks with an adversary: messages are lost, repeated and reordered, leaders equivocate, members lag and begin new lifetimes.

A run is made by its seed alone. Members get whatever calls a host may make, and at times what none should: each law
has to hold for every list of calls."""

from dataclasses import dataclass
from random import Random

from lib.networks.adversary import Leaders
from lib.networks.member import ProgramEnded
from lib.networks.network import Network
from lib.networks.protocol import FINALIZATION, NOTARIZATION, NULLIFICATION, Proposal, Terms, max_faults, most_faults

KINDS = (NOTARIZATION, NULLIFICATION, FINALIZATION)
REASONS = ("Retry", "Inactivity", "LeaderNullify", "LeaderTimeout", "CertificationTimeout", "StallTimeout", "InvalidProposal")
FAR_AHEAD = 1_000_000


@dataclass(frozen=True)
class Temper:
    """How a run goes: how likely each thing is."""

    delivery: float
    timeout: float
    restart: float
    noise: float
    refusal: float
    lag: float
    patience: int


def drawn_temper(chance):
    """The temper of a run."""
    return Temper(
        delivery=chance.choice((0.6, 0.8, 0.95)),
        timeout=chance.choice((0.0, 0.03, 0.1)),
        restart=chance.choice((0.0, 0.05, 0.2)),
        noise=chance.choice((0.0, 0.05, 0.2)),
        refusal=chance.choice((0.0, 0.02, 0.1)),
        lag=chance.choice((0.0, 0.0, 0.9)),
        patience=chance.choice((4, 8, 16)),
    )


def drawn_network(served, chance, members, watches_votes):
    """A network of a random size, terms and faulty members; half of the runs have as many of these as agreement may bear."""
    size = members or chance.randint(4, 10)
    most = chance.choice((max_faults(size), most_faults(size)))
    faulty = chance.sample(range(size), chance.randint(1, most))
    return Network(served, size, faulty, Terms(chance.randint(1, 5), chance.randint(0, 4)), watches_votes)


class HostileRun:
    """One run: its steps are bursts of lines to one member each."""

    def __init__(self, network, chance):
        self.network = network
        self.chance = chance
        self.temper = drawn_temper(chance)
        self.leaders = Leaders(network, chance)
        self.views = {index: (1, 0) for index in network.correct}
        self.waited = dict.fromkeys(network.correct, 0)
        self.laggard = chance.choice(network.correct)

    def play(self, steps):
        """Plays so many bursts."""
        for _ in range(steps):
            index = self.chance.choice(self.network.correct)
            if index != self.laggard or self.chance.random() >= self.temper.lag:
                self.step(index)

    def step(self, index):
        """One burst of one member, and a look at its views then."""
        self.network.now += self.chance.randrange(300)
        if self.chance.random() < self.temper.restart:
            self.restart(index)
        elif self.chance.random() < self.temper.noise:
            self.noise(index)
        elif self.chance.random() < self.temper.timeout or self.waited[index] > self.temper.patience:
            self.time_out(index)
        else:
            self.work(index)
        reply = self.network.ask(index, "view")
        if not reply.startswith("view "):
            raise ProgramEnded(f"member {index} serves no more: it replies {reply!r}")
        _, current, finalized, _ = reply.split(" ")
        self.waited[index] = self.waited[index] + 1 if int(current) == self.views[index][0] else 0
        self.views[index] = int(current), int(finalized)

    def restart(self, index):
        if self.network.served.crashes and self.chance.random() < 0.5:
            life = self.chance.choice(("crash", "crash", "lose-compaction"))
            self.network.ask(index, f"{life} {self.network.now}")
            return
        word = self.chance.choice(("restart", "restart-pruned"))
        self.network.ask(index, f"{word} {self.chance.choice((0, 1, 2, 5, 100))} {self.network.now}")

    def time_out(self, index):
        current, _ = self.views[index]
        self.waited[index] = 0
        compacts = self.network.served.crashes and self.chance.random() < 0.5
        self.network.ask_all(index, [f"timeout {self.network.now}", f"nullify {current}", "prune", *["compact"] * compacts])

    def work(self, index):
        """The member receives certificates and proposals, and does what they open."""
        for act in self.chance.sample((self.certificates, self.proposals, self.build, self.votes), 4):
            if self.chance.random() < self.temper.delivery:
                act(index)

    def backed(self):
        """The certificates that may come to a member."""
        return self.network.backed()

    def certificates(self, index):
        """Some of the certificates that the votes back, the later ones more likely, and verdicts on what they offer."""
        backed = self.backed()
        recent = backed[-8:] if self.chance.random() < 0.9 else backed
        told = [it for it in recent if self.chance.random() < 0.5]
        self.chance.shuffle(told)
        self.network.ask_all(index, [it.line(self.network.now) for it in told] + ["candidates"])
        views = {it.view for it in told if it.kind == NOTARIZATION}
        self.network.ask_all(index, [line for view in sorted(views) for line in self.verdict(view)])

    def verdict(self, view):
        is_good = "false" if self.chance.random() < self.temper.refusal else "true"
        return [f"token {view} {view}", f"verdict {view} {is_good} {self.network.now}"]

    def window(self, index):
        """The views that the member may be led to vote for, with one more at each end."""
        current, _ = self.views[index]
        return range(max(1, current - 1), current + self.network.terms.optimistic + 2)

    def proposals(self, index):
        """Proposals of the views at hand, of which `verify` gives some out."""
        told = []
        for view in self.window(index):
            proposal = self.leaders.proposal_for(view)
            if proposal is not None and self.chance.random() < self.temper.delivery:
                told.append(proposal.line())
        self.network.ask_all(index, told)
        for reply in self.network.ask_all(index, ["verify", "verify", "verify"]):
            if reply.startswith("ready "):
                self.judge(index, int(reply.split(" ")[1]))

    def judge(self, index, view):
        if self.chance.random() < self.temper.refusal:
            self.network.ask(index, f"rejected {view} {self.network.now}")
        else:
            self.network.ask_all(index, [f"verified {view}", f"notarize {view}"])

    def build(self, index):
        """The member leads, where it may."""
        words = self.network.ask(index, "propose").split(" ")
        if words[0] not in ("propose", "prepare"):
            return
        view, parent = int(words[1]), int(words[3])
        payload = self.leaders.payload_for(view)
        proposed, _ = self.network.ask_all(index, [f"proposed {view} {payload} {self.network.now}", f"notarize {view}"])
        if proposed == "true":
            self.leaders.publish(Proposal(view, parent, payload))

    def votes(self, index):
        """Votes are asked for in the views at hand, and to finalize from the last finalized view on."""
        current, finalized = self.views[index]
        views = range(max(finalized, current - 8), current + 2)
        lines = [f"notarize {view}" for view in self.window(index)] + [f"finalize {view}" for view in views]
        self.network.ask_all(index, [line for line in lines if self.chance.random() < 0.7])

    def noise(self, index):
        """Lines that nobody should have written."""
        self.network.ask_all(index, [self.noisy_line(index) for _ in range(self.chance.randint(1, 6))])

    def noisy_line(self, index):
        choice, now = self.chance.choice, self.network.now
        current, _ = self.views[index]
        view = choice((max(0, current - 1), current, current + 1, self.chance.randrange(current + 10), current + FAR_AHEAD))
        forms = (
            f"proposal {view} {self.chance.randrange(view + 1)} {self.chance.randrange(5)}", f"verified {view}", f"rejected {view} {now}",
            f"proposed {view} {self.chance.randrange(5)} {now}", f"supersede {view}", f"abandon {view}", f"release {view}",
            f"token {view} 1", f"verdict {view} {choice(('true', 'false'))} {now}", f"trigger {view} {choice(REASONS)} {now}",
            f"notarize {view}", f"nullify {view}", f"finalize {view}", f"broadcast {choice(KINDS)} {view}",
            "verify", "propose", "candidates", "best", "prune", "record", f"timeout {now}",
        )
        return choice(forms)


def play(served, seed, steps, members=None, watches_votes=True):
    """Plays the run of a seed; its network, whose processes have ended. What is broken is raised with the network in it."""
    chance = Random(seed)
    network = drawn_network(served, chance, members, watches_votes)
    with network:
        try:
            HostileRun(network, chance).play(steps)
        except Exception as broken:
            broken.network = network
            raise
    return network
