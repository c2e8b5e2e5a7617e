"""Fair networks: each correct member gets each message, moments pass, timeouts are taken, f members are faulty.

Every correct member has to finalize views, up to a goal within a bound of time. Nothing proves this: a run that stalls is
raised with what each member waits for. A run is made by its seed alone."""

import heapq
from dataclasses import dataclass
from random import Random

from lib.networks.adversary import Leaders
from lib.networks.network import Network
from lib.networks.protocol import NOTARIZATION, Proposal, Terms, certificate_in, max_faults, quorum

SILENT, HELPING, PARTIAL = "silent", "helping", "partial"
LATEST_DELIVERY = 120
FAILED_PAYLOADS = 3
BOUND = 600_000


class Stalled(Exception):
    """A fair run in which a correct member finalizes nothing more."""


@dataclass(frozen=True)
class Manner:
    """How the faulty members act, and how often correct ones begin new lifetimes."""

    votes: str
    proposes: bool
    equivocates: bool
    restart: float


def drawn_manner(chance):
    """The manner of a run."""
    return Manner(
        votes=chance.choice((SILENT, HELPING, PARTIAL)),
        proposes=chance.random() < 0.7,
        equivocates=chance.random() < 0.5,
        restart=chance.choice((0.0, 0.0, 0.02)),
    )


class FairRun:
    """One run: messages come at their moments, and each member does all that it can."""

    def __init__(self, network, chance):
        self.network = network
        self.chance = chance
        self.manner = drawn_manner(chance)
        self.leaders = Leaders(network, chance)
        self.coming = []
        self.messages = 0
        self.sent = set()
        self.unmade = []
        self.proposed_views = set()
        self.views = {index: (1, 0) for index in network.correct}
        self.deadlines = dict.fromkeys(network.correct, 0)
        self.counted = 0

    def play(self, goal):
        """Plays until each correct member has finalized the goal's view."""
        for index in self.network.correct:
            self.work(index)
        while min(finalized for _, finalized in self.views.values()) < goal:
            if self.network.now > BOUND:
                raise Stalled(f"{self.manner}, at {self.views}, after {self.network.now} milliseconds")
            self.wait()
            self.act()

    def wait(self):
        """Time advances to the next message or timeout."""
        moments = [self.coming[0][0]] if self.coming else []
        self.network.now = max(self.network.now, min(moments + list(self.deadlines.values())))

    def act(self):
        """Whoever has a message or a timeout acts on it."""
        told = {index: [] for index, moment in self.deadlines.items() if moment <= self.network.now}
        while self.coming and self.coming[0][0] <= self.network.now:
            _, _, index, message = heapq.heappop(self.coming)
            told.setdefault(index, []).append(message)
        for index, messages in told.items():
            if self.chance.random() < self.manner.restart and min(finalized for _, finalized in self.views.values()) < 4:
                life = "crash" if self.network.served.crashes and self.chance.random() < 0.5 else "restart 0"
                self.network.ask(index, f"{life} {self.network.now}")
            self.hear(index, messages)
            self.work(index)

    def send(self, message, recipients):
        """A message comes to each of the recipients, each time later."""
        for index in recipients:
            moment = self.network.now + self.chance.randint(1, LATEST_DELIVERY)
            self.messages += 1
            heapq.heappush(self.coming, (moment, self.messages, index, message))

    def send_once(self, certificate):
        """A certificate that somebody made or returns goes to all, once."""
        if certificate not in self.sent:
            self.sent.add(certificate)
            self.send(certificate, self.network.correct)

    def hear(self, index, messages):
        """The messages are passed in, and what is newly added is sent to all."""
        lines = [it.line() if isinstance(it, Proposal) else it.line(self.network.now) for it in messages]
        for line, reply in zip(lines, self.network.ask_all(index, lines)):
            certificate = certificate_in(line)
            if certificate is not None and reply.startswith("added true"):
                if self.network.ask(index, f"broadcast {certificate.kind} {certificate.view}") != "none":
                    self.send_once(certificate)

    def work(self, index):
        """All that the member can do at this moment."""
        self.time_out(index)
        while any([self.certify(index), self.verify(index), self.build(index), self.vote(index)]):
            pass
        self.look(index)
        self.make_certificates()

    def look(self, index):
        """The member's views, and until when it waits."""
        view, timeout = self.network.ask_all(index, ["view", f"timeout {self.network.now}"])
        _, current, finalized, _ = view.split(" ")
        self.views[index] = int(current), int(finalized)
        words = timeout.split(" ")
        self.deadlines[index] = int(words[1]) if words[0] == "timeout" else self.network.now + 1000
        self.faulty_proposals(int(current))

    def time_out(self, index):
        """The current view's timeout is taken, where it is due."""
        if self.deadlines[index] > self.network.now:
            return
        timeout, view = self.network.ask_all(index, [f"timeout {self.network.now}", "view"])
        words = timeout.split(" ")
        if words[0] == "timeout" and int(words[1]) <= self.network.now:
            _, best = self.network.ask_all(index, [f"nullify {view.split(' ')[1]}", "best"])
            self.hand_out_again(index, best)

    def hand_out_again(self, index, best):
        """The certificate that lets others enter the current view goes to all once more."""
        words = best.split(" ")
        if len(words) == 2:
            self.send_backed(words[0], int(words[1]), self.network.correct)

    def send_backed(self, kind, view, recipients):
        """The certificate of a kind and view is sent, where the votes back one."""
        held = next((it for it in self.network.backed() if (it.kind, it.view) == (kind, view)), None)
        if held is not None:
            self.send(held, recipients)

    def certify(self, index):
        """What is offered gets its verdict; what is missing for others is sent. How many were judged."""
        offered, _, missing = self.network.ask(index, "candidates").partition(" fetch")
        views = list(map(int, offered.split(" ")[1:]))
        for pair in missing.split():
            self.send_backed(NOTARIZATION, int(pair.split(":")[1]), [index])
        for view in views:
            is_good = "false" if self.is_bad(view) else "true"
            self.network.ask_all(index, [f"token {view} {view}", f"verdict {view} {is_good} {self.network.now}"])
        return len(views)

    def is_bad(self, view):
        """Whether the proposal that is notarized in a view fails certification: some of the faulty leaders' do."""
        held = self.network.laws.proposals.get(view)
        return held is not None and self.leaders.has_faulty(view) and held.payload % 7 == FAILED_PAYLOADS

    def verify(self, index):
        """Proposals that are returned for verification are found valid. How many were returned."""
        words = self.network.ask(index, "verify").split(" ")
        if words[0] == "resolve":
            self.send_backed(words[3], int(words[2]), [index])
        elif words[0] == "ready":
            self.network.ask(index, f"verified {words[1]}")
        return words[0] != "wait"

    def build(self, index):
        """The member leads, where it may. How many proposals it built."""
        words = self.network.ask(index, "propose").split(" ")
        if words[0] not in ("propose", "prepare"):
            return 0
        view, parent = int(words[1]), int(words[3])
        proposal = Proposal(view, parent, self.leaders.payload_for(view))
        if self.network.ask(index, f"proposed {view} {proposal.payload} {self.network.now}") == "true":
            self.leaders.publish(proposal)
            self.send(proposal, [it for it in self.network.correct if it != index])
        return 1

    def vote(self, index):
        """Votes are asked for in each view that may have one. How many were cast."""
        _, current, finalized, _ = self.network.ask(index, "view").split(" ")
        current, finalized, terms = int(current), int(finalized), self.network.terms
        last = min(current + max(terms.optimistic, 1), terms.next_start(current))
        lines = [f"notarize {view}" for view in range(current, last + 1)]
        lines += [f"finalize {view}" for view in range(finalized + 1, last + 1)]
        return sum(reply != "none" for reply in self.network.ask_all(index, lines))

    def faulty_proposals(self, current):
        """A faulty leader proposes in the views that its first correct member may vote for, one block or two."""
        if not self.manner.proposes:
            return
        for view in range(current, min(current + self.network.terms.optimistic, self.network.terms.end(current)) + 1):
            if view not in self.proposed_views and self.leaders.has_faulty(view):
                self.proposed_views.add(view)
                self.send_proposals(view)

    def send_proposals(self, view):
        first, second = self.leaders.made_up(view, 0), self.leaders.made_up(view, 1)
        told = [index for index in self.network.correct if self.manner.equivocates and self.chance.random() < 0.4]
        self.send(second, told)
        self.send(first, [index for index in self.network.correct if index not in told])

    def make_certificates(self):
        """Certificates are made of the votes that all get; the faulty members' votes help as they like."""
        for certificate in self.network.backed()[self.counted:]:
            self.unmade.append(certificate)
            if self.manner.votes == HELPING:
                self.send_once(certificate)
            elif self.manner.votes == PARTIAL:
                self.send(certificate, [self.chance.choice(self.network.correct)])
        self.counted = len(self.network.backed())
        for certificate in [it for it in self.unmade if self.is_made_by_correct_members(it)]:
            self.unmade.remove(certificate)
            self.send_once(certificate)

    def is_made_by_correct_members(self, certificate):
        return len(self.network.laws.signers[certificate]) >= quorum(self.network.size)


def drawn_network(served, chance, members):
    """A network of a random size and terms, with f faulty members."""
    size = members or chance.randint(4, 10)
    faulty = chance.sample(range(size), max_faults(size))
    return Network(served, size, faulty, Terms(chance.randint(1, 5), chance.randint(0, 4)))


def play(served, seed, goal, members=None):
    """Plays the run of a seed; its network, whose processes have ended. What is broken is raised with the network in it."""
    chance = Random(seed)
    network = drawn_network(served, chance, members)
    with network:
        try:
            FairRun(network, chance).play(goal)
        except Exception as broken:
            broken.network = network
            raise
    return network
