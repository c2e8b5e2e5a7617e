"""Three ways in which the correct members of a network continue alone, until each has finalized a new view.

The faulty members are silent from then on: a certificate comes to a member only where some correct member holds it in its
record, or where the votes of correct members alone make it."""

from collections import Counter

from lib.networks.protocol import FINALIZATION, NOTARIZATION, NULLIFICATION, Certificate, Proposal, max_faults, quorum, vote_in
from lib.networks.recorded import CERTIFICATE, VERDICT
from lib.networks.resolver import Resolver

FARTHEST_START = 200


class Stuck(Exception):
    """A network that makes no progress."""


class Application:
    """What the application finds good, the same at all correct members."""

    def __init__(self, leaders):
        self.leaders = leaders

    def is_good(self, proposal):
        """All that a correct leader built is good, and so are most others."""
        return not self.leaders.has_faulty(proposal.view) or (proposal.payload * 31 + proposal.parent) % 5 != 0


class Continuation:
    """What all ways on have in common."""

    def __init__(self, network, leaders):
        self.network = network
        self.leaders = leaders
        self.application = Application(leaders)
        self.terms = network.terms
        self.correct = network.correct
        self.reached = max(current for current, _, _ in self.places().values())

    def place(self, index):
        """The current view of a member, the last finalized one, and the lowest that is kept."""
        reply = self.network.ask(index, "view")
        if not reply.startswith("view "):
            raise Stuck(f"member {index} replies {reply!r}")
        return tuple(map(int, reply.split(" ")[1:]))

    def places(self):
        return {index: self.place(index) for index in self.correct}

    def expect(self, index, line, *wanted):
        """The reply to a line, which has to begin so."""
        reply = self.network.ask(index, line)
        if not reply.startswith(wanted):
            raise Stuck(f"member {index} replies {reply!r} to {line!r}")
        return reply

    def is_made(self, certificate):
        """Whether the votes of correct members alone make it."""
        return len(self.network.laws.signers.get(certificate, ())) >= quorum(self.network.size)

    def made(self, certificate):
        if not self.is_made(certificate):
            raise Stuck(f"the votes of all correct members do not make the {certificate}")
        return certificate

    def held(self):
        """What some correct member holds, in its record and its state."""
        return {it for index, (_, _, low) in self.places().items() for it in self.network.records[index].certificates(low)}

    def hand_out(self, certificates, members=None):
        """Certificates go to each of the members that has not got them and keeps their views: the latest finalization comes first."""
        finals = sorted((it for it in certificates if it.kind == FINALIZATION), key=lambda it: -it.view)
        others = sorted((it for it in certificates if it.kind != FINALIZATION), key=lambda it: (it.kind != NULLIFICATION, it.view))
        for index in self.correct if members is None else members:
            self.hand(index, finals[:1])
            self.hand(index, finals[1:] + others)

    def hand(self, index, certificates):
        """Certificates go to a member, in order."""
        has, low = set(self.network.records[index].certificates()), self.place(index)[2]
        for certificate in certificates:
            if certificate not in has and certificate.view >= low:
                self.expect(index, certificate.line(self.network.now), "added")

    def verdict(self, view):
        """The line of the application's verdict on what is notarized in a view."""
        is_good = self.application.is_good(self.network.laws.proposals[view])
        return f"verdict {view} {'true' if is_good else 'false'} {self.network.now}"

    def seen(self):
        """What is counted of the continuation."""
        return Counter()


class Constructed(Continuation):
    """As in the proof: all receive the covers and the parent, and so are in one view; each view is abandoned, up to the
    start of a term that nobody knows of and a correct member leads; and that is finalized."""

    def play(self):
        start = self.wanted_start()
        self.exchanges = 0
        self.meet()
        self.give_up(start)
        self.finalize(start)
        terms = self.terms.index(start) - self.terms.index(self.reached)
        if self.exchanges > terms + 4 or terms > self.most_terms(start):
            raise Stuck(f"view {start}, {terms} terms on, took {self.exchanges} exchanges of messages")

    def most_terms(self, start):
        """How far on the start may lie, in terms: f + 2, as leaders go round, and one more for each view on the way that is touched."""
        ahead = [view for view in self.network.touched if self.terms.next_start(self.reached) < view < start]
        return max_faults(self.network.size) + 2 + len(ahead)

    def seen(self):
        return Counter({"exchanges": self.exchanges})

    def wanted_start(self):
        """The first term start above all current views that nobody knows of, with a correct leader."""
        start = self.terms.next_start(self.reached)
        for _ in range(FARTHEST_START):
            if start not in self.network.touched and not self.leaders.has_faulty(start):
                return start
            start = self.terms.next_start(start)
        raise Stuck("no term start that nobody touched")

    def parent(self):
        """The highest view that some member holds as finalized, or as certified, or genesis."""
        held = {it.view for it in self.held() if it.kind == FINALIZATION}
        certified = {view for record in self.network.records.values() for view, is_good in record.verdicts().items() if is_good}
        return max({0} | held | certified)

    def covers(self, parent):
        """The nullifications that are held and cover a view above the parent."""
        return {it for it in self.held() if it.kind == NULLIFICATION and self.terms.end(it.view) > parent}

    def meet(self):
        """All are handed the covers and the parent's certificate, with its verdict: all stand at one view."""
        self.exchanges += 1
        parent = self.parent()
        handed = [it for it in self.held() if it.kind != NULLIFICATION and it.view == parent]
        best = sorted(handed, key=lambda it: it.kind != FINALIZATION)[:1]
        self.hand_out(self.covers(parent) | set(best))
        for index in self.correct:
            if best and best[0].kind == NOTARIZATION and self.network.records[index].verdicts().get(parent) is not True:
                self.expect(index, self.verdict(parent), f"certified {parent}")
        places = self.places()
        if {current for current, _, _ in places.values()} != {self.reached}:
            raise Stuck(f"after all were handed the covers and view {parent}, members stand at {places}")

    def give_up(self, start):
        """All nullify their view, until they stand at the start: an exchange for each."""
        current = self.reached
        while current < start:
            self.exchanges += 1
            self.leave(current)
            current = self.terms.next_start(current)

    def leave(self, current):
        """All nullify the view where they stand, and enter the next term."""
        for index in self.correct:
            self.expect(index, f"nullify {current}", f"nullify {current} ")
        nullification = self.made(Certificate(NULLIFICATION, current))
        self.hand_out({nullification})
        if {it for it, _, _ in self.places().values()} != {self.terms.next_start(current)}:
            raise Stuck(f"after the {nullification} members stand at {self.places()}")

    def finalize(self, start):
        """The start's leader builds, all vote for it, certify it and finalize it: three exchanges."""
        self.exchanges += 3
        proposal = self.built(start)
        for index in self.correct:
            self.notarize(index, proposal)
        self.hand_out({self.made(Certificate(NOTARIZATION, *proposal))})
        for index in self.correct:
            self.expect(index, self.verdict(start), f"certified {start}")
            self.expect(index, f"finalize {start}", f"finalize {start} {proposal.parent} {proposal.payload}")
        self.hand_out({self.made(Certificate(FINALIZATION, *proposal))})
        places = self.places()
        if {it[:2] for it in places.values()} != {(start + 1, start)}:
            raise Stuck(f"view {start} is finalized, and members stand at {places}")

    def built(self, start):
        """What the start's leader builds."""
        leader = self.network.leader(start)
        proposal = Proposal(start, self.parent(), self.leaders.payload_for(start))
        self.expect(leader, "propose", f"propose {start} {leader} {proposal.parent} ")
        self.expect(leader, f"proposed {start} {proposal.payload} {self.network.now}", "true")
        self.leaders.publish(proposal)
        return proposal

    def notarize(self, index, proposal):
        """A member votes to notarize a proposal, which it verifies unless it built it."""
        start = proposal.view
        if index != self.network.leader(start):
            self.expect(index, proposal.line(), "true")
            self.expect(index, "verify", f"ready {start} ")
            self.expect(index, f"verified {start}", "true")
        self.expect(index, f"notarize {start}", f"notarize {start} {proposal.parent} {proposal.payload}")


class Synchronous(Continuation):
    """Rounds in which each member gets all that any other one sent or holds, and does all that a host does that breaks no rule.
    Where a round changes nothing, all nullify their current views.

    What a host leaves out or does besides is said by flags, which the corners set: `gives_up_requests` (it supersedes a request
    to build that is no longer valid), `builds_ahead` (it takes requests for later views), `judges_unoffered` (it gives verdicts on
    views that were not offered)."""

    bound = 30

    def __init__(self, network, leaders, **flags):
        super().__init__(network, leaders)
        self.gives_up_requests = flags.get("gives_up_requests", True)
        self.builds_ahead = flags.get("builds_ahead", network.size > 1)
        self.judges_unoffered = flags.get("judges_unoffered", False)
        self.bound = flags.get("bound", self.bound)
        self.rounds = 0

    def seen(self):
        return Counter({"rounds": self.rounds})

    def play(self):
        while not self.is_done():
            if self.rounds == self.bound:
                raise Stuck(f"after {self.bound} rounds members stand at {self.places()}")
            self.rounds += 1
            self.round()

    def is_done(self):
        return min(finalized for _, finalized, _ in self.places().values()) >= self.reached

    def round(self):
        self.network.now += 10
        before = self.picture()
        self.exchange()
        for index in self.correct:
            self.work(index)
        if self.picture() == before:
            self.give_up_views()

    def give_up_views(self):
        """Each member that has a key nullifies its current view."""
        for index, (current, _, _) in self.places().items():
            if index not in self.network.served.keyless:
                self.expect(index, f"nullify {current}", f"nullify {current} ")

    def picture(self):
        """All that a round may change."""
        return (
            self.places(), {vote: len(signers) for vote, signers in self.network.laws.signers.items()},
            {index: len(record.entries) for index, record in self.network.records.items()},
            {view: list(it) for view, it in self.leaders.proposals.items()},
        )

    def exchange(self):
        self.hand_out(self.held() | {vote for vote in self.network.laws.signers if self.is_made(vote)})
        self.hand_out_proposals()

    def hand_out_proposals(self):
        """What a correct leader built first in a view at hand goes to all others."""
        for index in self.correct:
            current = self.place(index)[0]
            for view in range(current, self.terms.next_start(current) + 1):
                made = self.leaders.proposals.get(view)
                if made and not self.leaders.has_faulty(view) and self.network.leader(view) != index:
                    self.network.ask(index, made[0].line())

    def work(self, index):
        while any([self.certify(index), self.verify(index), self.build(index), self.vote(index)]):
            pass

    def certify(self, index):
        """Verdicts on all that is offered, once; whether there were any."""
        self.fetch_for(index, self.network.ask(index, "candidates"))
        record = self.network.records[index]
        views = set(record.offered)
        if self.judges_unoffered:
            views |= {it.view for it in record.certificates(self.place(index)[2]) if it.kind == NOTARIZATION}
        judged = record.verdicts()
        given = [self.network.ask(index, self.verdict(view)) for view in sorted(views) if view not in judged]
        record.offered.clear()
        return any(reply.startswith("certified ") for reply in given)

    def fetch_for(self, index, reply):
        """The certificates that a reply of `candidates` names are fetched; here all come to all as it is."""

    def verify(self, index):
        words = self.network.ask(index, "verify").split(" ")
        if words[0] == "ready":
            self.network.ask(index, f"verified {words[1]}")
        return words[0] == "ready"

    def build(self, index):
        """Requests that are open are ended, and a new one taken; whether there was one."""
        if self.gives_up_requests:
            self.end_requests(index)
        words = self.network.ask(index, "propose").split(" ")
        if words[0] == "prepare" and not self.builds_ahead:
            self.network.ask(index, f"release {words[1]}")
            return False
        if words[0] in ("propose", "prepare"):
            self.carry_out(index, int(words[1]), int(words[3]))
        return words[0] != "none"

    def end_requests(self, index):
        """Each request to build that is open is superseded, where it is no longer valid, and else carried out."""
        for view, parent in dict(self.network.records[index].building).items():
            if self.network.ask(index, f"supersede {view}") != "true":
                self.carry_out(index, view, parent)

    def carry_out(self, index, view, parent):
        proposal = Proposal(view, parent, self.leaders.payload_for(view))
        if self.network.ask(index, f"proposed {view} {proposal.payload} {self.network.now}") == "true":
            self.leaders.publish(proposal)

    def vote(self, index):
        """Votes in the views at hand; whether there were any."""
        current, finalized, _ = self.place(index)
        last = min(current + max(self.terms.optimistic, 1), self.terms.next_start(current))
        lines = [f"notarize {view}" for view in range(current, last + 1)] + [f"finalize {view}" for view in range(finalized + 1, last + 1)]
        return any(reply != "none" for reply in self.network.ask_all(index, lines))


class Engine(Synchronous):
    """Rounds in which a member gets only what the parts of an engine send, as if all that was sent before had been lost.

    A certificate comes to it where votes that correct members cast in these rounds make it, where another member answers it to
    `best`, or where another one's resolver serves it for a view that is asked for: by this member's resolver, by `candidates`, until
    the certificate came, or by `verify`, of the leader alone. A network of one counts the votes of its record: they are its own.
    Without the flag `keeps_fetches` a certificate that `candidates` names is asked for once."""

    def __init__(self, network, leaders, **flags):
        super().__init__(network, leaders, **flags)
        self.keeps_fetches = flags.get("keeps_fetches", True)
        self.cast = {}
        self.heard = dict.fromkeys(self.correct, 0)

    def play(self):
        self.resolvers = {index: Resolver(self.network.served, self.terms) for index in self.correct}
        try:
            for index in self.correct:
                self.tell_resolver(index)
                self.resolvers[index].ask("replayed")
            self.counted = len(self.network.log)
            super().play()
        finally:
            for resolver in self.resolvers.values():
                resolver.end()

    def tell_resolver(self, index):
        """A member's resolver receives what its record has grown by."""
        entries = self.network.records[index].entries
        for kind, it in entries[self.heard[index]:]:
            if kind == CERTIFICATE:
                self.resolvers[index].ask(f"{it.kind} {it.view}")
            elif kind == VERDICT:
                self.resolvers[index].ask(f"certified {it[0]} {'true' if it[1] else 'false'}")
        self.heard[index] = len(entries)

    def is_made(self, certificate):
        if self.network.size == 1:
            return super().is_made(certificate)
        return len(self.cast.get(certificate, ())) >= quorum(self.network.size)

    def count_votes(self):
        """Counts the votes that were cast since, each by its member."""
        for index, line, reply in self.network.log[self.counted:]:
            vote = vote_in(line, reply)
            if vote is not None:
                self.cast.setdefault(vote, set()).add(index)
        self.counted = len(self.network.log)

    def picture(self):
        self.count_votes()
        return *super().picture(), {vote: len(signers) for vote, signers in self.cast.items()}

    def exchange(self):
        self.count_votes()
        self.hand_out({vote for vote in self.cast if self.is_made(vote)})
        for index in self.correct:
            self.hand_out_best(index)
        for index in self.correct:
            self.tell_resolver(index)
        for index in self.correct:
            self.fetch_all(index)
        self.hand_out_proposals()

    def hand_out_best(self, index):
        """The reply of a member to `best` goes to all."""
        kind, _, view = self.network.ask(index, "best").partition(" ")
        if view:
            self.hand_out(self.found(kind, int(view)))

    def fetch_all(self, index):
        """All that a member's resolver wants is fetched, and all that `candidates` named and is still missing."""
        wanted = set(map(int, self.resolvers[index].ask("outstanding").split(" ")[1:]))
        for view in sorted(wanted | (self.network.records[index].fetches if self.keeps_fetches else set())):
            self.fetch(index, view, self.correct)

    def found(self, kind, view):
        """The certificate of a kind and a view that some member holds."""
        records = self.network.records.values()
        return {it for record in records for it in record.certificates() if (it.kind, it.view) == (kind, view)}

    def fetch(self, index, view, peers):
        """What some peers serve for a view goes to the member; a fetch ends with a certificate of its view, or one that finalizes past it."""
        served = [self.resolvers[peer].served(view) for peer in peers if peer != index and peer in self.resolvers]
        self.hand_out({it for answer in served if answer for it in self.found(*answer)}, [index])
        has = self.network.records[index].certificates()
        if any((it.kind, it.view) == (NOTARIZATION, view) or (it.kind == FINALIZATION and it.view >= view) for it in has):
            self.network.records[index].fetches.discard(view)

    def fetch_for(self, index, reply):
        for pair in reply.partition(" fetch")[2].split():
            self.fetch(index, int(pair.split(":")[1]), self.correct)

    def verify(self, index):
        words = self.network.ask(index, "verify").split(" ")
        if words[0] == "ready":
            self.network.ask(index, f"verified {words[1]}")
        elif words[0] == "resolve":
            self.fetch(index, int(words[2]), [int(words[4])])
        return words[0] == "ready"


WAYS = {"constructed": Constructed, "synchronous": Synchronous, "engine": Engine}
