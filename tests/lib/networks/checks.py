"""What is checked: the laws of one member's votes over all its lifetimes, and what a network agrees on.

Each check looks at lines and replies alone, and raises `Broken` with what it saw."""

from collections import defaultdict

from lib.networks.protocol import FINALIZATION, NOTARIZATION, NULLIFICATION, certificate_in, is_restart, quorum, vote_in

# Why a restart may be refused: what the record holds came from outside, a deadline passes 64 bits, or memory ran out.
EXCUSES = ("OtherEpoch", "ZeroView", "ViewTooLarge", "ForeignSigner", "ParentNotBelow", "TimeOverflow", "RetentionGrown", "OutOfMemory")


class Broken(Exception):
    """A law that does not hold."""


class Record:
    """The nullifications that a member's record may hold at a moment, and so those that its state may know: told by its lines and
    replies. A verdict counts as an entry, also where it was there before, so that no drop takes more here than there."""

    def __init__(self):
        self.entries = []
        self.closed = 0

    def add(self, is_vote=False, nullified=None):
        self.entries.append((is_vote, nullified))

    def restart(self, line):
        """What a restart that succeeds leaves: it drops last entries, but no vote and nothing before one."""
        words = line.split(" ")
        if not words[0].startswith("restart"):
            return
        left = int(words[1])
        while left and len(self.entries) > self.closed and not self.entries[-1][0]:
            self.entries.pop()
            left -= 1
        if words[0] == "restart-pruned":
            self.close()

    def close(self):
        """What stays behind a pruning is dropped no more."""
        self.closed = len(self.entries)

    def covers(self, terms, view):
        """Whether one of them covers a view."""
        return any(nullified is not None and terms.covers(nullified, view) for _, nullified in self.entries)


class MemberLaws:
    """The laws of one member, fed with each line and its reply."""

    def __init__(self, terms, name="the member"):
        self.terms = terms
        self.name = name
        self.accepted = {NOTARIZATION: set(), FINALIZATION: set()}
        self.record = Record()
        self.votes = {NOTARIZATION: {}, NULLIFICATION: {}, FINALIZATION: {}}
        self.begin_life()

    def begin_life(self):
        self.highest = (0, 0, 0)
        self.handed_out = set()

    def take(self, line, reply):
        """Takes a line and its reply; the vote that was cast, or None."""
        vote = vote_in(line, reply)
        if vote is not None:
            self._take_vote(vote, reply)
        elif reply.startswith("added "):
            self._accept(certificate_in(line), reply.startswith("added true"))
        elif reply.startswith("certified "):
            self.record.add()
        elif is_restart(line):
            self._take_restart(line, reply)
        elif line == "compact" and reply == "ok":
            self.record.close()
        elif line == "view" and reply.startswith("view "):
            self._take_views(tuple(map(int, reply.split(" ")[1:])))
        elif line.startswith("broadcast ") and reply == line[len("broadcast "):]:
            self._once(reply)
        return vote

    def _broken(self, what):
        raise Broken(f"{self.name}: {what}")

    def _accept(self, certificate, is_new):
        is_nullification = certificate.kind == NULLIFICATION
        if is_new:
            self.record.add(nullified=certificate.view if is_nullification else None)
        if certificate.kind == NOTARIZATION:
            self.accepted[NOTARIZATION].add(certificate.proposal())
        elif certificate.kind == FINALIZATION:
            self.accepted[FINALIZATION].add(certificate.view)

    def _take_vote(self, vote, reply):
        if vote.kind == NULLIFICATION:
            self._nullify(vote.view, reply)
        elif vote.view in self.votes[vote.kind]:
            self._broken(f"a second vote, for the {vote}")
        elif vote.kind == NOTARIZATION:
            self._notarize(vote)
        else:
            self._finalize(vote)
        if not (vote.kind == NULLIFICATION and reply.endswith("true")):
            self.record.add(is_vote=True)
        self.votes[vote.kind][vote.view] = vote

    def _notarize(self, vote):
        if vote.parent >= vote.view:
            self._broken(f"a vote for the {vote}, whose parent is not below it")
        for view in range(vote.parent + 1, vote.view):
            if not self.record.covers(self.terms, view):
                self._broken(f"a vote for the {vote}, while no nullification of view {view} was known")

    def _nullify(self, view, reply):
        for finalized in self.votes[FINALIZATION]:
            if self.terms.covers(view, finalized):
                self._broken(f"a vote to nullify {view} after one to finalize {finalized}")
        if reply.endswith("true") and view not in self.votes[NULLIFICATION]:
            self._broken(f"a repeat of a vote to nullify {view} that was never cast")

    def _finalize(self, vote):
        if vote.proposal() not in self.accepted[NOTARIZATION]:
            self._broken(f"a vote for the {vote}, whose notarization was not accepted")
        for nullified in self.votes[NULLIFICATION]:
            if self.terms.covers(nullified, vote.view):
                self._passed(nullified, vote)

    def _passed(self, nullified, vote):
        if not any(nullified <= view < vote.view for view in self.accepted[FINALIZATION]):
            self._broken(f"a vote for the {vote} after one to nullify {nullified}, with no finalization between")

    def _take_restart(self, line, reply):
        words = reply.split(" ")
        if reply == "ok":
            self.record.restart(line)
            self.begin_life()
        elif words[0] == "refused" and words[2] not in EXCUSES:
            self._broken(f"its own record was refused: {reply}")

    def _take_views(self, views):
        if views[0] < self.highest[0] or views[1] < self.highest[1] or views[0] <= views[1]:
            self._broken(f"views {views} after {self.highest} within a lifetime")
        self.highest = views

    def _once(self, handed):
        if handed in self.handed_out:
            self._broken(f"{handed} was returned for broadcast twice in a lifetime")
        self.handed_out.add(handed)


class NetworkLaws:
    """All certificates that the votes of a network back, made or not, and what holds between them."""

    def __init__(self, members, faulty, terms):
        self.terms = terms
        self.needed = quorum(members) - len(faulty)
        self.faulty = len(faulty)
        self.signers = defaultdict(set)
        self.proposals = {}
        self.notarized = {}
        self.finalized = set()
        self.nullified = set()
        self.backed = []

    def count(self, certificate):
        """How many members are faulty or have cast this vote."""
        return len(self.signers.get(certificate, ())) + self.faulty

    def is_backed(self, certificate):
        return len(self.signers.get(certificate, ())) >= self.needed

    def take(self, member, vote):
        """Counts a member's vote; the certificate that it completes, or None."""
        signers = self.signers[vote]
        if member in signers:
            return None
        signers.add(member)
        if len(signers) != self.needed:
            return None
        self.backed.append(vote)
        self._check(vote)
        return vote

    def conflicts(self):
        """How many certificates that contradict a backed one have the votes of some correct member, but not of enough."""
        return sum(not self.is_backed(vote) and self._is_contradicted(vote) for vote in self.signers)

    def _is_contradicted(self, vote):
        if vote.kind == NULLIFICATION:
            return any(self.terms.covers(vote.view, view) for view in self.finalized)
        return self.proposals.get(vote.view, vote.proposal()) != vote.proposal()

    def _check(self, certificate):
        if certificate.kind == NULLIFICATION:
            self.nullified.add(certificate.view)
        else:
            held = self.proposals.setdefault(certificate.view, certificate.proposal())
            if held != certificate.proposal():
                raise Broken(f"view {certificate.view} has two proposals: {held} and {certificate.proposal()}")
        if certificate.kind == NOTARIZATION:
            self.notarized[certificate.view] = certificate.parent
        if certificate.kind == FINALIZATION:
            self.finalized.add(certificate.view)
            if certificate.view not in self.notarized:
                raise Broken(f"the {certificate} has no notarization")
        self._check_finalized(certificate)

    def _check_finalized(self, certificate):
        for view in self.finalized:
            if any(self.terms.covers(nullified, view) for nullified in self.nullified):
                raise Broken(f"view {view} is finalized, and covered by a nullification (with the {certificate})")
            for notarized, parent in self.notarized.items():
                if parent < view < notarized:
                    raise Broken(f"view {notarized} is notarized on {parent}, past view {view}, which is finalized")
