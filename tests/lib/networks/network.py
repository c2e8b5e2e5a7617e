"""A network: the correct members, each a process of a built program, and the votes that they cast.

After every reply the bench takes all certificates that the votes back, whether anybody makes them or not, and checks
the laws of `checks.py`. A certificate is passed in only where the votes back it."""

from collections import Counter

from lib.networks.checks import Broken, MemberLaws, NetworkLaws
from lib.networks.member import Member, ProgramEnded
from lib.networks.protocol import certificate_in, is_restart, vote_in


OUT_OF_MEMORY = ("fault 1 OutOfMemory", "refused 13 OutOfMemory")
FAILED = "fault 2 Failed"
CRASHES = ("crash ", "lose-compaction ")
COMPACT = "compact"
MOST_TRIES = 1000


class NotBacked(Exception):
    """A schedule passes a certificate that the votes do not back."""


class Network:
    """Members 0 to n - 1, of which some are faulty: these have no process, and count for each vote.

    Where it does not watch votes, it looks for agreement alone."""

    def __init__(self, served, members, faulty, terms, watches_votes=True):
        self.served = served
        self.watches_votes = watches_votes
        self.size = members
        self.faulty = frozenset(faulty)
        self.terms = terms
        self.now = 0
        self.laws = NetworkLaws(members, self.faulty, terms)
        self.correct = [index for index in range(members) if index not in self.faulty]
        self.member_laws = {index: MemberLaws(terms, f"member {index}") for index in self.correct}
        self.log = []
        self.restarts = 0
        self.crashes = 0
        self.compactions = 0
        self.refusals = 0
        self.saw = Counter()
        self.members = {index: Member(served, members, index, terms) for index in self.correct}

    def leader(self, view):
        return self.terms.index(view) % self.size

    def ask(self, index, line):
        """Asks one correct member, and checks the reply."""
        return self.ask_all(index, [line])[0]

    def ask_all(self, index, lines):
        """Asks one correct member some lines at once, and checks each reply."""
        for line in lines:
            self._see(line)
        if self.served.refuses_one_in:
            return [self._answered(index, line) for line in lines]
        replies = self.members[index].ask_all(lines)
        for line, reply in zip(lines, replies):
            self._take(index, line, reply)
        return replies

    def _answered(self, index, line):
        """The reply to a line that is asked again where memory was refused; a member that has failed is restarted first."""
        for _ in range(MOST_TRIES):
            reply = self.members[index].ask(line)
            self._take(index, line, reply)
            self.refusals += reply in OUT_OF_MEMORY
            if reply == FAILED:
                self._answered(index, f"restart 0 {self.now}")
            elif reply not in OUT_OF_MEMORY:
                return reply
        raise ProgramEnded(f"member {index} finds no memory for {line!r} in {MOST_TRIES} tries")

    def _see(self, line):
        certificate = certificate_in(line)
        if certificate is not None and not self.laws.is_backed(certificate):
            raise NotBacked(f"{line!r}: the votes of {self.laws.count(certificate)} do not back it")

    def _take(self, index, line, reply):
        self.log.append((index, line, reply))
        self.restarts += is_restart(line)
        self.crashes += line.startswith(CRASHES)
        self.compactions += line == COMPACT and reply == "ok"
        vote = self.member_laws[index].take(line, reply) if self.watches_votes else vote_in(line, reply)
        if self.watches_votes and is_restart(line) and reply != "ok" and reply not in OUT_OF_MEMORY:
            raise Broken(f"member {index}: {line!r} was refused: {reply}")
        if vote is not None:
            self.laws.take(index, vote)

    def backed(self):
        """All certificates that the votes back, in the order in which they came to be."""
        return self.laws.backed

    def close(self):
        """Ends all processes; whether each ended well."""
        return all([member.end() == 0 for member in self.members.values()])

    def __enter__(self):
        return self

    def __exit__(self, raised, *_):
        if not self.close() and raised is None:
            raise ProgramEnded("a member's process did not end with status 0")
