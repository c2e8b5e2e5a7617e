"""A network that keeps what each member's record holds, what is open, and which views were touched: told by lines and replies.

Where the members can write their records, what is kept is compared with them."""

from lib.networks.checks import Broken
from lib.networks.network import OUT_OF_MEMORY, Network
from lib.networks.protocol import FINALIZATION, NOTARIZATION, NULLIFICATION, Certificate, certificate_in, is_restart, vote_in

RETENTION = 10
VOTE, CERTIFICATE, VERDICT = "vote", "certificate", "verdict"
KINDS_OF_VOTES = {"notarize": NOTARIZATION, "nullify": NULLIFICATION, "finalize": FINALIZATION}
TOUCHES = ("proposal", "proposed", NOTARIZATION, FINALIZATION, NULLIFICATION)
GIVEN_UP = (("proposed", "true"), ("proposed", "false"), ("supersede", "true"), ("release", "ok"))


class Record:
    """One member's record as pairs of a kind and what it is of: a vote, a certificate, or a view with its verdict."""

    def __init__(self):
        self.entries = []
        self.closed = 0
        self.offered = set()
        self.building = {}
        self.fetches = set()

    def take(self, line, reply):
        """Takes a line and its reply."""
        words = line.split(" ")
        vote, certificate = vote_in(line, reply), certificate_in(line)
        if vote is not None:
            if not (vote.kind == NULLIFICATION and reply.endswith("true")):
                self.entries.append((VOTE, vote))
        elif certificate is not None and reply.startswith("added true"):
            self.entries.append((CERTIFICATE, certificate))
        elif words[0] == "verdict" and reply.startswith("certified"):
            self._judge(int(words[1]), words[2] == "true")
        elif is_restart(line) and reply.split(" ")[0] != "fault":
            self._restart(words)
        elif line == "compact" and reply == "ok":
            self._prune()
        else:
            self._follow(words, reply)

    def _judge(self, view, is_good):
        if (VERDICT, (view, is_good)) not in self.entries:
            self.entries.append((VERDICT, (view, is_good)))
        self.offered.discard(view)

    def _follow(self, words, reply):
        """Keeps what a reply opens or ends."""
        told = reply.split(" ")
        if words[0] == "propose" and told[0] in ("propose", "prepare"):
            self.building[int(told[1])] = int(told[3])
        elif (words[0], reply) in GIVEN_UP:
            self.building.pop(int(words[1]), None)
        elif words[0] == "candidates" and told[0] == "candidates":
            offered, _, fetches = reply.partition(" fetch")
            self.offered |= set(map(int, offered.split(" ")[1:]))
            self.fetches |= {int(pair.split(":")[1]) for pair in fetches.split()}

    def _restart(self, words):
        drop = int(words[1]) if words[0].startswith("restart") else 0
        while drop and len(self.entries) > self.closed and self.entries[-1][0] != VOTE:
            self.entries.pop()
            drop -= 1
        if words[0] == "restart-pruned":
            self._prune()
        self.offered, self.building, self.fetches = set(), {}, set()

    def _prune(self):
        """What a pruning leaves: at a restart, or within a lifetime right behind the state's own prune."""
        low = max((it.view for it in self.certificates() if it.kind == FINALIZATION), default=0) - RETENTION
        self.entries = [it for it in self.entries if view_of(it) >= low]
        self.closed = len(self.entries)

    def certificates(self, low=0):
        """Those of views from one on."""
        return [it for kind, it in self.entries if kind == CERTIFICATE and it.view >= low]

    def verdicts(self):
        return dict(it for kind, it in self.entries if kind == VERDICT)


def view_of(entry):
    """The view of an entry."""
    kind, it = entry
    return it[0] if kind == VERDICT else it.view


def written_entry(word):
    """The entry that a member writes so."""
    kind, view, *rest = word.split(":")
    if kind == VERDICT:
        return VERDICT, (int(view), rest[0] == "true")
    numbers = (int(view), *map(int, rest))
    return (VOTE, Certificate(KINDS_OF_VOTES[kind], *numbers)) if kind in KINDS_OF_VOTES else (CERTIFICATE, Certificate(kind, *numbers))


class RecordedNetwork(Network):
    """A network that keeps what each member's record holds, and the views that somebody knows something of."""

    def __init__(self, *given):
        super().__init__(*given)
        self.records = {index: Record() for index in self.correct}
        self.touched = set()

    def _take(self, index, line, reply):
        super()._take(index, line, reply)
        self.records[index].take(line, reply)
        words = line.split(" ")
        if words[0] in TOUCHES and reply != "not-allowed":
            self.touched.add(int(words[1]))
        if words[0] == "propose" and reply not in ("none", *OUT_OF_MEMORY):
            self.touched.add(int(reply.split(" ")[1]))

    def settle(self):
        """Memory is refused no more, whoever has failed is restarted, and what is kept of records is compared with them."""
        for index in self.correct:
            self.ask(index, "view")
            self.members[index].refuse_no_more()
            self.ask(index, "view")
            held = self.records[index].entries
            if self.served.is_enduring:
                written = [written_entry(word) for word in self.ask(index, "entries").split(" ")[1:]]
                if self.served.refuses_one_in:
                    held = self.records[index].entries = written
                if held != written:
                    raise Broken(f"member {index} has the record {written}, where its replies say {held}")
            elif self.ask(index, "record") != f"record {len(held)}":
                raise Broken(f"member {index} has {self.ask(index, 'record')}, where its replies say {len(held)} entries")
