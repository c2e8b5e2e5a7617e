"""What faulty members do: they propose several blocks a view, on whatever parent, and vote for everything.

They need no process: the network counts them for each vote, and hands their certificates in when it likes, late, twice, out
of order, or never."""

from lib.networks.protocol import Proposal

PROPOSALS_A_VIEW = 3
OWN_PAYLOADS = 50
PAYLOADS_A_VIEW = 100


class Leaders:
    """The proposals of each view: those that correct leaders built, and those that the faulty ones make up."""

    def __init__(self, network, chance):
        self.network = network
        self.chance = chance
        self.proposals = {}
        self.built = 0

    def has_faulty(self, view):
        return self.network.leader(view) in self.network.faulty

    def payload_for(self, view):
        """A new payload for a correct leader."""
        self.built += 1
        return view * PAYLOADS_A_VIEW + OWN_PAYLOADS + self.built % OWN_PAYLOADS

    def publish(self, proposal):
        """A correct leader's proposal goes out."""
        self.proposals.setdefault(proposal.view, []).append(proposal)

    def proposal_for(self, view):
        """Some proposal of the view that may be passed to a member, or None; mostly the view's first."""
        made = self.proposals.setdefault(view, [])
        if self.has_faulty(view) and len(made) < PROPOSALS_A_VIEW and (not made or self.chance.random() < 0.3):
            made.append(self.made_up(view, len(made), 0.15))
        if not made:
            return None
        return made[0] if self.chance.random() < 0.6 else self.chance.choice(made)

    def made_up(self, view, count, wildness=0.0):
        """A faulty leader's proposal; so likely on a parent that makes no sense."""
        if self.chance.random() < wildness:
            parent = self.chance.randrange(view)
        else:
            parent = self.chance.choice(plausible_parents(self.network, view))
        return Proposal(view, parent, view * PAYLOADS_A_VIEW + count)


def plausible_parents(network, view):
    """The views that a proposal of this view may name as its parent: the one before it, or one that nullifications reach from."""
    terms, laws = network.terms, network.laws
    if not terms.are_together(view, view - 1) or view == 1:
        parents, below = [], view - 1
        while below > 0 and any(terms.covers(it, below) for it in laws.nullified):
            if below in laws.notarized:
                parents.append(below)
            below -= 1
        return [*parents, below]
    return [view - 1]
