"""What a trace says, computed from its lines by other means than the page's."""

import json

VOTES = ("notarize", "nullify", "finalize")
# Why a vote is withheld, by the core's names.
WITHHELD = {
    "not_admitted": "the view is too far ahead of the current one", "voted_to_nullify": "the member voted to nullify the view",
    "no_proposal": "no proposal was received", "equivocated": "the leader signed two proposals",
    "not_verified": "the application has not found the proposal valid", "ancestry_not_ready": "the view before offers nothing to build on",
    "binding_changed": "the proposal was verified on a parent that the view may no longer build on", "already_finalized": "the view or one above it is finalized",
    "conflicting_nullify": "the member voted to nullify a view below in the term", "parent_not_certified": "the proposal's parent is not certified",
    "not_notarized": "the view has no notarization", "certification_failed": "the application refused to certify the proposal",
    "not_certified": "the application has not certified the proposal",
}
OF_ENGINES = ("vote", "build", "handoff", "certificate_made", "certificate_accepted", "finalized")


class Traced:
    """A trace in memory."""

    def __init__(self, path):
        lines = [json.loads(line) for line in path.read_text().splitlines()]
        self.header, self.lines = lines[0], lines[1:]
        self.members, self.term = self.header["members"], self.header["term_length"]
        self.views = max(it["view"] for it in self.lines if it["event"] in OF_ENGINES)
        self.notarized, self.final, self.nullified = {}, {}, set()
        for it in self.lines:
            if it["event"] in ("certificate_made", "certificate_accepted"):
                self.certificate(it)
            if it["event"] == "finalized":
                self.final[it["view"]] = it["proposal"]
        self.chain = self.ancestors()

    def certificate(self, it):
        if it["kind"] == "nullification":
            self.nullified.add(it["view"])
        else:
            (self.notarized if it["kind"] == "notarization" else self.final)[it["view"]] = it["proposal"]

    def ancestors(self):
        """The views of the finalized chain, from the highest final one down."""
        chain = set()
        for view in sorted(self.final, reverse=True):
            proposal = self.final[view]
            while view and view not in chain:
                chain.add(view)
                view = proposal["parent"]
                proposal = self.final.get(view) or self.notarized.get(view) or self.any_proposal(view)
        return chain

    def any_proposal(self, view):
        return next((it["proposal"] for it in self.lines if it["view"] == view and it.get("proposal")), {"parent": 0})

    def lost(self):
        """The views without a block on the finalized chain, rising."""
        highest = max(self.final, default=0)
        return [view for view in range(1, self.views + 1) if view not in self.chain and (view < highest or view in self.nullified)]

    def leader(self, view):
        return (view - 1) // self.term % self.members

    def votes(self, view):
        """The signers of each kind and payload's first digits, rising."""
        found = {}
        for it in self.lines:
            if it["view"] == view and it["event"] in ("vote", "vote_received"):
                payload = it["proposal"]["payload"][:4] if "proposal" in it else ""
                signer = it["member"] if it["event"] == "vote" else it["from"]
                found.setdefault((it["kind"], payload), set()).add(signer)
        return {key: sorted(signers) for key, signers in found.items()}

    def withheld(self):
        """What each member withheld in each view, in words."""
        found = {}
        for it in self.lines:
            if it["event"] == "withheld":
                text = f"withholds its vote to {it['kind']}: {WITHHELD[it['reason']]}"
                found.setdefault((it["view"], it["member"]), []).append(text)
        return found

    def of(self, member, view, event):
        """How many events of a kind a member has in a view."""
        return sum(it["event"] == event and it["view"] == view and it.get("member") == member for it in self.lines)
