"""A picture of one schedule in text: members down, views across, with votes, certificates and restarts."""

from collections import defaultdict

from lib.networks.protocol import FINALIZATION, NOTARIZATION, NULLIFICATION, is_restart, vote_in

SIGNS = {NOTARIZATION: "n", NULLIFICATION: "x", FINALIZATION: "f"}
LEGEND = """\
na: voted to notarize proposal a of the view (b, c: another one); x: to nullify; f: to finalize; r: a new lifetime began, drawn at
the latest view voted in; N, X, F: certificates that the votes back; parent: of the proposal that is notarized"""


class Picture:
    """The rows of a picture, filled from a network's log."""

    def __init__(self, network):
        self.network = network
        self.letters = defaultdict(dict)
        self.cells = defaultdict(str)
        self.latest = dict.fromkeys(network.correct, 1)
        for index, line, reply in network.log:
            self._take(index, line, reply)
        for certificate in network.backed():
            self.cells["certificates", certificate.view] += self._sign(certificate).replace("n", "N").replace("x", "X").replace("f", "F")
            if certificate.kind == NOTARIZATION:
                self.cells["parent", certificate.view] = str(certificate.parent)

    def _take(self, index, line, reply):
        vote = vote_in(line, reply)
        if is_restart(line):
            self.cells[index, self.latest[index]] += "r"
        elif vote is not None and not reply.endswith("true"):
            self.latest[index] = max(self.latest[index], vote.view)
            self.cells[index, vote.view] += self._sign(vote)

    def _sign(self, vote):
        """The sign of a vote, with the letter of its proposal."""
        if vote.kind != NOTARIZATION:
            return SIGNS[vote.kind]
        letters = self.letters[vote.view]
        return "n" + letters.setdefault((vote.parent, vote.payload), chr(ord("a") + len(letters) % 26))

    def rows(self, views):
        """The picture's lines, over some views."""
        widths = {view: max([len(str(view)), *(len(cell) for (_, at), cell in self.cells.items() if at == view)]) for view in views}
        yield self._row("view", {view: str(view) for view in views}, widths)
        yield self._row("leader", {view: str(self.network.leader(view)) for view in views}, widths)
        for index in range(self.network.size):
            name = f"member {index}" + (" (faulty)" if index in self.network.faulty else "")
            yield self._row(name, {view: self.cells.get((index, view), ".") for view in views}, widths)
        for name in ("certificates", "parent"):
            yield self._row(name, {view: self.cells.get((name, view), "") for view in views}, widths)

    @staticmethod
    def _row(name, texts, widths):
        return (f"{name:<18}" + " ".join(f"{texts[view]:<{width}}" for view, width in widths.items())).rstrip()

    def views(self, most):
        """The first views that anything happened in."""
        return sorted({view for (_, view) in self.cells})[:most]


def drawn(network, most=24):
    """The picture of a network's log, as text."""
    picture = Picture(network)
    return "\n".join([*picture.rows(picture.views(most)), LEGEND])
