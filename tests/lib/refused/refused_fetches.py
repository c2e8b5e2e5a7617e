"""A resolver where memory is refused: `tests/sweeps/memory.py` has what is asked."""

from collections import Counter

from lib.refused.refused_states import FAILED, OUT_OF_MEMORY, word_of
from lib.scripts import ANY, NotAsAsked, wants

STOPPED = "stopped"
TELLS = ("notarization", "nullification", "finalization", "certified", "replayed", "produce")
LAST_LINES = ("notarization 7", "nullification 7", "finalization 7", "certified 7 true", "certified 7 false", "replayed", "produce 7")


def open_after(fetches, effects):
    """The open fetches once some effects are applied."""
    for effect in effects:
        words = effect.split(" ")
        if words[0] == "fetch":
            fetches = fetches | {int(words[1])}
        elif words[:2] == ["settled", "nullification"]:
            fetches = {view for view in fetches if not int(words[2]) <= view <= int(words[3])}
        elif words[0] in ("finalized", "raised"):
            fetches = {view for view in fetches if view > int(words[1])}
    return fetches


def beginnings(fetches, effects):
    """The open fetches once each beginning of some effects is applied."""
    return [open_after(fetches, effects[:count]) for count in range(len(effects) + 1)]


def effects_in(reply):
    return [] if reply == "-" else reply.split("; ")


def views_in(reply):
    return set(map(int, reply.split(" ")[1:]))


class Sweep:
    """Refusals of one script that is asked of a resolver's state, each `produce` twice and with some more calls in the end."""

    kind, name = "resolver", "a resolver's state"

    def __init__(self, program, script):
        self.program, self.script, self.seen = program, script, Counter()
        asked = script.lines[:len(script.replies)]
        self.own = len(asked)
        self.lines = [it for line in [*asked, *LAST_LINES] for it in ([line] * 2 if word_of(line) == "produce" else [line])]
        self.right = self.open = None

    def ask(self, number=0):
        """The replies, the open fetches behind each line, and whether a request was refused."""
        lines = [it for line in self.lines for it in (line, "outstanding")]
        replies, is_met = self.program.ask(self.kind, self.script, lines, number)
        return replies[::2], list(map(views_in, replies[1::2])), is_met

    def without_refusal(self):
        """All replies are as the script has them, and the open fetches are those of the effects."""
        self.right, self.open, _ = self.ask()
        wants(OUT_OF_MEMORY not in self.right and STOPPED not in self.right, "with nothing refused", self.right)
        wanted = iter(zip(self.script.lines, self.script.replies))
        for place, (line, reply) in enumerate(zip(self.lines, self.right)):
            if place and line == self.lines[place - 1] and word_of(line) == "produce":
                wants(reply == self.right[place - 1], f"{line!r} asked twice", reply)
                continue
            _, reply_wanted = next(wanted, (line, ANY))
            wants(reply_wanted in (ANY, reply), f"with nothing refused, {line!r}", reply)
            if word_of(line) in TELLS[:5] and not reply.startswith(("fault", "not-allowed")):
                wants(self.open[place] == open_after(self.before(place), effects_in(reply)), f"the open fetches after {line!r}", self.open[place])

    def before(self, place):
        return self.open[place - 1] if place else set()

    def with_refusal(self, number):
        """The Nth request fails. Whether it was made at all."""
        replies, fetches, is_met = self.ask(number)
        if not is_met:
            wants(replies == self.right and fetches == self.open, "a run that meets no refusal", replies)
            return False
        self.seen[f"requests refused to {self.name}"] += 1
        place = next((place for place, reply in enumerate(replies) if reply in (OUT_OF_MEMORY, STOPPED)), None)
        if place is None:
            raise NotAsAsked(f"request {number} is not reported: {replies}")
        wants(replies[:place] == self.right[:place] and fetches[:place] == self.open[:place], f"request {number}, before", replies)
        if word_of(self.lines[place]) == "produce":
            self.seen["produce asked again"] += 1
            wants(replies[place + 1:] == self.right[place + 1:] and fetches == self.open, f"request {number}, in `produce`", replies)
        else:
            self.look_behind(number, place, replies, fetches)
        return True

    def look_behind(self, number, place, replies, fetches):
        """A beginning of the effects is applied, and nothing more, since each later call is refused."""
        if self.may_have_applied(replies[place]):
            self.seen["sets of a beginning of the effects"] += 1
            may_be = beginnings(self.before(place), effects_in(self.right[place]))
        else:
            may_be = [self.before(place)]
        wants(fetches[place] in may_be, f"request {number}: the open fetches", fetches[place])
        for line, reply, still in zip(self.lines[place + 1:], replies[place + 1:], fetches[place + 1:]):
            is_refused = reply == FAILED or word_of(line) not in TELLS or reply == "not-allowed" and line.split(" ")[1] == "0"
            wants(is_refused and still == fetches[place], f"request {number}, then {line!r} of a failed resolver", reply)

    def may_have_applied(self, reply):
        """Returns whether effects may be applied after such a reply."""
        return reply == STOPPED


class KeptSweep(Sweep):
    """The same, of the resolver that a host keeps: it applies its effects itself."""

    kind, name = "kept", "a kept resolver"

    def may_have_applied(self, reply):
        return True


SWEEPS = (Sweep, KeptSweep)
