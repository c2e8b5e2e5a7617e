"""A member and a run where memory is refused: `tests/sweeps/memory.py` has what is asked."""

from collections import Counter

from lib.networks.checks import Broken, MemberLaws
from lib.networks.protocol import Terms, moment_of
from lib.refused.refused_states import FAILED, OUT_OF_MEMORY, SHOWS, word_of
from lib.scripts import ANY, NotAsAsked, wants

NOT_RESTARTED = "refused 13 OutOfMemory"
NO_CALLS = ("record", "settings")
BEGINNINGS = {"restart": "restarts", "restart-pruned": "restarts", "crash": "resumes", "recover": "recoveries", "replay": "resolvers"}
FAR_AHEAD = 1000


def terms_of(script):
    return Terms(int(script.arguments[3]), int(script.arguments[4]))


def is_far_ahead(lines):
    """Whether a view is named so far ahead that a resolver would open more fetches below it than there is memory for."""
    return any(int(number) > FAR_AHEAD for line in lines for number in line.split(" ")[1:2] if number.isdecimal())


class Sweep:
    """Refusals of one script that is asked of a member; in the end a state and a resolver start from its record, and it crashes."""

    kind = "member"

    def __init__(self, program, script):
        self.program, self.script, self.seen = program, script, Counter()
        asked = list(script.lines[:len(script.replies)])
        self.now = max(map(moment_of, asked), default=0)
        replay = [] if is_far_ahead(asked) else ["replay"]
        self.lines = [*asked, f"recover {self.now}", *replay, f"crash {self.now}", "view"]
        self.right = self.shown = None

    def watched(self, lines):
        """The lines, each followed by what shows the member's views and its record."""
        return [it for line in lines for it in (line, "view", "entries")]

    def without_refusal(self):
        """All replies are as the script has them; a recovery and a resume find no fault in the record."""
        replies, _ = self.program.ask(self.kind, self.script, self.watched(self.lines))
        self.right, self.shown = replies[::3], list(zip(replies[1::3], replies[2::3]))
        for line, reply, wanted in zip(self.lines, self.right, self.script.replies):
            wants(wanted in (ANY, reply), f"with nothing refused, {line!r}", reply)
        self.keeps_laws("with nothing refused", self.lines, self.right)

    def keeps_laws(self, what, lines, replies):
        laws = MemberLaws(terms_of(self.script))
        try:
            for line, reply in zip(lines, replies):
                laws.take(line, reply)
        except Broken as law:
            raise NotAsAsked(f"{what}: {law}: {list(zip(lines, replies))}") from None

    def with_refusal(self, number):
        """The Nth request fails. Whether it was made at all."""
        replies, is_met = self.program.ask(self.kind, self.script, self.watched(self.lines), number)
        told, shown = replies[::3], list(zip(replies[1::3], replies[2::3]))
        if not is_met:
            wants(told == self.right and shown == self.shown, "a run that meets no refusal", told)
            return False
        self.seen["requests refused to a member"] += 1
        place = next((place for place, reply in enumerate(told) if reply in (OUT_OF_MEMORY, NOT_RESTARTED)), None)
        if place is None:
            self.does_without(number, told, shown)
            return True
        wants(told[:place] == self.right[:place] and shown[:place] == self.shown[:place], f"request {number}, before it was refused", told)
        if word_of(self.lines[place]) in BEGINNINGS:
            self.begins_later(number, place, shown)
        elif shown[place][0] == FAILED:
            self.goes_on(number, place, told, shown)
        else:
            self.asks_again(number, place, shown)
        return True

    def does_without(self, number, told, shown):
        """The start of a resolver looks through the record where there is no memory to note its places, and all is as ever."""
        self.seen["requests that a replay did without"] += 1
        wants("replay" in self.lines and told == self.right and shown == self.shown, f"request {number} is not reported", told)

    def before(self, place):
        """Where the member stood before a line, or None before the first one."""
        return self.shown[place - 1] if place else None

    def asks_again(self, number, place, shown):
        """Nothing has changed, and the call that is made again replies as ever."""
        self.seen["calls asked again"] += 1
        wants(self.before(place) in (None, shown[place]), f"request {number}: a member that did not fail has changed", shown[place])
        lines = self.lines[:place + 1] + self.lines[place:]
        replies, _ = self.program.ask(self.kind, self.script, lines, number)
        wants(replies == self.right[:place] + [OUT_OF_MEMORY] + self.right[place:], f"request {number}, asked again", replies)

    def goes_on(self, number, place, told, shown):
        """The member has failed, with its record as it was; each call is refused until a restart succeeds."""
        self.seen["members restarted"] += 1
        wants(self.lines[place] != "best", f"request {number}: a member fails in `best`", told)
        entries = self.before(place)[1] if place else "entries"
        wants(shown[place][1] == entries, f"request {number}: the record has changed", shown[place])
        for line, reply in zip(self.lines[place + 1:], told[place + 1:]):
            if word_of(line) in BEGINNINGS:
                break
            wants(reply == FAILED or word_of(line) in NO_CALLS, f"request {number}, then {line!r} of a failed member", reply)
        taken = [line for line, reply in zip(self.lines[:place + 1], self.right) if not reply.startswith(("refused", "fault"))]
        restart = [f"restart 0 {max(map(moment_of, taken), default=0)}", "view", "entries"]
        wanted, _ = self.program.ask(self.kind, self.script, self.lines[:place] + restart)
        lines = self.lines[:place + 1] + restart + self.lines[place:]
        replies, _ = self.program.ask(self.kind, self.script, lines, number)
        wants(replies[place + 1:place + 4] == wanted[place:], f"request {number}, restarted, not {wanted[place:]}", replies)
        self.keeps_laws(f"request {number}, over both lifetimes", lines, replies)

    def cut_record(self, place):
        """The record once it was cut for a new lifetime; one that begins at a floor puts the floor's finalization after it."""
        entries, earlier = self.shown[place][1].split(" "), self.before(place)[1].split(" ") if place else []
        is_of_floor = entries[-1].startswith("finalization:") and entries[-1] not in earlier
        return " ".join(entries[:-1] if is_of_floor else entries)

    def begins_later(self, number, place, shown):
        """A lifetime or a resolver that did not begin leaves the record, as it was cut, and begins when it is asked for again."""
        word = word_of(self.lines[place])
        self.seen[f"{BEGINNINGS[word]} begun again"] += 1
        wants(shown[place][1] == self.cut_record(place), f"request {number}: {self.lines[place]!r} left another record", shown[place])
        is_cut = word.startswith("restart")
        again = f"restart 0 {self.lines[place].split(' ')[2]}" if is_cut else self.lines[place]
        lines = self.watched(self.lines[:place + 1] + [again] + self.lines[place + 1:])
        replies, _ = self.program.ask(self.kind, self.script, lines, number)
        told = replies[::3]
        wants(told == self.right[:place] + [NOT_RESTARTED] + self.right[place:], f"request {number}, begun later", told)


class RunSweep:
    """Refusals of one script whose calls and restarts are one run."""

    kind = "run"

    def __init__(self, program, script):
        self.program, self.script, self.seen = program, script, Counter()
        pairs = [(line, reply) for line, reply in zip(script.lines, script.replies) if word_of(line) not in SHOWS[2:]]
        self.lines = [line for line, _ in pairs]
        self.replies = [reply for _, reply in pairs]
        self.wanted = [reply for reply in self.replies if reply.startswith("refused ")][:1] or self.replies
        self.right = None

    def without_refusal(self):
        self.right, _ = self.program.ask(self.kind, self.script, self.lines)
        are_right = len(self.right) == len(self.wanted) and all(want in (ANY, got) for got, want in zip(self.right, self.wanted))
        wants(are_right, "with nothing refused", self.right)

    def with_refusal(self, number):
        """The Nth request fails. Whether it was made at all."""
        replies, is_met = self.program.ask(self.kind, self.script, self.lines, number)
        if not is_met:
            wants(replies == self.right, "a run that meets no refusal", replies)
            return False
        self.seen["requests refused to a run"] += 1
        if replies == [NOT_RESTARTED]:
            self.seen["runs without replies"] += 1
        elif len(replies) != 1 or self.right != replies:
            self.look_at(number, replies)
        return True

    def look_at(self, number, replies):
        """The replies are those of a member of which one call found no memory."""
        wants(len(replies) == len(self.lines) and OUT_OF_MEMORY in replies, f"request {number}", replies)
        place = replies.index(OUT_OF_MEMORY)
        are_right = all(want in (ANY, got) for got, want in zip(replies[:place], self.replies))
        wants(are_right, f"request {number}, before it was refused", replies)
        laws = MemberLaws(terms_of(self.script))
        try:
            for line, reply in zip(self.lines, replies):
                laws.take(line, reply)
        except Broken as law:
            raise NotAsAsked(f"request {number}: {law}: {replies}") from None
