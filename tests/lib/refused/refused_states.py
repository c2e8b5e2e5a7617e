"""A voter's state where memory is refused: `tests/sweeps/memory.py` has what is asked."""

from collections import Counter

from lib.scripts import ANY, NotAsAsked, wants

OUT_OF_MEMORY = "fault 1 OutOfMemory"
FAILED = "fault 2 Failed"
SHOWS = ("restart", "restart-pruned", "record", "view")
UNTOLD = ("verdict", "token", "rejected", "release", "trigger")
ASKS_ITS_CALLER = (
    "notarization", "nullification", "finalization", "proposal", "verified", "rejected", "proposed", "supersede", "abandon", "token",
    "verdict", "timeout",
)
LAST_LINES = (
    "notarization 3 2 9", "nullification 3 50", "finalization 3 2 9 50", "proposal 3 2 9", "verify", "propose", "release 1", "candidates",
    "notarize 1", "nullify 1", "finalize 1", "broadcast notarization 1", "broadcast nullification 1", "broadcast finalization 1", "best",
    "trigger 1 Inactivity 50", "timeout 50", "prune",
)


WIDE_WINDOW = 1000


def word_of(line):
    return line.split(" ")[0]


def last_lines(script):
    """The calls behind a script's own; none where a certificate would give the views of a wide window their leaders."""
    return () if int(script.arguments[4]) > WIDE_WINDOW else LAST_LINES


class Sweep:
    """Refusals of one script that is asked of a state alone, each `best` twice and with some more calls in the end."""

    kind = "state"

    def __init__(self, program, script):
        self.program, self.script, self.seen = program, script, Counter()
        asked = [line for line in script.lines[:len(script.replies)] if word_of(line) not in SHOWS]
        self.own = len(asked) if len(asked) == len(script.replies) else 0
        self.lines = [it for line in [*asked, *last_lines(script)] for it in ([line] * 2 if line == "best" else [line])]
        self.right = None

    def without_refusal(self):
        """No call finds no memory, and a script that asks for calls alone is answered as it has it."""
        self.right, _ = self.program.ask(self.kind, self.script, self.lines)
        wants(OUT_OF_MEMORY not in self.right and FAILED not in self.right, "with nothing refused", self.right)
        wanted = dict(zip(self.script.lines, self.script.replies)) if self.own else {}
        for line, reply in zip(self.lines[:self.own], self.right):
            may_differ = word_of(line) in UNTOLD or self.script.lines.count(line) > 1 or wanted[line] == ANY
            wants(may_differ or reply == wanted[line], f"with nothing refused, {line!r}", reply)

    def with_refusal(self, number):
        """The Nth request fails. Whether it was made at all."""
        replies, is_met = self.program.ask(self.kind, self.script, self.lines, number)
        if not is_met:
            wants(replies == self.right, "a run that meets no refusal", replies)
            return False
        self.seen["requests refused to a state"] += 1
        if OUT_OF_MEMORY not in replies:
            raise NotAsAsked(f"request {number} is not reported: {replies}")
        place = replies.index(OUT_OF_MEMORY)
        wants(replies[:place] == self.right[:place], f"request {number}, before it was refused", replies)
        if self.lines[place] == "best":
            self.seen["best asked again"] += 1
            wants(replies[place + 1:] == self.right[place + 1:], f"request {number}, in `best`", replies)
        else:
            self.look_behind(number, place, replies)
        return True

    def look_behind(self, number, place, replies):
        """Each later call is refused, unless what it asks of its caller is not so."""
        for line, reply in zip(self.lines[place + 1:], replies[place + 1:]):
            may_be_refused_else = word_of(line) in ASKS_ITS_CALLER and reply == "not-allowed"
            wants(reply == FAILED or may_be_refused_else, f"request {number}, then {line!r} of a failed state", reply)
