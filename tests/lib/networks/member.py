"""One member: a process of a built program, asked line by line."""

import signal
import subprocess
from dataclasses import dataclass


MOST_MEMBERS = 1000


class ProgramEnded(Exception):
    """The program ended, or wrote no whole reply line."""


@dataclass(frozen=True)
class Served:
    """By which program members are served: `viewstate`, or `enduring`, which can crash and be refused memory besides."""

    path: str
    is_enduring: bool = False
    crashes: bool = False
    refuses_one_in: int = 0
    preload: str = ""
    seed: int = 0
    keyless: frozenset = frozenset()

    def command(self, members, index, terms):
        kind = ["member"] if self.is_enduring else []
        me = "-" if index in self.keyless else str(index)
        return [self.path, *kind, "voter", str(members), me, str(terms.length), str(terms.optimistic)]

    def environment(self, index):
        if not self.refuses_one_in:
            return {}
        seed = self.seed * MOST_MEMBERS + index
        return {"LD_PRELOAD": self.preload, "REFUSE_WITHIN": "1", "REFUSE_ONE_IN": str(self.refuses_one_in), "REFUSE_SEED": str(seed)}


class Member:
    """A voter of a network, behind pipes."""

    def __init__(self, served, members, index, terms):
        self.index = index
        self.is_refused = bool(served.refuses_one_in)
        self.process = subprocess.Popen(
            served.command(members, index, terms), stdin=subprocess.PIPE, stdout=subprocess.PIPE,
            stderr=subprocess.DEVNULL if served.is_enduring else None, env=served.environment(index),
        )

    def ask(self, line):
        """The reply to one line."""
        return self.ask_all([line])[0]

    def ask_all(self, lines):
        """The replies to some lines, which are written at once."""
        try:
            self.process.stdin.write("".join(f"{line}\n" for line in lines).encode())
            self.process.stdin.flush()
        except BrokenPipeError:
            raise ProgramEnded(f"member {self.index} no longer reads, at {lines[0]!r}") from None
        return [self._reply_to(line) for line in lines]

    def _reply_to(self, line):
        reply = self.process.stdout.readline().decode()
        if not reply.endswith("\n"):
            raise ProgramEnded(f"member {self.index} answered {reply!r} to {line!r}, with status {self.process.wait()}")
        return reply[:-1]

    def refuse_no_more(self):
        """From now on the member is refused no memory."""
        if self.is_refused:
            self.process.send_signal(signal.SIGUSR1)

    def end(self):
        """Ends the input; the status of the process."""
        self.process.stdin.close()
        self.process.stdout.close()
        return self.process.wait()
