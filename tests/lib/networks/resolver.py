"""A member's resolver: a process of a built program, which receives the new entries of the member's record."""

import subprocess

from lib.networks.protocol import FINALIZATION, NOTARIZATION, NULLIFICATION

KINDS = (NOTARIZATION, NULLIFICATION, FINALIZATION)
PLACE_OF_VIEW = slice(18, 34)


class Resolver:
    """A resolver behind pipes."""

    def __init__(self, served, terms):
        kind = ["resolver"] if served.is_enduring else []
        command = [served.path, *kind, "resolver", str(terms.length)]
        log = subprocess.DEVNULL if served.is_enduring else None
        self.process = subprocess.Popen(command, stdin=subprocess.PIPE, stdout=subprocess.PIPE, stderr=log)

    def ask(self, line):
        """The reply to a line."""
        self.process.stdin.write(f"{line}\n".encode())
        self.process.stdin.flush()
        return self.process.stdout.readline().decode().rstrip("\n")

    def served(self, view):
        """The kind and the view of the certificate that is served for a view, or None."""
        reply = self.ask(f"produce {view}")
        return None if reply == "none" else (KINDS[int(reply[:2], 16)], int(reply[PLACE_OF_VIEW], 16))

    def end(self):
        self.process.stdin.close()
        self.process.stdout.close()
        self.process.wait()
