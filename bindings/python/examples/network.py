#!/usr/bin/env python3
"""One engine alone, and then four in one process that finalize twenty views. Half way member 1's process ends, and another resumes from its
disk.

    python3 examples/network.py

The network is a queue, a disk is an object, and the clock is a number that the host advances. The signatures are toys: anyone can make
them. A block names its parent by digest, and travels with its proposal."""

from __future__ import annotations

from collections import deque
from dataclasses import dataclass, field
from typing import Dict, List, Optional

from simplex_view_state import (
    Certificate, Config, Context, Engine, FetchKind, Kind, Options, Output, Proposal, Stored, Vote, inputs, outputs,
)

EPOCH = 1
# What each text to sign begins with: a digest of a real network's name, epoch and members.
NAMESPACE = bytes([1]) * 32
GENESIS = bytes(32)
# How many outputs an engine carries out before messages and time get a turn: a member alone is never out of outputs.
MOST_OUTPUTS = 1000
MESSAGES_A_MILLISECOND = 64
# After how many steps a network without its views has no progress: a right one takes 1,320.
MOST_STEPS = 5_000


def hash_of(data: bytes) -> bytes:
    """Returns the FNV-1a hash."""
    made = 0xCBF29CE484222325
    for byte in data:
        made = (made ^ byte) * 0x100000001B3 % 2**64
    return made.to_bytes(8, "big")


def signature(signer: int, text: bytes) -> bytes:
    return hash_of(signer.to_bytes(4, "big") + text)


@dataclass(frozen=True)
class Block:
    """What a proposal's payload is the digest of."""

    view: int
    parent: bytes

    def digest(self) -> bytes:
        return b"".join(hash_of(bytes([place]) + self.view.to_bytes(8, "big") + self.parent) for place in range(4))


@dataclass(frozen=True)
class AskBlock:
    digest: bytes


def block_on(context: Context) -> Block:
    return Block(context.round.view, context.parent_payload)


@dataclass
class Disk:
    """What a member has stored."""

    journal: bytes = b""
    stored: Optional[bytes] = None


@dataclass
class Node:
    """A member: its engine while its process runs, its disk, its blocks, and the chain that it delivered."""

    me: int
    members: int
    out: deque
    engine: Optional[Engine] = None
    disk: Disk = field(default_factory=Disk)
    chain: List[Block] = field(default_factory=list)
    blocks: Dict[bytes, Block] = field(default_factory=dict)
    finalized: Optional[Proposal] = None

    def begin(self, now: int) -> None:
        """The last finalization is read from the record: a lifetime that ended may have stored it without reporting it."""
        config = Config(NAMESPACE, self.members, self.me, EPOCH, GENESIS)
        if self.disk.stored is None:
            self.engine = Engine.start(config, Options(), now)
        else:
            self.engine = Engine.resume(config, Options(), now, Stored.from_bytes(self.disk.stored), self.disk.journal)
        last = self.engine.certificate(Kind.FINALIZATION, self.engine.view(0).last_finalized)
        self.finalized = last and last.subject.proposal
        self.deliver()

    def receive(self, sender: int, message, now: int) -> None:
        """Signatures and certificates are verified before the engine receives them."""
        if self.engine is None:
            return
        if isinstance(message, Block):
            self.blocks[message.digest()] = message
            self.deliver()
        elif isinstance(message, AskBlock) and message.digest in self.blocks:
            self.out.append((self.me, sender, self.blocks[message.digest]))
        elif isinstance(message, Vote):
            self.receive_vote(sender, message, now)
        elif isinstance(message, Certificate) and self.is_good(message):
            self.engine.handle(message, now)
        elif isinstance(message, outputs.Fetch):
            found = self.served(message)
            if found:
                self.out.append((self.me, sender, found))

    def receive_vote(self, sender: int, vote: Vote, now: int) -> None:
        if vote.signature != signature(vote.signer, vote.subject.text(NAMESPACE)) or vote.subject.proposal.round.epoch != EPOCH:
            return
        if vote.subject.kind == Kind.NOTARIZATION:
            self.engine.handle(inputs.ProposalFrom(sender, vote.subject.proposal), now)
        self.engine.handle(vote, now)

    def is_good(self, certificate: Certificate) -> bool:
        signatures, text = certificate.signatures() or [], certificate.subject.text(NAMESPACE)
        is_signed = all(signer < self.members and it == signature(signer, text) for signer, it in signatures)
        return is_signed and len(signatures) >= self.members - (self.members - 1) // 3

    def served(self, fetch: outputs.Fetch) -> Optional[Certificate]:
        """A member that asks receives the notarization of just that view, or a certificate that leads past it."""
        found = self.engine.certificate(Kind.NOTARIZATION, fetch.view) if fetch.kind == FetchKind.NOTARIZATION else None
        return found or self.engine.serve(fetch.view)

    def settle(self, now: int) -> None:
        for _ in range(MOST_OUTPUTS):
            output = self.engine and self.engine.poll(now)
            if output is None:
                return
            self.carry_out(output, now)

    def carry_out(self, output: Output, now: int) -> None:
        if isinstance(output, outputs.Store):
            self.disk = Disk(self.disk.journal + output.entries.bytes, output.entries.stored.to_bytes())
        elif isinstance(output, outputs.Replace):
            self.disk = Disk(output.entries.bytes, output.entries.stored.to_bytes())
        elif isinstance(output, outputs.Sign):
            self.sign(output)
        elif isinstance(output, outputs.Broadcast):
            self.send_to_others(output.certificate)
        elif isinstance(output, (outputs.Verify, outputs.Build, outputs.Certify)):
            self.engine.handle(self.replied(output), now)
        elif isinstance(output, outputs.Fetch) and output.of is not None:
            self.out.append((self.me, output.of, output))
        elif isinstance(output, outputs.Finalized):
            self.finalized = output.proposal
            self.deliver()
        elif isinstance(output, (outputs.Equivocated, outputs.ProposedTwice)):
            raise AssertionError("an honest member contradicted itself")

    def replied(self, output: Output) -> inputs.Input:
        """What the application replies: it finds each block good that is built as this host builds it."""
        if isinstance(output, outputs.Verify):
            return inputs.Verified(output.proposal.round.view, output.proposal.payload == block_on(output.context).digest())
        if isinstance(output, outputs.Certify):
            return inputs.Certified(output.proposal.round.view, True)
        block = block_on(output.context)
        self.blocks[block.digest()] = block
        return inputs.Built(output.context, block.digest())

    def sign(self, order: outputs.Sign) -> None:
        """The vote is stored by now. All others receive it, and so does the engine."""
        if order.text not in self.disk.journal:
            raise AssertionError("a vote is ordered before it is stored")
        proposal = order.subject.proposal
        is_leader = self.engine.view(proposal.round.view).leader == self.me
        if order.subject.kind == Kind.NOTARIZATION and is_leader and proposal.payload in self.blocks:
            self.send_to_others(self.blocks[proposal.payload])
        vote = Vote(order.subject, order.signer, signature(order.signer, order.text))
        self.send_to_others(vote)
        self.out.append((self.me, self.me, vote))

    def deliver(self) -> None:
        """Delivers the finalized block after its ancestors. Where a block is missing, all others are asked for it."""
        last_view, last = (self.chain[-1].view, self.chain[-1].digest()) if self.chain else (0, GENESIS)
        if self.finalized is None or self.finalized.round.view <= last_view:
            return
        fresh, digest = [], self.finalized.payload
        while digest != last:
            if digest not in self.blocks:
                return self.send_to_others(AskBlock(digest))
            fresh.append(self.blocks[digest])
            digest = fresh[-1].parent
        self.chain += reversed(fresh)

    def send_to_others(self, message) -> None:
        self.out.extend((self.me, to, message) for to in range(self.members) if to != self.me)


class Network:
    """All members, the messages that are on their way, and the clock."""

    def __init__(self, members: int) -> None:
        self.now, self.arrived, self.sent = 0, 0, deque()
        self.nodes = [Node(member, members, self.sent) for member in range(members)]
        for node in self.nodes:
            node.begin(self.now)

    def step(self) -> None:
        """Delivers a message; where none is on its way, advances the clock to the next moment at which an engine polls."""
        for node in self.nodes:
            node.settle(self.now)
        self.arrived += 1
        self.now += self.arrived % MESSAGES_A_MILLISECOND == 0
        if self.sent:
            sender, to, message = self.sent.popleft()
            self.nodes[to].receive(sender, message, self.now)
        else:
            self.now = max(self.now, min(node.engine.state().wake for node in self.nodes if node.engine))


def run(members: int, views: int) -> None:
    """Finalizes so many views; member 1 is away from the half on until three quarters are final."""
    network, printed, steps = Network(members), 0, 0
    while printed < views:
        steps += 1
        if steps > MOST_STEPS:
            raise RuntimeError("no progress: too few views are final")
        network.step()
        before, chain = printed, network.nodes[0].chain
        for block in chain[printed:views]:
            print(f"view {block.view:2}  leader {(block.view - 1) % members}  block {block.digest().hex()}")
        printed = min(views, len(chain))
        if members > 1 and before < views // 2 <= printed:
            network.nodes[1].engine.close()
            network.nodes[1].engine = None
            print("member 1 ends")
        if members > 1 and network.nodes[1].engine is None and printed >= views * 3 // 4:
            network.nodes[1].begin(network.now)
            print("member 1 resumes from its disk")
    disk = network.nodes[0].disk
    print(f"{views} views are final; member 0 has stored {Stored.from_bytes(disk.stored).entries} entries, {len(disk.journal)} bytes")


if __name__ == "__main__":
    run(1, 5)
    run(4, 20)
