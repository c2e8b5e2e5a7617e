"""Tests of the package that need no network: errors, handles, and what is stored."""

import unittest
from dataclasses import replace

from simplex_view_state import (
    Certificate, Config, Engine, Entries, Kind, Options, Proposal, Round, SimplexError, Status, Stored, Subject, TimeoutReason, Vote, build_info, inputs, outputs,
)

NAMESPACE = bytes([7]) * 32
CONFIG = Config(namespace=NAMESPACE, members=4, signer=1, epoch=1)


def with_a_vote(engine):
    """Runs an engine until its first vote, and returns what it stored."""
    stored = None
    for now in range(0, 60_000, 500):
        while (output := engine.poll(now)) is not None:
            if isinstance(output, outputs.Replace):
                stored = output.entries
            elif isinstance(output, outputs.Store):
                stored = Entries(stored.bytes + output.entries.bytes, output.entries.stored)
            elif isinstance(output, outputs.Sign):
                return stored
    raise AssertionError("no vote in a minute")


class Engines(unittest.TestCase):
    def assert_status(self, status, function, *arguments):
        with self.assertRaises(SimplexError) as raised:
            function(*arguments)
        self.assertEqual(raised.exception.status, status)
        self.assertNotIn("unknown", str(raised.exception))

    def test_settings_are_refused_by_their_status(self):
        for status, change in (
            (Status.LEADER_TIMEOUT_ZERO, {"leader_timeout": 0}), (Status.OTHER_TABLE, {"leaders": (0, 1, 2)}),
            (Status.NO_SUCH_MEMBER, {"signer": 4}), (Status.NO_SUCH_MEMBER, {"signer": 2**32 - 1}),
        ):
            self.assert_status(status, Engine.start, replace(CONFIG, **change), Options(), 0)
        with self.assertRaises(ValueError):
            Engine.start(replace(CONFIG, floor=b"short"), Options(), 0)

    def test_a_journal_is_refused_by_its_status(self):
        stored = with_a_vote(Engine.start(CONFIG, Options(), 0))
        Engine.resume(CONFIG, Options(), 0, stored.stored, stored.bytes)
        damaged = stored.bytes[:-1] + bytes([stored.bytes[-1] ^ 1])
        for status, config, journal in (
            (Status.ENTRIES_LOST, CONFIG, b""), (Status.DAMAGED, CONFIG, damaged), (Status.FOREIGN_SIGNER, replace(CONFIG, signer=2), stored.bytes),
        ):
            self.assert_status(status, Engine.resume, config, Options(), 0, stored.stored, journal)

    def test_what_is_stored_has_33_bytes(self):
        stored = with_a_vote(Engine.start(CONFIG, Options(), 0)).stored
        self.assertGreater(stored.entries, 0)
        self.assertEqual(Stored.from_bytes(stored.to_bytes()), stored)
        for wrong in (b"", stored.to_bytes()[:-1], stored.to_bytes()[:-1] + b"\2"):
            self.assertIsNone(Stored.from_bytes(wrong))

    def test_a_closed_engine_has_no_handle(self):
        engine = Engine.start(CONFIG, Options(), 0)
        engine.close()
        engine.close()
        self.assert_status(Status.NO_HANDLE, engine.poll, 0)
        self.assert_status(Status.NO_HANDLE, engine.state)

    def test_refused_inputs_change_nothing(self):
        engine = Engine.start(replace(CONFIG, draws=True), Options(), 0)
        vote = Vote(Subject(Kind.NOTARIZATION, Proposal(Round(1, 1))), 2, b"1")
        self.assert_status(Status.NO_CALL, engine.handle, vote, 0)
        self.assertFalse(engine.handle(inputs.Certified(3, True), 0))
        self.assertEqual((engine.state().is_failed, engine.state().ignored), (False, 1))
        with self.assertRaises(TypeError):
            engine.handle("vote", 0)

    def test_signatures_are_read(self):
        good = Certificate(Subject(Kind.NULLIFICATION, Proposal(Round(1, 7))), bytes([0, 0, 0, 2, *[0] * 7, 1, 99]))
        self.assertEqual(good.signatures(), [(2, bytes([99]))])
        for other in (good.bytes[:-1], good.bytes[:5], good.bytes * 2):
            self.assertIsNone(Certificate(good.subject, other).signatures())
        self.assertEqual((len(good.subject.encoded()), good.subject.encoded()[0]), (17, 1))

    def test_a_text_begins_with_its_namespace(self):
        subject = Subject(Kind.NULLIFICATION, Proposal(Round(1, 2)))
        for namespace in (NAMESPACE, bytes([8]) * 32):
            self.assertEqual(subject.text(namespace), namespace + subject.encoded())
            engine = Engine.start(replace(CONFIG, namespace=namespace), Options(), 0)
            engine.handle(inputs.GivenUp(1, TimeoutReason.INACTIVITY), 0)
            orders = [it for it in iter(lambda: engine.poll(0), None) if isinstance(it, outputs.Sign)]
            self.assertEqual([it.text for it in orders], [it.subject.text(namespace) for it in orders])
            self.assertTrue(orders)
        for short in (b"", bytes(31), bytes(33)):
            with self.assertRaises(ValueError):
                subject.text(short)
            with self.assertRaises(ValueError):
                Engine.start(replace(CONFIG, namespace=short), Options(), 0)

    def test_the_library_says_what_it_is(self):
        self.assertRegex(build_info(), r"^(un)?proved; commit ")


if __name__ == "__main__":
    unittest.main()
