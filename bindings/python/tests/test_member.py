"""Tests of members and resolvers: errors, handles, restarts, journals and fetches."""

import unittest
from dataclasses import replace

from simplex_view_state import (
    Added, Certificate, Config, Ending, FetchEffect, FetchReason, Kind, Member, Proposal, Resolver, Round, Scan, SettledEffect, SimplexError, Status, Subject,
    Withheld, scan,
)

NAMESPACE = bytes([7]) * 32
CONFIG = Config(namespace=NAMESPACE, members=4, signer=0, epoch=1)


def block(view):
    return Proposal(Round(1, view), view - 1, bytes([7]) * 32)


def with_a_vote():
    """A member that leads view 1 and voted for its own proposal."""
    member = Member.start(CONFIG, 0)
    request = member.try_propose()
    assert request is not None and not request.is_handoff and request.context.round.view == 1
    assert member.proposed(1, block(1).payload, 5)
    vote = member.construct(Kind.NOTARIZATION, 1)
    assert vote is not None and (vote.signer, vote.text, vote.is_repeat) == (0, vote.subject.text(NAMESPACE), False)
    return member


class Statuses(unittest.TestCase):
    def assert_status(self, status, function, *arguments):
        with self.assertRaises(SimplexError) as raised:
            function(*arguments)
        self.assertEqual(raised.exception.status, status)


class Members(Statuses):
    def test_members_are_refused_by_their_status(self):
        self.assert_status(Status.NO_SUCH_MEMBER, Member.start, replace(CONFIG, signer=4), 0)
        stored = with_a_vote().entries_since(0)
        damaged = stored.bytes[:-1] + bytes([stored.bytes[-1] ^ 1])
        for status, config, journal in (
            (Status.ENTRIES_LOST, CONFIG, b""), (Status.DAMAGED, CONFIG, damaged), (Status.FOREIGN_SIGNER, replace(CONFIG, signer=1), stored.bytes),
        ):
            self.assert_status(status, Member.resume, config, 0, stored.stored, journal)

    def test_a_resumed_member_does_not_vote_again(self):
        stored = with_a_vote().entries_since(0)
        member = Member.resume(CONFIG, 9, stored.stored, stored.bytes)
        self.assertIsNone(member.construct(Kind.NOTARIZATION, 1))
        self.assertEqual(member.withheld(Kind.NOTARIZATION, 1), Withheld.ALREADY_VOTED)
        self.assertEqual(member.stored(), stored.stored)

    def test_a_refused_restart_leaves_the_record(self):
        member = with_a_vote()
        stored = member.entries_since(0)
        self.assert_status(Status.FOREIGN_SIGNER, member.restart, replace(CONFIG, signer=1), 9)
        self.assertTrue(member.is_failed())
        self.assert_status(Status.FAILED, member.try_verify)
        self.assertEqual(member.entries_since(0), stored)
        member.restart(CONFIG, 9)
        self.assertEqual((member.is_failed(), member.view(1).leader), (False, 0))

    def test_a_closed_member_has_no_handle(self):
        member = with_a_vote()
        member.close()
        member.close()
        for asked in (member.try_propose, member.is_failed, member.stored, member.prune_record):
            self.assert_status(Status.NO_HANDLE, asked)

    def test_a_pruned_record_is_shorter(self):
        member = Member.start(CONFIG, 0)
        for view in range(1, 50):
            self.assertEqual(member.add(Certificate(Subject(Kind.FINALIZATION, block(view)), b"7"), view), Added(True, None))
        whole = member.stored().entries
        self.assertNotEqual(member.prune(), [])
        left = member.prune_record()
        self.assertLess(left.stored.entries, whole)
        self.assertEqual(Member.resume(CONFIG, 60, left.stored, left.bytes).view(0), member.view(0))
        self.assertEqual(member.best_certificate(), member.certificate(Kind.FINALIZATION, 49))
        self.assertEqual(member.best_certificate().subject.proposal, block(49))

    def test_a_journal_is_scanned(self):
        journal = with_a_vote().entries_since(0).bytes
        self.assertEqual(scan(journal), Scan(1, len(journal), Ending.WHOLE))
        self.assertEqual(scan(journal[:-1]), Scan(0, 0, Ending.CUT))
        self.assertEqual(scan(journal[:-1] + bytes([journal[-1] ^ 1])).ending, Ending.BROKEN)


class Resolvers(Statuses):
    def test_a_resolver_fetches_what_is_missing(self):
        def nullification(view):
            return Certificate(Subject(Kind.NULLIFICATION, Proposal(Round(1, view))), b"7")

        resolver = Resolver.start(1, b"")
        effects = resolver.updated(nullification(3))
        fetches = [FetchEffect(view, 3, FetchReason.MISSING_NULLIFICATION) for view in (1, 2)]
        self.assertEqual(effects, [SettledEffect(Kind.NULLIFICATION, 3, 3), *fetches])
        self.assertEqual((resolver.outstanding(), resolver.fetches()), ([1, 2], 2))
        self.assertEqual((resolver.is_open(1), resolver.is_open(3), resolver.is_settled(3, Kind.NULLIFICATION)), (True, False, True))
        self.assertEqual((resolver.produce(3), resolver.produce(1), resolver.is_failed()), (nullification(3), None, False))
        self.assert_status(Status.NOT_ALLOWED, resolver.updated, nullification(0))
        resolver.close()
        self.assert_status(Status.NO_HANDLE, resolver.outstanding)
        self.assert_status(Status.DAMAGED, Resolver.start, 1, bytes(40))


if __name__ == "__main__":
    unittest.main()
