"""Whole views of a healthy member: a host's calls from the proposal to the pruning, with the replies.

Member 0 of four leads each fourth term. Each view builds on the one before, and each payload is 7."""

KEPT = 10


def leader(view, length):
    return (view - 1) // length % 4


def payload(view):
    """The payload of a view; genesis has 0."""
    return 7 if view else 0


def by_certificates(count):
    """Views that a member follows by their certificates alone."""
    for view in range(1, count + 1):
        yield f"notarization {view} {view - 1} 7 => added true -"
        yield f"verdict {view} true {view} => certified {view}"
        yield from finalized(view)


def one_by_one(count):
    """Views of proposals, in terms of one view."""
    for view in range(1, count + 1):
        yield from proposed(view, 1)
        yield from notarized(view)
        yield from finalized(view)


def ahead(count):
    """Views of proposals, in terms of five: all five are proposed and voted for before the first is notarized."""
    for first in range(1, count + 1, 5):
        views = range(first, min(first + 5, count + 1))
        for view in views:
            yield from proposed(view, 5)
        for view in views:
            yield from notarized(view)
            yield from finalized(view)


def proposed(view, length):
    """The proposal of a view, this member's or another leader's, and the vote for it."""
    parent, index = view - 1, leader(view, length)
    if index == 0:
        yield f"propose => propose {view} 0 {parent} {payload(parent)}"
        yield f"proposed {view} 7 {view} => true"
    else:
        yield f"proposal {view} {parent} 7 => true"
        yield f"verify => ready {view} {index} {parent} {payload(parent)} 7"
        yield f"verified {view} => true"
    yield f"notarize {view} => notarize {view} {parent} 7"


def notarized(view):
    """The notarization of a view, and its certification."""
    yield f"notarization {view} {view - 1} 7 => added true -"
    yield f"candidates => candidates {view} fetch"
    yield f"token {view} {view} => ok"
    yield f"verdict {view} true {view} => certified {view}"


def finalized(view):
    """The vote to finalize a view, its finalization, and what is pruned behind it."""
    yield f"finalize {view} => finalize {view} {view - 1} 7"
    yield f"finalization {view} {view - 1} 7 {view} => added true -"
    dropped = view - KEPT - 1
    yield f"prune => pruned {dropped}" if dropped > 0 else "prune => pruned"
