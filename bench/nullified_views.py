"""Views that are nullified one after another, in terms of one view, and what is proposed over the growing gap.

Member 0 of four leads views 1, 5, 9 and so on. Each proposal builds on genesis, so all nullifications lie between."""

from healthy_views import leader


def alone(count):
    for view in range(1, count + 1):
        yield nullification(view)


def with_proposals(count):
    """At each hundredth view its leader's proposal comes before the nullification."""
    for view in range(1, count + 1):
        if view % 100 == 0:
            yield from proposal(view)
        yield nullification(view)


def out_of_order(count):
    """Each hundredth nullification comes twenty views late, and a proposal halfway to the next."""
    for view in range(1, count + 1):
        if view % 100 == 50:
            yield from proposal(view)
        if view % 100 != 0:
            yield nullification(view)
        if view % 100 == 20 and view > 100:
            yield nullification(view - 20)


def with_own_proposals(count):
    """In each hundredth view this member leads, and builds before the nullification comes."""
    for view in range(1, count + 1):
        if view % 100 == 1:
            yield f"propose => propose {view} 0 0 0"
            yield f"proposed {view} 7 {view} => true"
            yield f"notarize {view} => notarize {view} 0 7"
        yield nullification(view)


def with_late_proposals(count):
    """Once all is nullified, a proposal for each hundredth view, which is too late to be verified."""
    yield from alone(count)
    for view in range(100, count + 1, 100):
        yield f"proposal {view} 0 7 => true"
        yield "verify => wait"


def proposal(view):
    """A proposal on genesis, which is verified and voted for."""
    yield f"proposal {view} 0 7 => true"
    yield f"verify => ready {view} {leader(view, 1)} 0 0 7"
    yield f"verified {view} => true"
    yield f"notarize {view} => notarize {view} 0 7"


def nullification(view):
    return f"nullification {view} {view} => added true"
