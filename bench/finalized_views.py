"""Many views that are finalized and not dropped, a record that is restarted once, and a term that is far longer than
any run: the state of a member that runs for long, or whose leader proposes far ahead."""

from healthy_views import payload

LONG_TERM = 1_000_000


def none_dropped(count):
    """Finalizations alone, one after another."""
    return (f"finalization {view} {view - 1} 7 {view} => added true -" for view in range(1, count + 1))


def behind_all(count):
    """Notarizations first, then the finalizations, one after another."""
    for view in range(1, count + 1):
        yield f"notarization {view} {view - 1} 7 => added true -"
    yield from none_dropped(count)


def restarted_once(count):
    """Views that are certified, voted for and finalized, and then a new life from the record."""
    for view in range(1, count + 1):
        yield f"notarization {view} {view - 1} 7 => added true -"
        yield f"verdict {view} true {view} => certified {view}"
        yield f"finalize {view} => finalize {view} {view - 1} 7"
        yield f"finalization {view} {view - 1} 7 {view} => added true -"
    yield f"restart 0 {count} => ok"


def one_term(count):
    """A term of which nothing is finalized: each view is verified, voted for and certified."""
    for view in range(1, count + 1):
        yield f"proposal {view} {view - 1} 7 => true"
        yield f"verify => ready {view} 0 {view - 1} {payload(view - 1)} 7"
        yield f"verified {view} => true"
        yield f"notarize {view} => notarize {view} {view - 1} 7"
        yield f"notarization {view} {view - 1} 7 => added true -"
        yield f"candidates => candidates {view} fetch"
        yield f"verdict {view} true {view} => certified {view}"


def far_proposals(count):
    """A leader that proposes far ahead of what may be verified."""
    for view in range(2, count + 2):
        yield f"proposal {view} {view - 1} 7 => true"
        yield "verify => wait"
