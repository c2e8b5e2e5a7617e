"""Many views that are tracked and none of them finalized, in terms of one view, and what is asked beside them."""

from healthy_views import KEPT


def notarized(views):
    """Certificates alone, in the order of the views."""
    return (f"notarization {view} {view - 1} 7 => added true -" for view in views)


def certified(count):
    """Views that are notarized and certified."""
    return certified_with(lambda view: ())(count)


def certified_with(asked):
    """Views that are notarized and certified, and what is asked behind each."""

    def lines(count):
        for view in range(1, count + 1):
            yield f"notarization {view} {view - 1} 7 => added true -"
            yield f"verdict {view} true {view} => certified {view}"
            yield from asked(view)

    return lines


def best(view):
    yield f"best => notarization {view}"


def timeout(view):
    yield f"timeout {view} => timeout {view + 1000} LeaderTimeout"


def prune(view):
    yield "prune => pruned"


def waiting(count):
    """Notarized views that wait for their certification, each offered once."""
    for view in range(1, count + 1):
        yield f"notarization {view} {view - 1} 7 => added true -"
        yield f"candidates => candidates {view} fetch"


def pruned_at_once(count):
    """Certified views, and then the finalization of the last, behind which all but a few are dropped."""
    yield from certified(count)
    yield f"finalization {count} {count - 1} 7 {count} => added true -"
    yield " ".join(["prune => pruned", *map(str, range(1, count - KEPT))])


def restarted(count):
    """Certificates, with a new life begun from the record four times."""
    for view in range(1, count + 1):
        yield f"notarization {view} {view - 1} 7 => added true -"
        if view % (count // 4) == 0:
            yield f"restart 0 {view} => ok"
