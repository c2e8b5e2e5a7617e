"""What a resolver is handed: notarizations, and nullifications that end its fetches, in terms of five views."""


def notarized(views):
    return (f"notarization {view} => settled notarization {view} {view}" for view in views)


def repaired(terms):
    """A fetch for each term below the last, and then its nullification."""
    terms = list(terms)
    last = 5 * len(terms) + 1
    fetches = [f"fetch {view} {last} missing_nullification" for view in range(1, last, 5)]
    yield "replayed => -"
    yield "; ".join([f"nullification {last} => {settled(last)}", *fetches])
    yield from (f"nullification {view} => {settled(view)}" for view in (5 * term - 4 for term in terms))


def settled(view):
    return f"settled nullification {view} {view + 4}"
