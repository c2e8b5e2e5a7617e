"""The orders in which the certificates of some views come."""

import random


def rising(count):
    return range(1, count + 1)


def falling(count):
    return range(count, 0, -1)


def middle_outward(count):
    """From the middle to both ends by turns."""
    low = count // 2
    for step in range(1, count + 1):
        yield low + (step // 2 + 1 if step % 2 else 1 - step // 2)


def shuffled(count):
    views = list(range(1, count + 1))
    random.Random(1).shuffle(views)
    return views


def two_runs(count):
    """Two rising runs, a view of each by turns."""
    half = count // 2
    return (view for low in range(1, half + 1) for view in (low, half + low))


ALL = [
    ("rising", rising),
    ("falling", falling),
    ("middle outward", middle_outward),
    ("random", shuffled),
    ("two rising runs", two_runs),
]
