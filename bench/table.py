"""The table of the figures: its rows as they are printed, and as docs/inside/SPEED.md has them."""

import math

LEAST_SECONDS = 1e-3
HEAD = f"{'workload':<28}{'size':>10}{'seconds':>10}{'peak MB':>10}{'growth':>8}"


def growth(before, now):
    """The factor of the time for one doubling of the size, from one point to another."""
    doublings = math.log2(now.size / before.size)
    return (max(now.seconds, LEAST_SECONDS) / max(before.seconds, LEAST_SECONDS)) ** (1 / doublings)


def whole_growth(points):
    """The growth from the first point to the last."""
    return growth(points[0], points[-1]) if len(points) > 1 else 1.0


def row(name, points):
    """The row of the last point."""
    last = points[-1]
    grown = f"{growth(*points[-2:]):.1f}" if len(points) > 1 else "-"
    return f"{name:<28}{last.size:>10}{last.seconds:>10.3f}{last.peak:>10.1f}{grown:>8}"


def page(rows):
    """One row for each workload, in Markdown."""
    sizes = [f"{point.size:,}" for point in max(rows.values(), key=len)]
    yield f"| Workload | {' | '.join(sizes)} | Growth | Peak at the last |"
    yield "|---" * (len(sizes) + 3) + "|"
    for name, points in rows.items():
        seconds = [f"{point.seconds:.2f}" for point in points] + ["-"] * (len(sizes) - len(points))
        yield f"| {name} | {' | '.join(seconds)} | {whole_growth(points):.1f} | {points[-1].peak:.0f} MB |"
