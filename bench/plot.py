"""A small picture of the table: the time against the size of each workload, both by powers, as SVG.

The workloads are drawn beside one another, a panel each, so that no line hides another. The dashed line of a panel is that
of a time that begins as the workload's and grows with the size."""

import math
from xml.sax.saxutils import escape

from table import LEAST_SECONDS, whole_growth

COLUMNS = 6
PANEL = (190, 170)
LEFT, TOP, RIGHT, BOTTOM = 44, 40, 8, 26
HEAD = 46
STEEP = 2.2
PLAIN, WARNING, GREY = "#1f5fa8", "#c0392b", "#dddddd"


class Scale:
    """Where a size and its seconds stand in a panel."""

    def __init__(self, points):
        sizes = [math.log2(point.size) for point in points]
        times = [math.log10(max(point.seconds, LEAST_SECONDS)) for point in points]
        self.first, self.last = min(sizes), max(max(sizes), min(sizes) + 1)
        self.low, self.high = math.floor(min(times)), math.ceil(max(times))

    def across(self, size):
        return LEFT + (math.log2(size) - self.first) / (self.last - self.first) * (PANEL[0] - LEFT - RIGHT)

    def down(self, seconds):
        share = (math.log10(max(seconds, LEAST_SECONDS)) - self.low) / (self.high - self.low)
        return PANEL[1] - BOTTOM - share * (PANEL[1] - TOP - BOTTOM)

    def decades(self):
        return [10**power for power in range(self.low, self.high + 1)]


def drawing(rows):
    """The picture of all workloads, each a name and its points."""
    scale = Scale([point for points in rows.values() for point in points])
    width, height = COLUMNS * PANEL[0], HEAD + -(-len(rows) // COLUMNS) * PANEL[1]
    parts = [
        f'<svg xmlns="http://www.w3.org/2000/svg" viewBox="0 0 {width} {height}" width="{width}" height="{height}" '
        'font-family="DejaVu Sans, Helvetica, sans-serif" font-size="10">',
        f'<rect width="{width}" height="{height}" fill="white"/>',
        text(12, 20, "Processor seconds of the program (upward) against the number of views", "#222222", 14),
        text(12, 37, f"Below each name: the growth for a doubling of the size, on the whole; above {STEEP} it is red. Dashed: growth 2.", "#555555", 11),
    ]
    for index, (name, points) in enumerate(rows.items()):
        column, row = index % COLUMNS, index // COLUMNS
        parts.append(f'<g transform="translate({column * PANEL[0]} {HEAD + row * PANEL[1]})">')
        parts += [*frame(scale, points), *line(scale, name, points), "</g>"]
    return "\n".join([*parts, "</svg>", ""])


def frame(scale, points):
    """The decades of the seconds, and the sizes below."""
    for seconds in scale.decades():
        height = scale.down(seconds)
        yield f'<line x1="{LEFT}" y1="{height:.1f}" x2="{PANEL[0] - RIGHT}" y2="{height:.1f}" stroke="{GREY}"/>'
        yield text(LEFT - 5, height + 3.5, f"{seconds:g} s", "#555555", 9, "end")
    for point in points:
        yield text(scale.across(point.size), PANEL[1] - BOTTOM + 13, short(point.size), "#555555", 9, "middle")


def line(scale, name, points):
    """The name of a workload, its growth, and its points."""
    grown = round(whole_growth(points), 1)
    colour = WARNING if grown > STEEP else PLAIN
    first, last = points[0], points[-1]
    even = [first, last._replace(seconds=first.seconds * last.size / first.size)]
    yield text(LEFT, 14, name, "#222222", 11)
    yield text(LEFT, 28, f"{last.seconds:.2f} s at the end; growth {grown:.1f}", colour, 9)
    yield f'<polyline points="{way(scale, even)}" fill="none" stroke="#888888" stroke-dasharray="3 3"/>'
    yield f'<polyline points="{way(scale, points)}" fill="none" stroke="{colour}" stroke-width="2"/>'
    for point in points:
        place = f'cx="{scale.across(point.size):.1f}" cy="{scale.down(point.seconds):.1f}"'
        yield f'<circle {place} r="2.5" fill="{colour}"><title>{point.size}: {point.seconds:.3f} s</title></circle>'


def way(scale, points):
    return " ".join(f"{scale.across(point.size):.1f},{scale.down(point.seconds):.1f}" for point in points)


def short(size):
    return f"{size // 1000}k" if size % 1000 == 0 else str(size)


def text(across, down, words, colour, size, anchor="start"):
    return f'<text x="{across:.1f}" y="{down:.1f}" fill="{colour}" font-size="{size}" text-anchor="{anchor}">{escape(words)}</text>'
