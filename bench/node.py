#!/usr/bin/env python3
"""Measures the node in `node/`: views a second and how long a block takes to be final, and where the time of a node's thread goes; or
how its memory goes over some minutes.

    bench/node.py [--seconds N] [--nodes N ..]   networks of four and of ten nodes, or of so many, with the disk waited for and without
    bench/node.py --counts [--seconds N]   what a view costs each of 4, 10, 16 and 25 nodes, in signatures, bytes and certificates: counts, which say
                                           the same on a machine that does much else
    bench/node.py --soak MINUTES [--svg FILE]    a network of four, its memory and its record each ten seconds, drawn

Both build with optimizations what stands in `node/`, over `bindings/libsimplex.a`; which of the two that is, proved or not, is said by
whoever built it."""

import argparse
import os
import re
import subprocess
from pathlib import Path

ROOT = Path(__file__).resolve().parent.parent
NODE = ROOT / "node"
TARGET = Path(os.environ.get("CARGO_TARGET_DIR", NODE / "target"))
LINE = re.compile(r"^ *(\d+) s  view (\d+), (\d+) a second, .*?, at most (\d+) kB and (\d+) entries a node$")
LIFE = re.compile(r"^node \d+, last lifetime: ([\d.]+) % in the core, ([\d.]+) % signing, ([\d.]+) % waiting for the disk \((\d+) times\), "
                  r"([\d.]+) % for the application, ([\d.]+) % for events")
ROW = re.compile(r"^node \d+: (\d+) blocks, the last of view (\d+), (\d+) a second, ([\d.]+) ms \(median\), ([\d.]+) ms")
COSTS = re.compile(r"^node \d+, a view of that lifetime: ([\d.]+) signatures verified, (\d+) bytes sent, ([\d.]+) certificates sent$")


def run(*arguments):
    """The lines that a network prints as they come."""
    with subprocess.Popen([TARGET / "release/simplex-local", *arguments], stdout=subprocess.PIPE, text=True) as running:
        for line in running.stdout:
            yield line.rstrip("\n")
    if running.returncode:
        raise SystemExit(f"simplex-local {' '.join(arguments)} ended with status {running.returncode}")


def table(seconds, sizes):
    print("| Nodes | The disk | Views a second | From build to final, median | 99 % | Waits for the disk a view | In the core | Signing "
          "| Waiting for the disk | For the application | For events |")
    print("|---|---|---|---|---|---|---|---|---|---|---|")
    for nodes in sizes:
        for words in ((), ("--no-sync",)):
            lines = list(run("--nodes", str(nodes), "--seconds", str(seconds), *words))
            rows = [found.groups() for line in lines if (found := ROW.match(line))]
            lifetimes = [found.groups() for line in lines if (found := LIFE.match(line))]
            mean = lambda kept, place: sum(float(it[place]) for it in kept) / len(kept)
            views, half, most = (mean(rows, place) for place in (2, 3, 4))
            waits = mean(lifetimes, 3) / mean(rows, 1)
            shares = " | ".join(f"{mean(lifetimes, place):.1f} %" for place in (0, 1, 2, 4, 5))
            disk = "not waited for" if words else "waited for"
            print(f"| {nodes} | {disk} | {views:.0f} | {half:.1f} ms | {most:.1f} ms | {waits:.2f} | {shares} |", flush=True)


def counts(seconds):
    print("| Nodes | Views | Signatures verified a view | Certificates sent a view | Bytes sent a view |")
    print("|---|---|---|---|---|")
    for nodes in (4, 10, 16, 25):
        lines = list(run("--nodes", str(nodes), "--seconds", str(seconds)))
        rows = [found.groups() for line in lines if (found := ROW.match(line))]
        costs = [found.groups() for line in lines if (found := COSTS.match(line))]
        signatures, sent, certificates = (sum(float(it[place]) for it in costs) / len(costs) for place in range(3))
        print(f"| {nodes} | {max(int(it[1]) for it in rows)} | {signatures:.1f} | {certificates:.1f} | {sent:,.0f} |", flush=True)


def drawn(samples):
    """Memory and entries against the time, as SVG."""
    width, height, left, top = 720, 220, 60, 20
    seconds, memory, entries = max(it[0] for it in samples), max(it[2] for it in samples), max(it[3] for it in samples)
    across = lambda second: left + (width - left - 70) * second / seconds
    up = lambda value, most: top + (height - top - 40) * (1 - value / (1.15 * most))
    line = lambda place, most, colour: (f'<polyline fill="none" stroke="{colour}" stroke-width="1.5" points="'
                                        + " ".join(f"{across(it[0]):.1f},{up(it[place], most):.1f}" for it in samples) + '"/>')
    text = lambda x, y, words, colour="#222": f'<text x="{x}" y="{y}" fill="{colour}">{words}</text>'
    return "\n".join((
        f'<svg xmlns="http://www.w3.org/2000/svg" width="{width}" height="{height}" font-family="sans-serif" font-size="11">',
        f'<rect width="{width}" height="{height}" fill="white"/>', line(2, memory, "#4a7fc1"), line(3, entries, "#c8443c"),
        text(4, up(memory, memory) + 4, f"{memory / 1024:.0f} MiB", "#4a7fc1"), text(width - 66, up(entries, entries) + 4, f"{entries} entries", "#c8443c"),
        f'<line x1="{left}" y1="{height - 40}" x2="{width - 70}" y2="{height - 40}" stroke="#888"/>',
        text(left, height - 24, "0"), text(width - 100, height - 24, f"{seconds} s"),
        text(left, height - 6, "the most memory of a node (blue) and the most entries of a record (red)"), "</svg>\n"))


def soak(minutes, svg):
    samples = []
    for line in run("--nodes", "4", "--seconds", str(60 * minutes)):
        if found := LINE.match(line):
            samples.append(tuple(int(it) for it in found.groups()))
            second, view, _, memory, entries = samples[-1]
            samples[-1] = (second, view, memory, entries)
            if second % 60 == 0 or len(samples) == 1:
                print(f"{second:5} s  view {view:7}  {memory:7} kB  {entries:6} entries", flush=True)
    if svg:
        svg.write_text(drawn(samples[::10]))


def main():
    parser = argparse.ArgumentParser(description=__doc__, formatter_class=argparse.RawDescriptionHelpFormatter)
    parser.add_argument("--seconds", type=int, default=20, help="how long each network runs")
    parser.add_argument("--nodes", type=int, nargs="+", default=(4, 10), help="how many nodes each network has")
    parser.add_argument("--counts", action="store_true", help="what a view costs")
    parser.add_argument("--soak", type=int, metavar="MINUTES", help="one network's memory over so many minutes")
    parser.add_argument("--svg", type=Path, help="draws the soak into this file")
    given = parser.parse_args()
    subprocess.run(["cargo", "build", "--offline", "--quiet", "--release"], cwd=NODE, check=True)
    if given.soak:
        soak(given.soak, given.svg)
    elif given.counts:
        counts(given.seconds)
    else:
        table(given.seconds, given.nodes)


if __name__ == "__main__":
    main()
