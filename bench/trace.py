#!/usr/bin/env python3
"""How fast the simulator is, how large traces are, and how long a browser takes to open a page of many views.

    bench/trace.py [--archive PATH] [--views 100000] [--target FOLDER]

It builds `simplex-sim` and `simplex-view` for release. Over each of two networks it takes the views of a processor second, and the bytes of
a trace a view; then a brief trace of many views of four members, the time of `simplex-view`, the size of the page, and in
a headless Chromium the time until the page is ready and the longest of a hundred steps by key. The commit is printed first."""

import argparse
import os
import resource
import subprocess
import sys
import tempfile
import time
from pathlib import Path

sys.path.insert(0, str(Path(__file__).resolve().parent.parent / "tests"))
from lib.pages import chromium  # noqa: E402
from lib.program import ROOT  # noqa: E402

NETWORKS = (("4 members", "--members 4 --views 1000"), ("7 members, 2 of them equivocate, terms of 5",
            "--members 7 --faulty 2 --term 5 --optimistic 2 --loss 5 --views 1000"))
STEPS = 100


def run(words, **more):
    """Runs a command: its wall seconds, and its processor seconds."""
    begun, before = time.monotonic(), resource.getrusage(resource.RUSAGE_CHILDREN)
    subprocess.run([str(word) for word in words], check=True, stdout=subprocess.DEVNULL, **more)
    after = resource.getrusage(resource.RUSAGE_CHILDREN)
    return time.monotonic() - begun, after.ru_utime + after.ru_stime - before.ru_utime - before.ru_stime


def simulator(programs, room):
    """Prints what the simulator takes of each network, and how large the traces are."""
    for name, words in NETWORKS:
        trace, brief = room / "full.trace", room / "brief.trace"
        _, busy = run([programs / "simplex-sim", *words.split()])
        run([programs / "simplex-sim", *words.split(), "--trace", trace])
        run([programs / "simplex-sim", *words.split(), "--trace", brief, "--brief"])
        sizes = [path.stat().st_size / 1000 for path in (trace, brief)]
        print(f"{name}: 1000 views in {busy:.2f} s of a processor; a trace of {sizes[0]:,.0f} bytes a view, brief {sizes[1]:,.0f}")


def page(programs, room, views):
    """Prints how long a page of many views takes to be made and to be opened."""
    trace, html = room / "long.trace", room / "long.html"
    _, busy = run([programs / "simplex-sim", "--members", 4, "--latency", "5..20", "--views", views, "--trace", trace, "--brief"])
    print(f"{views:,} views of 4 members: simulated in {busy:.0f} s of a processor, a brief trace of {trace.stat().st_size / 1e6:.0f} MB", flush=True)
    _, busy = run([programs / "simplex-view", trace, "-o", html])
    print(f"  simplex-view: {busy:.1f} s of a processor, a page of {html.stat().st_size / 1e6:.1f} MB", flush=True)
    binary = chromium.found()
    if not binary:
        print("  no Chromium: the page was not opened")
        return
    with chromium.Page(binary) as shown:
        took = shown.open(html)
        begun = shown.ask("Number(document.body.dataset.ready)")
        shown.press("End")
        steps = []
        for _ in range(STEPS):
            start = time.monotonic()
            shown.press("ArrowLeft")
            steps.append(1000 * (time.monotonic() - start))
        steps.sort()
        print(f"  Chromium: ready after {took:.1f} s, of which {begun / 1000:.1f} s are the page's own; "
              f"a step by key, drawn, takes {steps[STEPS // 2]:.0f} ms in the median, {steps[-1]:.0f} ms at most")
        print(f"  faults of the page: {shown.faults}")


def main():
    parser = argparse.ArgumentParser(description=__doc__, formatter_class=argparse.RawDescriptionHelpFormatter)
    parser.add_argument("--archive", type=Path, help="the library, if it is built already")
    parser.add_argument("--views", type=int, default=100_000)
    parser.add_argument("--target", type=Path, help="cargo's folder, if it is to stay")
    given = parser.parse_args()
    commit = subprocess.run(["git", "rev-parse", "--short", "HEAD"], cwd=ROOT, capture_output=True, text=True).stdout.strip()
    print(f"commit {commit}, {os.cpu_count()} processors, load {os.getloadavg()[0]:.1f}", flush=True)
    with tempfile.TemporaryDirectory() as room:
        room = Path(room)
        archive = given.archive and given.archive.resolve() or room / "libsimplex.a"
        if not given.archive:
            subprocess.run([ROOT / "bindings/build", "--unproved", "--out", archive], check=True)
        target = given.target or room / "target"
        surroundings = {**os.environ, "SIMPLEX_ARCHIVE": str(archive), "CARGO_TARGET_DIR": str(target), "CARGO_NET_OFFLINE": "true"}
        run(["cargo", "build", "--release", "--offline", "--quiet", "-p", "simplex-sim", "-p", "simplex-view"], cwd=ROOT / "node", env=surroundings)
        simulator(target / "release", room)
        page(target / "release", room, given.views)


if __name__ == "__main__":
    main()
