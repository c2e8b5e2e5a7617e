#!/usr/bin/env python3
"""Runs a command that proves crates, such as `rt ci`, and prints what its checks took of the processors, by crate and step.

The steps are the proof, the proof and build of the tests, the seed (the same proof once more, which a crate's must-fail edits begin with),
and the edits, with how many were tried; in processor seconds of all processes of a step. They are read off /proc once a second, so what
the last second of a process took is not counted. Beside them a small proof of the kit's own, the *reference*, runs every four minutes: it
says how fast the machine was in that minute, and each step is counted in the seconds that it would have taken where the reference takes
as long as the stored table says (`tests/timing/gate_times.txt`).

    tests/timing/gate_times.py [--told FILE] COMMAND ..      prints the table; what the command prints goes to FILE too
    tests/timing/gate_times.py --write COMMAND ..            writes it to `tests/timing/gate_times.txt` besides: a decision, to be reasoned in a commit

It ends with the command's status, or with 1 where a crate took over a fifth and over half a minute more than the stored table has. Where one
reference took more than a fifth longer than another, a crate may exceed the table by as much, since it may have run in the slower minutes; a
run is not judged in which one took twice as long as another, or where no table is stored.
`taskset -c 0,1` before the command shows what two processors make of it. Some kits' `rt ci` keeps what earlier runs on this machine
proved, which then takes nothing here: `rt ci --anew` proves all of it."""

import argparse
import collections
import os
import re
import shutil
import statistics
import subprocess
import sys
import tempfile
import threading
import time
from pathlib import Path

sys.path.insert(0, str(Path(__file__).resolve().parents[1]))
from lib.program import ROOT

STEPS = ("proof", "tests", "seed", "edits")
TABLE = ROOT / "tests/timing/gate_times.txt"
HEAD = "# Processor seconds of a crate's proof, tests and must-fail edits in `rt ci`, and of the reference; `tests/timing/gate_times.py --write` writes this"
EVERY = 240
GROWTH = 1.2
LEAST_JUDGED = 30
UNSTEADY = 2
TICKS = os.sysconf("SC_CLK_TCK")


def words_of(pid):
    with open(f"/proc/{pid}/cmdline", "rb") as it:
        return it.read().decode(errors="replace").split("\0")


def spent(pid):
    """The processor seconds of a process and of those of its children that have ended."""
    with open(f"/proc/{pid}/stat", encoding="utf-8", errors="replace") as it:
        return sum(int(word) for word in it.read().rpartition(")")[2].split()[11:15]) / TICKS


def parent_of(pid):
    with open(f"/proc/{pid}/stat", encoding="utf-8", errors="replace") as it:
        return int(it.read().rpartition(")")[2].split()[1])


def is_below(pid, top):
    """Whether a process was begun by another one, or by one that it began."""
    while pid > 1:
        pid = parent_of(pid)
        if pid == top:
            return True
    return False


def is_check(words):
    """Whether this is the compiler at work on a crate."""
    return os.path.basename(words[0]) == "rattle" and words[1:2] in (["check"], ["build"]) and "--crate-name" in words


def step_of(words, folder, is_first):
    """Which crate is checked, and for which step. The first check over a folder of kept work makes it."""
    name = words[words.index("--crate-name") + 1]
    over = words[words.index("--incremental") + 1] if "--incremental" in words else ""
    if over.endswith("/seed") or (re.search(r"/rt-edits-[^/]*$", over) and is_first(over)):
        return name, "seed"
    if over or re.search(r"/rt-edit-", folder):
        return name, "edits"
    return name, "tests" if "--test" in words else "proof"


def look(found, first, top):
    """Notes what each check below a process has taken so far, and which check was the first over a folder. What its forks take is
    counted with it, once they have ended."""
    for entry in os.listdir("/proc"):
        if not entry.isdigit():
            continue
        try:
            words = words_of(entry)
            if not is_check(words) or is_check(words_of(parent_of(entry))) or not is_below(int(entry), top):
                continue
            step = step_of(words, os.readlink(f"/proc/{entry}/cwd"), lambda over: first.setdefault(over, entry) == entry)
            key, now = (entry, *step), time.monotonic()
            taken, begun, _ = found.get(key, (0, now, now))
            found[key] = max(taken, spent(entry)), begun, now
        except (OSError, ValueError, IndexError):
            # (it has ended meanwhile)
            continue


class Reference(threading.Thread):
    """Proves one of the kit's small examples now and then, and notes what it took: pairs of a moment and processor seconds."""

    def __init__(self, folder):
        super().__init__(daemon=True)
        self.folder, self.taken, self.ended = Path(folder), [], threading.Event()
        kit = Path(shutil.which("rt")).resolve().parent.parent
        shutil.copytree(kit / "rattle/examples/start_lib", self.folder / "crates/start_lib", ignore=shutil.ignore_patterns("BUILD.bazel", "out"))
        (self.folder / "crates.txt").write_text("start_lib:\n")
        subprocess.run(["git", "init", "--quiet", self.folder], check=True)

    def prove(self):
        """Proves the example from nothing, and returns the processor seconds of that."""
        shutil.rmtree(self.folder / "crates/start_lib/out", ignore_errors=True)
        words = ["/usr/bin/env", "bash", "-c", "rt check --jobs 1 > /dev/null 2>&1; times"]
        told = subprocess.run(words, cwd=self.folder / "crates/start_lib", capture_output=True, text=True, check=True).stdout
        return sum(60 * int(minutes) + float(seconds) for minutes, seconds in re.findall(r"(\d+)m([\d.]+)s", told))

    def run(self):
        while not self.ended.is_set():
            self.taken.append((time.monotonic(), self.prove()))
            self.ended.wait(EVERY)

    def near(self, begun, ended):
        """What the reference took round the time in which a step ran, in the mean, or the nearest one."""
        within = [taken for moment, taken in self.taken if begun - EVERY <= moment <= ended + EVERY]
        return statistics.mean(within) if within else min(self.taken, key=lambda it: abs(it[0] - begun))[1]


class Times:
    """What each crate's steps took, as they took it and in the seconds of a machine of a given reference."""

    def __init__(self, found, reference, usual):
        self.seconds, self.scaled, self.tried = collections.Counter(), collections.Counter(), collections.Counter()
        for (_, name, step), (taken, begun, ended) in found.items():
            self.seconds[name, step] += taken
            self.scaled[name] += taken * usual / reference.near(begun, ended)
            self.tried[name] += step == "edits"
        self.names = sorted({name for name, _ in self.seconds}, key=lambda name: -self.scaled[name])

    def lines(self):
        """The table, a line a crate."""
        yield f"{'processor seconds':24}{''.join(f'{step:>8}' for step in STEPS)}  tried  scaled"
        for name in self.names:
            yield f"{name:24}{''.join(f'{self.seconds[name, step]:8.0f}' for step in STEPS)}{self.tried[name]:7}{self.scaled[name]:8.0f}"
        total = [sum(self.seconds[name, step] for name in self.names) for step in STEPS]
        yield f"{'all':24}{''.join(f'{it:8.0f}' for it in total)}{sum(self.tried.values()):7}{sum(self.scaled.values()):8.0f}"


def stored():
    """The stored table: the reference's seconds, and those of each crate."""
    rows = [row.split() for row in TABLE.read_text().splitlines() if row and not row.startswith("#")] if TABLE.is_file() else []
    return {name: float(seconds) for name, seconds in rows}


def grown(times, table, spread):
    """The crates that took over a fifth and half a minute more than the table has, and more than a run allows whose references differ by so
    much."""
    for name in times.names:
        seconds, usual = times.scaled[name], table.get(name, 0)
        if seconds > max(GROWTH, spread) * usual and seconds > usual + LEAST_JUDGED:
            yield f"{name} took {seconds:.0f} s, where tests/timing/gate_times.txt has {usual:.0f}: make it cheaper, or change the table and say why"


def write(times, reference):
    """Writes the stored table."""
    rows = [f"{name} {times.scaled[name]:.0f}" for name in times.names if times.scaled[name] > LEAST_JUDGED]
    TABLE.write_text("\n".join((HEAD, f"reference {reference:.2f}", *rows)) + "\n")


def run(command, told, found, first):
    """Runs the command, and notes what its checks take; its status. What it prints is passed on, and written to a file."""
    with open(told or os.devnull, "w", encoding="utf-8") as copy, subprocess.Popen(
        command, stdout=subprocess.PIPE, stderr=subprocess.STDOUT, text=True, errors="replace"
    ) as running:
        def show():
            for line in running.stdout:
                print(line, end="", flush=True)
                copy.write(line)
                copy.flush()
        shown = threading.Thread(target=show)
        shown.start()
        while running.poll() is None:
            look(found, first, running.pid)
            time.sleep(1)
        shown.join()
    return running.returncode


def main():
    parser = argparse.ArgumentParser(description=__doc__, formatter_class=argparse.RawDescriptionHelpFormatter)
    parser.add_argument("--told", help="a file for what the command prints")
    parser.add_argument("--write", action="store_true", help="store the table")
    parser.add_argument("command", nargs=argparse.REMAINDER)
    given = parser.parse_args()
    found, first, table = {}, {}, stored()
    with tempfile.TemporaryDirectory() as room:
        reference = Reference(room)
        reference.start()
        status = run(given.command, given.told, found, first)
        reference.ended.set()
        reference.join()
    taken = [it for _, it in reference.taken]
    times = Times(found, reference, table.get("reference", statistics.median(taken)))
    print(*times.lines(), sep="\n")
    stored_one = table.get("reference", 0)
    print(f"reference: {min(taken):.1f} to {max(taken):.1f} s, median {statistics.median(taken):.2f}, {len(taken)} times; the stored table has {stored_one:.2f}")
    if given.write:
        write(times, statistics.median(taken))
    spread = max(taken) / min(taken)
    is_steady = spread < UNSTEADY
    faults = list(grown(times, table, spread)) if is_steady and table and not given.write else []
    if not is_steady:
        print("the machine was not steady, so no crate's time is judged")
    print("".join(f"{fault}\n" for fault in faults), end="")
    return status or bool(faults)


if __name__ == "__main__":
    sys.exit(main())
