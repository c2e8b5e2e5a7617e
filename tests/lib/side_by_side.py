"""Runs the tests of a cargo workspace, one program of tests beside another.

`cargo test` runs one program after another, and most of the node's tests wait for clocks and disks. Each program takes addresses and folders
of its own, so they may run at once. The tests on pages, which `cargo test --doc` compiles as it runs them, come beside the programs, and so
may other commands of cargo."""

import json
import os
import re
import subprocess
from concurrent.futures import ThreadPoolExecutor
from pathlib import Path

PASSED = re.compile(r"test result: \w+\. (\d+) passed")
# The programs that take longest, by the names of their files. They begin first.
LONGEST = ("walk_through", "catch_up", "networks", "state_sync", "faults", "library", "partition", "disk")
# How much of the output of a program that failed is of use: the failures come last.
SHOWN = 4000


class NotBuilt(Exception):
    """The tests could not be built; the text says why."""


def cargo(folder, surroundings, *words):
    return subprocess.run(["cargo", *words], cwd=folder, env=surroundings, capture_output=True, text=True)


def programs(folder, surroundings):
    """Builds the tests, and returns each program of them with the folder of its package, in which it runs."""
    done = cargo(folder, surroundings, "test", "--offline", "--no-run", "--message-format=json")
    if done.returncode:
        texts = (json.loads(line).get("message", {}) for line in done.stdout.splitlines() if line.startswith("{"))
        raise NotBuilt(("".join(it.get("rendered", "") for it in texts) or done.stderr)[:SHOWN])
    made = (json.loads(line) for line in done.stdout.splitlines() if line.startswith("{"))
    found = [
        (it["executable"], Path(it["manifest_path"]).parent, it["target"]["name"])
        for it in made
        if it["reason"] == "compiler-artifact" and it["executable"] and it["profile"]["test"]
    ]
    return sorted(found, key=lambda it: LONGEST.index(it[2]) if it[2] in LONGEST else len(LONGEST))


def ran(name, done):
    """How many tests a run counts as passed, and what it printed if it failed, else nothing."""
    passed = sum(int(count) for count in PASSED.findall(done.stdout))
    return passed, f"{name}:\n{(done.stderr + done.stdout)[-SHOWN:]}" if done.returncode else ""


def run(folder, surroundings, at_once=os.cpu_count(), beside=()):
    """Builds the tests and runs their programs, `at_once` of them at a time. Beside them the tests on pages run, and then other commands of
    cargo, given by their words. Returns how many tests passed, and of each run that failed what it printed.

    Raises `NotBuilt` where a test can't be built."""

    def run_program(program):
        path, package, name = program
        return ran(name, subprocess.run([path], cwd=package, env=surroundings, capture_output=True, text=True, errors="replace"))

    def run_cargo():
        for words in (("test", "--offline", "--doc", "--no-fail-fast"), *beside):
            yield ran(f"cargo {' '.join(words)}", cargo(folder, surroundings, *words))

    found = programs(folder, surroundings)
    with ThreadPoolExecutor(at_once) as pool, ThreadPoolExecutor(1) as own:
        others = own.submit(lambda: list(run_cargo()))
        runs = [*pool.map(run_program, found), *others.result()]
    return sum(passed for passed, _ in runs), [text for _, text in runs if text]
