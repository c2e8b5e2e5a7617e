#!/usr/bin/env python3
"""Refuses memory in the middle of calls, and looks at what still works, what stays, and what is replied then.

`tests/programs/enduring` is a second program, which continues where `viewstate` would end. It is asked each script of the repository's
tests, and the Nth request for memory within the core fails, for each N until a run meets no refusal. Asked:

  a voter's state      the failing call fails it, and each later one is refused; after a refusal in `best` it works
  a member             nothing has changed, and the call asked again replies as ever; or it has failed, its record stays, and a
                       restart succeeds, with the laws of votes over both lifetimes
  restart, resume, recover, and the start of a resolver   the record stays, and what is asked again replies as ever; what the start
                       of a resolver only notes to find it sooner it does without
  run                  no replies, or those of a member that failed
  a resolver           as a voter's state, and `produce` as `best`; the set of open fetches is that of a beginning of the effects

A run that meets no refusal replies as the script has it.

    tests/sweeps/memory.py [--enduring PATH] [--every N]
    tests/sweeps/memory.py --schedules          what the stored schedules of networks ask each member besides

It ends with status 1 where something is not as asked, or where less was refused than is asked for. It takes a C compiler, `cc`."""

import argparse
import os
import sys
import tempfile
import time
from collections import Counter
from concurrent.futures import ProcessPoolExecutor
from functools import partial
from pathlib import Path

sys.path.insert(0, str(Path(__file__).resolve().parents[1]))
from lib import program, rows, scripts
from lib.floors import lacking
from lib.networks import schedules
from lib.refused import refused_fetches, refused_members, refused_states
from lib.refused.preload import compiled, limited

FAULTS_SHOWN = 10
LEAST = {
    "requests refused to a state": 1060, "requests refused to a member": 2900, "requests refused to a run": 1070,
    "requests refused to a resolver's state": 1200, "requests refused to a kept resolver": 1200, "members restarted": 400,
    "calls asked again": 130, "restarts begun again": 330, "resumes begun again": 700, "recoveries begun again": 600,
    "resolvers begun again": 470, "best asked again": 130, "sets of a beginning of the effects": 1200,
    "requests that a replay did without": 80,
}


class Enduring:
    """Runs of the second program, in which the Nth request for memory within the core may fail."""

    def __init__(self, path, preload):
        self.path, self.preload = path, preload
        self.mark = tempfile.TemporaryFile()

    def ask(self, kind, script, lines, refused=0):
        """The replies to some lines, and whether a request was refused."""
        fd = self.mark.fileno()
        self.mark.truncate(0)
        settings = {"LD_PRELOAD": self.preload, "REFUSE_WITHIN": "1", "REFUSE_MEMORY": str(refused), "REFUSED_FD": str(fd)}
        given = "".join(f"{line}\n" for line in lines).encode()
        ended = scripts.run(self.path, (kind, *script.arguments), given, settings, (fd,))
        if ended.status != 0:
            raise scripts.NotAsAsked(f"it ended so: {ended}")
        return ended.output.decode().split("\n")[:-1], os.fstat(fd).st_size > 0


def sweeps_of(script):
    """What a script is asked of: a state, a member and a run; a member alone where settings change; or a resolver."""
    if not script.is_voter:
        return refused_fetches.SWEEPS
    if any(line.startswith("settings ") for line in script.lines):
        return (refused_members.Sweep,)
    return (refused_states.Sweep, refused_members.Sweep, refused_members.RunSweep)


def swept_script(path, preload, every, script):
    """All refusals of one script: what was seen, and what is not as asked."""
    program_, seen, faults = Enduring(path, preload), Counter(), []
    for kind in sweeps_of(script):
        sweep = kind(program_, script)
        try:
            sweep.without_refusal()
            number = 1
            while sweep.with_refusal(number):
                number += every
        except scripts.NotAsAsked as fault:
            faults.append(f"{script.shows}: {sweep.kind}: {fault}")
        seen += sweep.seen
    return seen, faults


def schedule_scripts():
    """What the stored schedules of networks ask of each member."""
    for schedule in schedules.all_schedules():
        for member in (1, 2, 3):
            steps = [(line, reply or scripts.ANY) for index, line, reply in schedule.steps if index == member]
            lines, replies = zip(*steps)
            arguments = ("voter", "4", str(member), str(schedule.terms.length), str(schedule.terms.optimistic))
            yield scripts.Script(f"{schedule.name}, member {member}", arguments, lines, replies, True)


def sweep_all(pool, path, preload, every, others=()):
    """All refusals of all scripts: what was seen, and what is not as asked."""
    seen, faults = Counter(), []
    for saw, wrong in pool.map(partial(swept_script, path, preload, every), [*scripts.all_scripts(), *rows.all_rows(), *others]):
        seen += saw
        faults += wrong
    return seen, faults


def options():
    parser = argparse.ArgumentParser(description=__doc__, formatter_class=argparse.RawDescriptionHelpFormatter)
    program.add_enduring_option(parser)
    parser.add_argument("--every", type=int, default=1, help="refuses every so many-th request alone, from the first on")
    parser.add_argument("--schedules", action="store_true", help="asks what the stored schedules of networks ask besides")
    parser.add_argument("--jobs", type=int, default=2, help="how many scripts go side by side")
    return parser.parse_args()


def main():
    given = options()
    with tempfile.TemporaryDirectory() as folder, ProcessPoolExecutor(given.jobs, initializer=limited) as pool:
        path, preload = program.find_enduring(given.enduring, folder), compiled(folder)
        start = time.monotonic()
        seen, faults = sweep_all(pool, path, preload, given.every, schedule_scripts() if given.schedules else ())
    faults = lacking(seen, LEAST, 1 / given.every) + faults
    figures = ", ".join(f"{count} {what}" for what, count in seen.items())
    print(f"refused memory: {figures}; {len(faults)} not as asked; {time.monotonic() - start:.1f} s")
    print("".join(f"  {fault}\n" for fault in faults[:FAULTS_SHOWN]), end="")
    return 1 if faults else 0


if __name__ == "__main__":
    sys.exit(main())
