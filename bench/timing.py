"""Runs the program on the lines of a workload, and looks whether each line has the reply that the workload wants."""

import filecmp
import itertools
import os
import subprocess
import tempfile
from pathlib import Path
from typing import NamedTuple

SHORT_RUNS = 5
SECONDS_OF_SHORT_RUNS = 2


class Point(NamedTuple):
    """The processor seconds of the program at a size, and the most memory that it held, in MB."""

    size: int
    seconds: float
    peak: float


class WrongReply(Exception):
    """A reply is not as the workload expects, so something else was timed."""


def measure(program, workload, size):
    """The point of a workload at a size: of the fastest of a few runs, where they are short."""
    with tempfile.TemporaryDirectory() as folder:
        script, wanted, replies = (Path(folder) / name for name in ("script", "wanted", "replies"))
        write(workload.lines(size), script, wanted)
        runs = []
        while len(runs) < SHORT_RUNS and sum(seconds for seconds, _ in runs) < SECONDS_OF_SHORT_RUNS:
            runs.append(run(program, workload.arguments, script, replies))
            compare(workload, script, wanted, replies)
        return Point(size, *min(runs))


def write(lines, script, wanted):
    """Parts the lines from their replies."""
    with open(script, "w") as calls, open(wanted, "w") as answers:
        for line in lines:
            call, _, answer = line.partition(" => ")
            calls.write(f"{call}\n")
            answers.write(f"{answer}\n")


def run(program, arguments, script, replies):
    """The seconds and the peak of one run, which writes its replies to a file."""
    with open(script) as lines, open(replies, "w") as answers:
        started = subprocess.Popen([program, *arguments], stdin=lines, stdout=answers)
        _, status, used = os.wait4(started.pid, 0)
    started.returncode = os.waitstatus_to_exitcode(status)
    if started.returncode != 0:
        raise WrongReply(f"{' '.join(arguments)}: the program ended with status {started.returncode}")
    return used.ru_utime + used.ru_stime, used.ru_maxrss / 1024


def compare(workload, script, wanted, replies):
    """Every reply is the expected one."""
    filecmp.clear_cache()
    if filecmp.cmp(wanted, replies, shallow=False):
        return
    with open(script) as calls, open(wanted) as answers, open(replies) as given:
        for call, answer, reply in itertools.zip_longest(calls, answers, given, fillvalue="nothing\n"):
            if answer != reply:
                raise WrongReply(f"{workload.name}: {call.strip()} has the reply {reply[:99].strip()}, wanted {answer[:99].strip()}")
