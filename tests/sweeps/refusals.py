#!/usr/bin/env python3
"""Refuses memory, input and output to the built program, and passes it lines that nobody should write.

For each script of the repository's tests: the Nth request for memory, the Nth read and the Nth write fail, for each N until a
run meets no refusal, and reads and writes are short. Asked: whole reply lines only, a beginning of the right transcript, then
the status and the text on standard error that `docs/PROGRAM.md` has; never a signal, never a half line but where a write failed.

    tests/sweeps/refusals.py                     everything, on `crates/viewstate/out/viewstate`
    tests/sweeps/refusals.py --every 3           every third N alone
    tests/sweeps/refusals.py --program PATH

Besides: lines at the limits of length and of numbers, arguments, closed and full files. It ends with status 1 where something
is not as asked, or where less was tried than is asked for. A refusal that the program can do without may change nothing at all; such requests are counted apart. Each run
has 400 MiB, so that a resolver that fetches views far ahead is refused memory too. It takes a C compiler, `cc`, and a program
without checks of its own memory."""

import argparse
import os
import re
import subprocess
import sys
import tempfile
import time
from collections import Counter
from concurrent.futures import ProcessPoolExecutor
from functools import partial
from pathlib import Path

sys.path.insert(0, str(Path(__file__).resolve().parents[1]))
from lib import program, scripts
from lib.floors import lacking
from lib.refused import inputs
from lib.refused.preload import compiled, limited
from lib.scripts import ANY, run

USAGE = "usage: viewstate voter N ME T OPTIMISTIC | viewstate resolver T\n"
MEMORY, READ, WRITE = (4, "out of memory\n"), (5, "read failed\n"), (5, "write failed\n")
INTERRUPTED, NO_SPACE, NOTHING_TAKEN = 4, 28, 0
REPLY = re.compile(r"[a-zA-Z][A-Za-z-]*( [A-Za-z0-9_:;-]+)*|-|[0-9a-f]+")
FAULTS_SHOWN = 10
REFUSED, SHORTENED = b"x", b"s"
LEAST_REFUSED = {
    "transcripts": 115, "requests for memory": 3200, "reads": 1300, "writes": 4200, "writes that take nothing": 580,
    "short reads and writes": 320, "interrupted reads": 110, "interrupted writes": 90,
}
LEAST_ASKED = {"inputs": 3400, "misused commands": 20, "closed, full and other files": 10}


def options():
    parser = argparse.ArgumentParser(description=__doc__, formatter_class=argparse.RawDescriptionHelpFormatter)
    program.add_option(parser)
    parser.add_argument("--every", type=int, default=1, help="refuses every so many-th call alone, from the first on")
    parser.add_argument("--jobs", type=int, default=2, help="how many scripts go side by side")
    return parser.parse_args()


class Refusing:
    """Runs of one script in which calls are refused, each beside the run in which none is."""

    def __init__(self, path, preload, every, script):
        self.path, self.preload, self.every, self.script = path, preload, every, script
        self.mark = tempfile.TemporaryFile()
        self.faults = []
        self.seen = Counter()
        self.right = run(path, script.arguments, script.input)

    def fault(self, what, ended):
        self.faults.append(f"{self.script.shows}: {what}: {ended}")

    def run(self, settings):
        """A run with some calls refused or cut short, and the marks of these."""
        fd = self.mark.fileno()
        self.mark.truncate(0)
        environment = {"LD_PRELOAD": self.preload, "REFUSED_FD": str(fd), **{key: str(value) for key, value in settings.items()}}
        ended = run(self.path, self.script.arguments, self.script.input, environment, (fd,))
        return ended, os.pread(fd, os.fstat(fd).st_size, 0)

    def sweep(self, name, refused, wanted, may_be_cut=False, **settings):
        """Refuses the Nth call, for each N until none is refused."""
        number = 1
        while True:
            ended, marks = self.run({refused: number, **settings})
            is_met = REFUSED in marks
            self.seen[name] += is_met
            if not is_met:
                break
            if ended == self.right and refused == "REFUSE_MEMORY":
                self.seen["requests that were done without"] += 1
            else:
                self.look(f"{name} {number}", ended, wanted, may_be_cut)
            number += self.every
        if ended != self.right:
            self.fault(f"{name}: with nothing refused", ended)

    def look(self, name, ended, wanted, may_be_cut):
        is_beginning = self.right.output.startswith(ended.output)
        is_whole = may_be_cut or not ended.output or ended.output.endswith(b"\n")
        if (ended.status, ended.error.decode()) != wanted or not is_beginning or not is_whole:
            self.fault(name, ended)

    def unchanged(self, name, mark, **settings):
        """What must not change how the program ends. It is counted where it came to pass."""
        ended, marks = self.run(settings)
        self.seen[name] += mark in marks
        if ended != self.right:
            self.fault(name, ended)

    def transcript(self):
        """The script's own replies, with nothing refused."""
        replies = self.right.output.decode().split("\n")[:-1]
        status = 0 if len(self.script.replies) == len(self.script.lines) else 3
        are_right = len(replies) == len(self.script.replies) and all(want in (ANY, got) for got, want in zip(replies, self.script.replies))
        error = f"line {len(self.script.replies) + 1}: not a call\n" if status == 3 else ""
        self.seen["transcripts"] += 1
        if not are_right or (self.right.status, self.right.error.decode()) != (status, error):
            self.fault("its transcript", self.right)


def refused_script(path, preload, every, script):
    """All refusals of one script: what was seen, and what is not as asked."""
    it = Refusing(path, preload, every, script)
    it.transcript()
    it.sweep("requests for memory", "REFUSE_MEMORY", MEMORY)
    it.sweep("reads", "REFUSE_READ", READ, SHORT_READ=7)
    it.sweep("writes", "REFUSE_WRITE", WRITE, may_be_cut=True, REFUSE_BY=NO_SPACE, SHORT_WRITE=3)
    it.sweep("writes that take nothing", "REFUSE_WRITE", WRITE, may_be_cut=True, REFUSE_BY=NOTHING_TAKEN)
    for size in (1, 2, 13):
        it.unchanged("short reads and writes", SHORTENED, SHORT_READ=size, SHORT_WRITE=size)
    it.unchanged("interrupted reads", REFUSED, REFUSE_READ=1, REFUSE_BY=INTERRUPTED)
    it.unchanged("interrupted writes", REFUSED, REFUSE_WRITE=1, REFUSE_BY=INTERRUPTED)
    return it.seen, it.faults


def case_fault(path, case):
    """What is not as asked of a hostile input, or None."""
    ended = run(path, case.arguments, case.given)
    rows = ended.output.decode().split("\n")
    error = f"line {case.replies + 1}: not a call\n" if case.status == 3 else ""
    has_ended_well = (ended.status, ended.error.decode()) == (case.status, error) and len(rows) == case.replies + 1
    has_no_memory = case.arguments == inputs.RESOLVER and (ended.status, ended.error.decode()) == MEMORY
    if (has_ended_well or has_no_memory) and rows[-1] == "" and all(REPLY.fullmatch(row) for row in rows[:-1]):
        return None
    return f"{' '.join(case.arguments)}: {case.given[:120]!r}: {ended}"


def misused_commands():
    """Those of the repository's tests, bytes that are no text, a thousand words and a long one."""
    return [*scripts.misused_commands(), ["voter", b"\xff", "0", "1", "0"], ["voter"] * 1000, ["resolver", "1" * 100_000]]


def usage_faults(path):
    """Arguments that ask for no mode."""
    for arguments in misused_commands():
        ended = run(path, arguments, b"view\n")
        if (ended.status, ended.output, ended.error.decode()) != (2, b"", USAGE):
            yield f"{arguments[:6]!r}: {ended}"


def files():
    """Standard files that are closed, full or no files: how the shell says so, and how the program has to end."""
    yield "voter 4 0 1 0 <&-", READ, ""
    yield "voter 4 0 1 0 < /", READ, ""
    yield "voter 4 0 1 0 < /dev/null", (0, ""), ""
    yield "voter 4 0 1 0 < LINES > /dev/full", WRITE, ""
    yield "voter 4 0 1 0 < LINES >&-", WRITE, ""
    yield "voter 4 0 1 0 < LINES 2>&-", (0, ""), "view 1 0 0\n"
    yield "voter 4 0 1 0 < /dev/null >&-", (0, ""), ""
    yield "voter 4 0 1 0 < / 2> /dev/full", (5, ""), ""
    yield "voter 4 2>&-", (2, ""), ""


def file_faults(path, folder):
    """Standard files as the shell can make them."""
    lines = Path(folder) / "lines"
    lines.write_text("view\n")
    for text, wanted, output in files():
        command = ["sh", "-c", f'"$0" {text.replace("LINES", str(lines))}', path]
        ran = subprocess.run(command, capture_output=True, text=True)
        if (ran.returncode, ran.stderr) != wanted or ran.stdout != output:
            yield f"{text}: {ran}"


def unread_faults(path):
    """A pipe that nobody reads any more, and nobody writes to."""
    given, asked = os.pipe()
    replied, taken = os.pipe()
    with subprocess.Popen([path, *inputs.VOTER], stdin=given, stdout=taken, stderr=subprocess.PIPE) as running:
        for it in (given, taken, replied):
            os.close(it)
        os.write(asked, b"view\n")
        os.close(asked)
        ended = running.wait(), running.stderr.read().decode()
    if ended != WRITE:
        yield f"a pipe that nobody reads: {ended}"


def told(name, seen, faults, start):
    """Prints a part's figures and its first faults; how many there are."""
    figures = ", ".join(f"{count} {what}" for what, count in seen.items())
    print(f"{name}: {figures}; {len(faults)} not as asked; {time.monotonic() - start:.1f} s", flush=True)
    for fault in faults[:FAULTS_SHOWN]:
        print(f"  {fault}")
    return len(faults)


def refuse_all(pool, path, preload, every):
    """Refusals of every script."""
    start, seen, faults = time.monotonic(), Counter(), []
    for saw, wrong in pool.map(partial(refused_script, path, preload, every), scripts.all_scripts()):
        seen += saw
        faults += wrong
    return told("refused calls", seen, lacking(seen, LEAST_REFUSED, 1 / every) + faults, start)


def ask_all(pool, path, folder):
    """Hostile inputs, arguments and files."""
    start, cases = time.monotonic(), inputs.all_cases()
    faults = [it for it in pool.map(partial(case_fault, path), cases, chunksize=16) if it]
    usage = [*usage_faults(path)]
    closed = [*file_faults(path, folder), *unread_faults(path)]
    seen = {"inputs": len(cases), "misused commands": len(misused_commands()), "closed, full and other files": len([*files()]) + 1}
    return told("hostile inputs", seen, lacking(seen, LEAST_ASKED) + faults + usage + closed, start)


def main():
    given = options()
    with tempfile.TemporaryDirectory() as folder:
        path = program.find(given.program, folder)
        if program.has_checks_of_memory(path):
            print("refusals: this program was built with checks of its own memory, which no preload refuses: name another one")
            return 2
        preload = compiled(folder)
        with ProcessPoolExecutor(given.jobs, initializer=limited) as pool:
            failed = refuse_all(pool, path, preload, given.every) + ask_all(pool, path, folder)
    return 1 if failed else 0


if __name__ == "__main__":
    sys.exit(main())
