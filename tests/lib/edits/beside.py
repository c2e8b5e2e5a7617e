"""A run of `rt ci` that is at work, told by the file that what it prints goes to, and what may be checked beside it.

A check may begin once the libraries that it reads are proved, and only where it leaves the run the memory that it counts on: `rt ci` looks
at the free memory once, when it begins."""

import contextlib
import re
import threading
import time

# The last line of the file, which `tests/all` writes whatever became of the run.
ENDED = re.compile(r"^the run has ended$", re.MULTILINE)
# What the run says of a crate, once. One that an earlier run on this machine proved, of the same files, "is kept".
JUDGED = re.compile(r"^(?:rt: )?(\w+) (proved|is kept|NOT PROVED)\b", re.MULTILINE)
# What has to be free before a check begins beside a run, in bytes: a check takes one to four gigabytes.
LEAST_FREE = 7 << 30
# How many checks may be at work beside a run.
MOST_BESIDE = 2
EVERY = 2


def free():
    """The free memory, in bytes."""
    with open("/proc/meminfo", encoding="ascii") as it:
        return 1024 * int(re.search(r"MemAvailable:\s+(\d+)", it.read())[1])


class Gate:
    """A run of `rt ci`; one that has ended where no file is given."""

    def __init__(self, file, jobs):
        self.file, self.jobs = file, jobs
        self.at_work, self.changed = 0, threading.Condition()
        self.looked, self.seen = threading.Lock(), (0, False, {})

    def told(self):
        """Whether the run has ended, and what it said of each crate. The file is read again only once it has grown: thirty threads look."""
        with self.looked:
            size = self.file.stat().st_size if self.file and self.file.is_file() else 0
            if size != self.seen[0]:
                text = self.file.read_text(errors="replace")
                self.seen = size, bool(ENDED.search(text)), dict(JUDGED.findall(text))
            return self.seen[1:]

    def is_at_work(self):
        return self.file is not None and not self.told()[0]

    def wait(self):
        """Returns when the run has ended."""
        while self.is_at_work():
            time.sleep(EVERY)

    def unproved(self, libraries):
        """Waits until these libraries are proved; returns the first that the run has not proved, or none."""
        while self.file is not None:
            has_ended, judged = self.told()
            refused = [name for name in libraries if judged.get(name) == "NOT PROVED"]
            lacking = [name for name in libraries if name not in judged]
            if refused or has_ended and lacking:
                return (refused or lacking)[0]
            if not lacking:
                break
            time.sleep(EVERY)
        return None

    @contextlib.contextmanager
    def room(self):
        """Waits for a place among the checks that are at work, which are fewer while the run is."""
        with self.changed:
            while not self.has_room():
                self.changed.wait(EVERY)
            self.at_work += 1
        try:
            yield
        finally:
            with self.changed:
                self.at_work -= 1
                self.changed.notify()

    def has_room(self):
        if self.is_at_work():
            return self.at_work < min(MOST_BESIDE, self.jobs) and free() > LEAST_FREE
        return self.at_work < self.jobs
