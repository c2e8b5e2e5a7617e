"""The scripts of the repository's tests, read from `tests/scripts`, and one run of the program.

Each page there has a title, and scripts below it: a name, the command behind `$`, and the lines that the program is given, each with
the reply that it has to give behind ` => `, or `*` for any. A line without a reply is no call, and ends the program. `\\r`, `\\t` and
`\\0` stand for these bytes, `\\s` for a space at a line's end or beginning, `\\e` for a line that is empty, and `\\c` for no line feed
behind the last line. `tests/lib/tables.py` writes the tables of `crates/tests_program` from the same pages, and the Rust package
serves them (`bindings/rust/tests/scripts.rs`)."""

import re
import subprocess
from dataclasses import dataclass
from typing import NamedTuple

from lib.program import ROOT

PAGES = ROOT / "tests/scripts"
MISUSES = "misuses"
INDENT = "    "
COMMAND = "$ "
REPLIED = " => "
ANY = "*"
NO_FEED = r"\c"
ESCAPES = {r"\r": "\r", r"\t": "\t", r"\0": "\0", r"\s": " ", r"\e": ""}


@dataclass(frozen=True)
class Script:
    """Lines for the program, each with its reply; one without a reply is no call, and ends the program."""

    shows: str
    arguments: tuple
    lines: tuple
    replies: tuple
    has_last_feed: bool

    @property
    def input(self):
        return ("\n".join(self.lines) + "\n" * (self.has_last_feed and bool(self.lines))).encode()

    @property
    def is_voter(self):
        return self.arguments[0] == "voter"


class Page(NamedTuple):
    """The scripts of a page, in their order."""

    name: str
    title: str
    scripts: tuple


def unescaped(text):
    """The bytes that a line of a page stands for."""
    return re.sub(r"\\.", lambda found: ESCAPES[found[0]], text)


def script_in(part):
    """The script of a part of a page: its name, and the indented rows, of which the first is the command."""
    shows, _, rest = part.partition("\n")
    command, *rows = (row.removeprefix(INDENT) for row in rest.splitlines() if row.startswith(INDENT))
    has_last_feed = not (rows and rows[-1].endswith(NO_FEED))
    if not has_last_feed:
        rows[-1] = rows[-1].removesuffix(NO_FEED)
    lines = tuple(unescaped(row.partition(REPLIED)[0]) for row in rows)
    replies = tuple(row.partition(REPLIED)[2] for row in rows if REPLIED in row)
    return Script(shows, tuple(unescaped(command.removeprefix(COMMAND)).split(" ")[1:]), lines, replies, has_last_feed)


def page_in(file):
    """A page, read."""
    title, *parts = re.split(r"^## ", file.read_text(), flags=re.MULTILINE)
    return Page(file.stem, title.strip().removeprefix("# "), tuple(script_in(part) for part in parts))


def all_pages():
    """Every page, by name."""
    return [page_in(file) for file in sorted(PAGES.glob("*.md"))]


def all_scripts():
    """Every script but those whose command asks for no mode."""
    return [script for page in all_pages() if page.name != MISUSES for script in page.scripts]


def misused_commands():
    """The arguments that ask for no mode."""
    return [list(script.arguments) for page in all_pages() if page.name == MISUSES for script in page.scripts]


class NotAsAsked(Exception):
    """Something that is not as a script, or what is asked besides, has it."""


def wants(holds, what, seen):
    """Raises what was seen instead, unless it holds."""
    if not holds:
        raise NotAsAsked(f"{what}: {seen}")


class Ended(NamedTuple):
    """How a run of the program ended."""

    status: int
    output: bytes
    error: bytes


def run(program, arguments, given, settings=None, kept=()):
    """Runs the program on some bytes; settings are its environment."""
    ran = subprocess.run([program, *arguments], input=given, capture_output=True, env=settings or {}, pass_fds=kept, timeout=60)
    return Ended(ran.returncode, ran.stdout, ran.stderr)
