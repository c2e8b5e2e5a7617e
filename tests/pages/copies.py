#!/usr/bin/env python3
"""Tests that texts which the repository has twice are the same.

The program is deterministic: the same lines behind the same arguments have the same reply wherever they are written, in the pages
of `tests/scripts`, in `docs/PROGRAM.md`, the program's own run and the stored schedules. The tables of
`crates/tests_program/src/program` are those that `tests/lib/tables.py` writes from these pages. And copies of source,
output, numbers and names in the docs are those of what they are copied from. A must-fail edit names a text of the source, which
is still there.

    tests/pages/copies.py [--program PATH]       with a built program, the picture in docs/TESTED.md too

It ends with status 1 where two copies differ, or where fewer were found than are asked for."""

import argparse
import re
import sys
from pathlib import Path

sys.path.insert(0, str(Path(__file__).resolve().parents[1]))
import from_code
import results
from lib import scripts, tables
from lib.edits import edits
from lib.floors import lacking
from lib.networks import schedules
from lib.networks.draw import drawn
from lib.networks.member import Served
from lib.networks.network import Network
from lib.program import ROOT
from lib.scripts import ANY
from mutants import wrong_bodies, wrong_definitions
from sweeps.refusals import USAGE

SAMPLE = "crates/tests_member/src/member/sample.rt"
PACKAGE = "bindings/rust/src/lib.rs"
DRAWN = "skipped-by-one"
LEAST = {"lines with replies": 2500, "wrong bodies": 15, "must-fail edits": 319}


def text_of(path):
    return (ROOT / path).read_text()


def blocks(path, kind):
    """The fenced texts of a kind in a page."""
    return re.findall(rf"^```{kind}\n(.*?)^```", text_of(path), re.DOTALL | re.MULTILINE)


def table_rows(path):
    """The first two cells of each row of a page's tables."""
    return re.findall(r"^\| ([^|]*?) \| ([^|]*?) \|", text_of(path), re.MULTILINE)


def first_script():
    """The rows of the first script: each line with its reply."""
    rows = next(block for block in blocks("docs/PROGRAM.md", "text") if block.startswith("nullify ")).splitlines()
    return [tuple(re.split(r" {2,}", row, maxsplit=1)) for row in rows]


def told_texts():
    """Each place where lines and replies are written: its name, the program's arguments, and the pairs."""
    for script in scripts.all_scripts():
        yield script.shows, script.arguments, zip(script.lines, script.replies)
    yield "docs/PROGRAM.md, the first script", ("voter", "4", "0", "1", "0"), first_script()
    words, lines, replies = (text_of(f"crates/viewstate/{name}").splitlines() for name in ("args", "stdin", "stdout"))
    yield "crates/viewstate/stdout", tuple(words), zip(lines, replies)
    resolver = text_of("docs/PROGRAM.md").partition("    viewstate resolver 5\n")[2]
    yield "docs/PROGRAM.md", ("resolver", "5"), re.findall(r"^\| `(.*?)` \| `(.*?)` \|$", resolver, re.MULTILINE)
    for schedule in schedules.all_schedules():
        for member in (1, 2, 3):
            arguments = ("voter", "4", str(member), str(schedule.terms.length), str(schedule.terms.optimistic))
            yield f"{schedule.name}, member {member}", arguments, [(line, reply or ANY) for it, line, reply in schedule.steps if it == member]


def differing_replies():
    """Pairs of places where the same lines have two replies."""
    held = {}
    for name, arguments, pairs in told_texts():
        before = arguments
        for line, reply in pairs:
            before = (before, line)
            other, where = held.setdefault(before, (reply, name)) if reply != ANY else (reply, name)
            if other != reply:
                yield f"{line!r} is answered {reply!r} in {name!r}, and {other!r} in {where!r}"


def doubled_names():
    """Names that two scripts of a voter, or two of a resolver, have."""
    names = [(script.arguments[0], script.shows) for script in scripts.all_scripts()]
    return [f"two scripts of a {kind} show: {name}" for kind, name in sorted(set(names)) if names.count((kind, name)) > 1]


def source_copies():
    """Texts that stand elsewhere as a file, or as a part of one."""
    lines = [f"{line}\n" for line, *_ in first_script()]
    if text_of("crates/viewstate/stdin") != "".join(lines):
        yield "crates/viewstate/stdin is not the first script of docs/PROGRAM.md"
    if not any(block in blocks("README.md", "text") for block in blocks("docs/PROGRAM.md", "text")):
        yield "README.md does not show the first script of docs/PROGRAM.md"
    samples = text_of(SAMPLE).replace("\n    ", "\n"), re.sub("^//! ?", "", text_of(PACKAGE), flags=re.MULTILINE)
    for block in blocks("README.md", "rust"):
        if not any(block in sample for sample in samples):
            yield f"a sample of the README is neither in {SAMPLE} nor in {PACKAGE}"
    host = text_of("bindings/rust/examples/first_engine/host.rs")
    yield from (f"docs/TUTORIAL.md: no part of the example: {block[:60]!r}" for block in blocks("docs/TUTORIAL.md", "rust") if block not in host)
    if len(host.splitlines()) > 150:
        yield "the host of docs/TUTORIAL.md has over 150 lines"
    printed = text_of("crates/example_network/stdout")
    for block in blocks("docs/PARTS.md", "text"):
        yield from (f"docs/PARTS.md: not printed: {part}" for part in block.split("...\n") if part not in printed)


def numbered_names():
    """The numbers of faults, the program's usage and its words, as the source and the pages have them."""
    source = text_of("crates/simplex_program/src/texts.rt")
    faults = {(name, number) for name, number in re.findall(r"Fault::(\w+) => (\d+)", source) if name != "OutOfMemory"}
    told_faults = {(name, number) for number, name in re.findall(r"^\| `fault (\d+) (\w+)` \|", text_of("docs/PROGRAM.md"), re.MULTILINE)}
    reasons = set(re.findall(r"Some\(TimeoutReason::(\w+)\)", text_of("crates/simplex_program/src/words.rt")))
    told_reasons = set(re.findall(r"`(\w+)`", re.search(r"`REASON` is (.*)", text_of("docs/PROGRAM.md"))[1]))
    usages = {usage.replace("\\|", "|") for path in ("crates/viewstate/src/main.rt", "docs/PROGRAM.md")
              for usage in re.findall(r"usage: viewstate [^\"`]*", text_of(path))}
    pairs = (("faults", faults, told_faults), ("reasons", reasons, told_reasons),
             ("usages", usages, {USAGE.strip()}))
    return [f"the {what} of the source and of docs/PROGRAM.md differ: {one ^ other}" for what, one, other in pairs if one != other]


def listed_names():
    """The crates that stand, and the wrong bodies that are tried, as the pages list them."""
    crates = {path.name for path in (ROOT / "crates").iterdir() if (path / "src").is_dir()}
    listed = {line.partition(":")[0].split(" ")[0] for line in text_of("crates.txt").splitlines()}
    if listed != crates:
        yield f"crates.txt has other crates than are there: {listed ^ crates}"
    yield from from_code.faults()
    for name in wrong_bodies.ALL_WRONG:
        if name.split("/")[1] not in text_of("docs/TESTED.md") + text_of("tests/pages/results.txt"):
            yield f"tests/pages/results.txt does not name the wrong body {name}"
    for wrong in wrong_definitions.WRONG_DEFINITIONS:
        try:
            wrong_definitions.turned(wrong, text_of(f"crates/{wrong.file}"))
        except (wrong_definitions.Stale, OSError) as fault:
            yield f"tests/mutants/wrong_definitions.py: {fault}"
    if text_of("docs/inside/RESULTS.md") != results.page():
        yield "docs/inside/RESULTS.md isn't what tests/pages/results.txt says: run tests/pages/results.py"
    refused = [name for name, _ in table_rows("docs/inside/REFUSED.md")[1:]]
    if refused != [it.name for it in wrong_definitions.WRONG_DEFINITIONS]:
        yield "docs/inside/REFUSED.md has other wrong definitions than tests/mutants/wrong_definitions.py"


def edits_not_made():
    """The must-fail edits that can't be made, and wrong bodies that are no edit."""
    for title in sorted({edit.title for edit in edits.all_edits()} | set(wrong_bodies.ALL_WRONG)):
        try:
            edit = edits.named(title)
            edits.turned(edit, {}, ROOT / "crates" / edit.crate)
        except (edits.NotMade, OSError) as error:
            yield str(error)


def picture(path):
    """The picture in docs/TESTED.md, where a program draws it anew."""
    schedule = next(it for it in schedules.all_schedules() if it.name == DRAWN)
    with Network(Served(path), 4, {0}, schedule.terms) as network:
        schedules.play(schedule, network)
    if not any(drawn(network).startswith(block) for block in blocks("docs/TESTED.md", "text")):
        yield f"docs/TESTED.md has another picture of {DRAWN}"


def main():
    parser = argparse.ArgumentParser(description=__doc__, formatter_class=argparse.RawDescriptionHelpFormatter)
    parser.add_argument("--program", help="a built program, which draws the picture")
    given = parser.parse_args()
    checks = (differing_replies, doubled_names, tables.differing, source_copies, numbered_names, listed_names, edits_not_made)
    faults = [fault for check in checks for fault in check()]
    faults += picture(given.program) if given.program else []
    seen = {
        "lines with replies": sum(len(list(pairs)) for _, _, pairs in told_texts()),
        "wrong bodies": len(wrong_bodies.ALL_WRONG),
        "must-fail edits": len(edits.all_edits()),
    }
    faults += lacking(seen, LEAST)
    print(f"copies: {', '.join(f'{count} {what}' for what, count in seen.items())}; {len(faults)} copies that differ")
    print("".join(f"  {fault}\n" for fault in faults), end="")
    return 1 if faults else 0


if __name__ == "__main__":
    sys.exit(main())
