#!/usr/bin/env python3
"""Writes pages from the code and its comments: `docs/inside/TABLES.md` (crates, refusals, events of a trace, metrics) and `docs/inside/LAWS.md`.

    tests/pages/from_code.py            writes the pages
    tests/pages/from_code.py --check    fails where a page is not what the code says

Each table has at least as many rows as is asked for, and there are as many laws: where code is written in another form, nothing must be lost."""

import argparse
import re
import sys
from pathlib import Path

sys.path.insert(0, str(Path(__file__).resolve().parents[1]))
from lib.floors import lacking
from lib.program import ROOT

TABLES = ROOT / "docs/inside/TABLES.md"
LAWS = ROOT / "docs/inside/LAWS.md"
HEAD = """# Tables

Written by `tests/pages/from_code.py` from the code and its comments.
"""
HEAD_OF_LAWS = """# Laws

Written by `tests/pages/from_code.py` from the comments of the functions whose contracts they are. A name before a colon is a clause of the contract.
"""
# Functions with laws of what they do, besides those of the crates of laws, whose functions do nothing.
WITH_LAWS = {
    "lawful_member": ("run_lawfully", "keeps_the_laws"), "simplex_resolver": ("repair", "keeps_the_laws"),
    "simplex_engine": ("start", "resume", "handle", "poll", "keeps_the_laws"),
}
LEAST = {"laws": 75, "Crates": 33, "Crates of the node": 9, "Refusals of a restart": 14, "Events of a trace": 20, "Metrics of a node": 40}
DOCUMENTED = r"((?: *///[^\n]*\n)+)(?: *#\[[^\n]*\n)*"
EVENT = re.compile(rf"^{DOCUMENTED}    (\w+)(?: \{{\n(.*?)^    \}})?,$", re.DOTALL | re.MULTILINE)
FIELD = re.compile(rf"{DOCUMENTED}        (\w+): ", re.MULTILINE)
# What the comment of each law says.
NOTHING_DONE = re.compile(r"\s*(?:The\s+function\s+does|Does)\s+nothing:\s+its\s+contract\s+is\s+the\s+law\.\s*")
# Fields whose name or type says all.
PLAIN = ("kind", "proposal", "reason", "certificate", "text", "count")


def text_of(path):
    return (ROOT / path).read_text()


def sentences(comment):
    """The text of lines of comments."""
    return " ".join(line.strip().lstrip("/!").strip() for line in comment.splitlines()).strip()


def crates():
    """Each crate with what it holds, in the order of `crates.txt`: none before one that it uses."""
    for row in text_of("crates.txt").splitlines():
        name, colon, _ = row.partition(":")
        name = name.split()[0] if name.split() else ""
        if not colon or not (ROOT / "crates" / name / "src").is_dir():
            continue
        root = next(it for it in ("lib.rt", "main.rt") if (ROOT / "crates" / name / "src" / it).is_file())
        comment = re.match(r"(?://! .*\n)+", text_of(f"crates/{name}/src/{root}"))
        yield f"`{name}`", sentences(comment[0])


def node_crates():
    """Each crate of the node with what it has: the first paragraph of its comment, without the links of rustdoc."""
    for root in sorted((ROOT / "node").glob("*/src/lib.rs")):
        comment = re.match(r"(?://! .*\n)+", root.read_text())
        yield f"`node/{root.parent.parent.name}`", re.sub(r"\[(`[^`]*`)\](?:\([^)]*\))?", r"\1", sentences(comment[0]))


def refusals():
    """Each refusal of a restart: its number, its name, and what it says of the record or the floor."""
    numbers = re.findall(r"RecoverError::(\w+) => (\d+)", text_of("crates/simplex_program/src/texts.rt"))
    variants = re.findall(rf"^{DOCUMENTED}    (\w+),$", text_of("crates/simplex_record/src/record/error.rt"), re.MULTILINE)
    says = {name: sentences(comment) for comment, name in variants}
    for name, number in sorted(numbers, key=lambda it: int(it[1])):
        yield number, f"`{name}`", says[name]


def events():
    """Each event of a trace with its fields."""
    enum = text_of("node/trace/src/event.rs").partition("pub enum Event {\n")[2].partition("\n}\n")[0] + "\n"
    for comment, name, body in EVENT.findall(enum):
        fields = [f"`{field}`" + ("" if field in PLAIN else f": {sentences(said)}") for said, field in FIELD.findall(body)]
        yield f"`{re.sub(r'(?<!^)(?=[A-Z])', '_', name).lower()}`", sentences(comment), " ".join(fields)


def metrics():
    """Each metric that is served, as `Counters` names it, and each histogram."""
    text = text_of("node/node/src/metrics.rs").partition("\ncounters! {\n")[2].partition("\n}\n")[0]
    for comment, name, kind in re.findall(rf'{DOCUMENTED}    (\w+): "(\w+)",', text):
        for end, unit in (("_us", "_seconds"), ("_kb", "_bytes")):
            name = name.removesuffix(end) + unit if name.endswith(end) else name
        yield f"`simplex_{name}{'_total' if kind == 'counter' else ''}`", kind, sentences(comment)
    durations = text_of("node/node/src/metrics/durations.rs")
    for name, help_text in re.findall(r'histogram\("(\w+)", "([^"]+)"\)', durations):
        yield f"`simplex_{name}_seconds`", "histogram", help_text
    for name, help_text in re.findall(r'Opts::new\("(\w+)", "([^"]+)"\)', durations):
        yield f"`{name}`", "gauge of each `member`", help_text


def laws_in(crate, names):
    """The functions of a crate, of these names if there are any, with the file and the comment of each."""
    for path in sorted((ROOT / "crates" / crate / "src").rglob("*.rt")):
        for comment, name in re.findall(rf"^{DOCUMENTED} *pub fn (\w+)", path.read_text(), re.MULTILINE):
            if not names or name in names:
                text = "\n".join(line.strip().removeprefix("///").removeprefix(" ") for line in comment.splitlines())
                text = re.sub(NOTHING_DONE, "\n\n", f"\n{text}\n")
                yield name, path.relative_to(ROOT), re.sub(r"^# (.*)$", r"**\1**", text.strip(), flags=re.MULTILINE)


def laws():
    """The laws of each crate that has some."""
    of_laws = {path.name: () for path in (ROOT / "crates").glob("laws_*")}
    return {crate: list(laws_in(crate, names)) for crate, names in sorted((of_laws | WITH_LAWS).items())}


def laws_page():
    """The page of laws, as the code says it."""
    text = HEAD_OF_LAWS
    for crate, found in laws().items():
        text += f"\n## `{crate}`\n"
        text += "".join(f"\n### `{name}`\n\n`{path}`\n\n{said}\n" for name, path, said in found)
    return text


def tables():
    """Each table: its title, its columns and its rows."""
    return (
        ("Crates", ("Crate", "Holds"), list(crates())),
        ("Crates of the node", ("Crate", "Has"), list(node_crates())),
        ("Refusals of a restart", ("Number", "Name", "Says"), list(refusals())),
        ("Events of a trace", ("Event", "Says", "Fields"), list(events())),
        ("Metrics of a node", ("Metric", "Kind", "Says"), list(metrics())),
    )


def tables_page():
    """The page of tables, as the code says it."""
    text = HEAD
    for title, columns, rows in tables():
        text += f"\n## {title}\n\n| {' | '.join(columns)} |\n|{'---|' * len(columns)}\n"
        text += "".join(f"| {' | '.join(row)} |\n" for row in rows)
    return text


def faults():
    """The gaps of pages, and pages that are not what the code says."""
    seen = {title: len(rows) for title, _, rows in tables()} | {"laws": sum(map(len, laws().values()))}
    yield from lacking(seen, LEAST)
    for page, text in ((TABLES, tables_page()), (LAWS, laws_page())):
        if not page.is_file() or page.read_text() != text:
            yield f"{page.relative_to(ROOT)} isn't what the code says: run tests/pages/from_code.py"


def main():
    parser = argparse.ArgumentParser(description=__doc__, formatter_class=argparse.RawDescriptionHelpFormatter)
    parser.add_argument("--check", action="store_true", help="writes nothing, and fails where a page differs")
    if not parser.parse_args().check:
        TABLES.write_text(tables_page())
        LAWS.write_text(laws_page())
    found = list(faults())
    print("".join(f"{fault}\n" for fault in found), end="")
    return 1 if found else 0


if __name__ == "__main__":
    sys.exit(main())
