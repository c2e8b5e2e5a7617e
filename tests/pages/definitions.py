#!/usr/bin/env python3
"""Writes docs/inside/DEFINITIONS.md from the comments in specs/, or says where it differs from them.

    tests/pages/definitions.py            writes it
    tests/pages/definitions.py --check    fails where the page isn't what the comments say
    tests/pages/definitions.py --all      prints the same of every public definition, and writes nothing

The page keeps what the headline and the public calls of a member and of a resolver make a reader believe: the definitions that
their clauses name, and those that these name in turn. A row has the definitions that stand under one comment, with no blank
line between, and the comment. A row of definitions without one goes with the row above, or their names say what they are.
"""

import argparse
import glob
import os
import re
import sys
from pathlib import Path

sys.path.insert(0, str(Path(__file__).resolve().parents[1]))
from believed import STATEMENTS, Specs
from lib.program import ROOT

PAGE = os.path.join(ROOT, "docs", "inside", "DEFINITIONS.md")

HEAD = """# Definitions

What the theorem and the public calls of a member and of a resolver make a reader believe, beside their clauses: each definition of `specs/` that these name, and those that it names in turn, by crate and file, with the comment that stands above it. `docs/GUARANTEES.md` says which of them the theorem takes. `tests/pages/definitions.py` writes this page, and the gate fails where it is stale; `tests/pages/definitions.py --all` prints all definitions there are.

The rows of a file are in its order. A row without a sentence goes with the one above, or its names say what they are.

"""

# The files of the calls whose clauses the page is about.
CALLS = [
    ("simplex_member", "src/member/**/*.rt"),
    ("lawful_member", "src/lawful/**/*.rt"),
    ("laws_safety", "src/laws/network.rt"),
    ("laws_safety", "src/laws/contradictions.rt"),
    ("simplex_resolver", "src/replay/lawful.rt"),
]
BROUGHT_IN = re.compile(r"ghost use Rattle\.(\w+)\.specs\.([\w.]+?)\.\{(.*)\};")
PUBLIC_CALL = re.compile(r"^ *pub fn (?:.*\n)*?(?= *\{\n|.*\{\}\n)", re.M)
WORD = re.compile(r"[A-Za-z_][\w']*")

DEFINITION = re.compile(r" *(?:abbrev |unfoldable )?pub (?:record |data )?(?!use\b|mod\b)([^\s:]+) ")
FIELD = re.compile(r" *pub ([^\s:]+) :")
COMMENT = re.compile(r" *--+ ?(.*)")
SECTION = re.compile(r" *-- -{2,}")


def definitions_in(text):
    """The definitions of a file in order: each comment with the names under it."""
    rows, comment, names, in_record = [], [], [], False

    def close():
        nonlocal comment, names
        if names:
            rows.append((" ".join(comment), names))
        comment, names = [], []

    for line in text.split("\n"):
        told = COMMENT.match(line)
        if told:
            if in_record and line.startswith(in_record):
                continue
            in_record = False
            if names or SECTION.match(line):
                close()
            if not SECTION.match(line):
                comment.append(told[1].strip())
            continue
        if not line.strip():
            in_record = False
            close()
            continue
        if in_record and line.startswith(in_record):
            continue
        in_record = False
        found = DEFINITION.match(line)
        if not found:
            continue
        indent = len(line) - len(line.lstrip())
        if re.match(r" *pub (record|data) ", line):
            in_record = " " * (indent + 2)
        if not comment and names:
            close()
        names.append(found[1])
    close()
    return rows


def joined(rows):
    """The rows, those without a sentence that follow one another as one."""
    made = []
    for says, defined in rows:
        if not says and made and not made[-1][0]:
            made[-1] = ("", made[-1][1] + defined)
        else:
            made.append((says, defined))
    return made


def rows_kept(rows, names):
    """The rows with these names alone."""
    cut = [(says, [name for name in defined if name in names]) for says, defined in rows]
    return [row for row in cut if row[1]]


def names_of(defined):
    return ", ".join(f"`{it}`" for it in defined)


def cell(text):
    return text.replace("|", "\\|")


def title_of(text):
    first = text.split("\n", 1)[0]
    told = COMMENT.match(first)
    return told[1].strip() if told else ""


def named_by_calls():
    """The definitions that the clauses of public calls name."""
    named = set()
    for crate, pattern in CALLS:
        for path in glob.glob(os.path.join(ROOT, "crates", crate, pattern), recursive=True):
            with open(path, encoding="utf-8") as it:
                text = it.read()
            brought = {}
            for from_crate, module, words in BROUGHT_IN.findall(text):
                for word in words.split(","):
                    name, _, local = word.strip().partition(" as ")
                    brought[local or name] = (from_crate, module, name)
            for call in PUBLIC_CALL.findall(text):
                named.update(brought[word] for word in WORD.findall(call) if word in brought)
    return named


def believed():
    """The definitions that the headline and the public calls make a reader believe, by crate and file."""
    specs = Specs()
    roots = [specs.found(key) for key in named_by_calls()]
    roots += [specs.found(key) for _, statement, _ in STATEMENTS for key in statement]
    kept = {}
    for crate, module, name in specs.reached([root for root in roots if root], []):
        kept.setdefault((crate, module), set()).add(name)
    return kept


def page(kept=None):
    """The page of the definitions that are kept, or of all where none are named."""
    out = [HEAD]
    with open(os.path.join(ROOT, "crates.txt"), encoding="utf-8") as it:
        crates = [line.split(":")[0].split()[0] for line in it if line.strip() and not line.startswith("#")]
    for crate in crates:
        folder = os.path.join(ROOT, "crates", crate, "specs")
        with_names = []
        order = os.path.join(folder, "Lib.antt")
        if not os.path.isfile(order):
            continue
        with open(order, encoding="utf-8") as it:
            names = re.findall(r"mod (\S+)", it.read())
        for name in names:
            with open(os.path.join(folder, name + ".antt"), encoding="utf-8") as it:
                text = it.read()
            body = text.split("\n", 1)[1] if title_of(text) else text
            with_names.append((name, title_of(text), definitions_in(body)))
        if kept is not None:
            with_names = [(name, title, rows_kept(rows, kept.get((crate, name), set()))) for name, title, rows in with_names]
            with_names = [it for it in with_names if it[2]]
        if with_names:
            out.append(f"\n## `{crate}`\n")
        for name, title, rows in with_names:
            out.append(f"\n**`{name}.antt`** {title}\n\n| Definition | Says |\n|---|---|\n")
            for says, defined in joined(rows):
                out.append(f"| {names_of(defined)} | {cell(says)} |\n")
    return "".join(out)


def main():
    asked = argparse.ArgumentParser(description=__doc__, formatter_class=argparse.RawDescriptionHelpFormatter)
    asked.add_argument("--check", action="store_true", help="write nothing, and fail where the page is stale")
    asked.add_argument("--all", action="store_true", help="print the definitions of all crates, and write nothing")
    given = asked.parse_args()
    if given.all:
        print(page(), end="")
        return 0
    made = page(believed())
    if not given.check:
        with open(PAGE, "w", encoding="utf-8") as it:
            it.write(made)
        return 0
    with open(PAGE, encoding="utf-8") as it:
        if it.read() == made:
            return 0
    print("docs/inside/DEFINITIONS.md isn't what specs/ says: run tests/pages/definitions.py", file=sys.stderr)
    return 1


if __name__ == "__main__":
    sys.exit(main())
