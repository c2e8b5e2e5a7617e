#!/usr/bin/env python3
"""Counts what a reader of a statement has to believe: the definitions of specs/ that it reaches through its imports.

    tests/pages/believed.py            prints each statement's definitions and lines, crate by crate
    tests/pages/believed.py --check    fails where docs/GUARANTEES.md has other numbers

A line is one with code; comments, empty lines, imports and `module` lines don't count. What cancels between two contracts is
named (`taken_as_it_is`): it counts as one line, and what it stands on isn't looked at.
"""

import argparse
import re
import sys
from pathlib import Path

sys.path.insert(0, str(Path(__file__).resolve().parents[1]))
from lib.program import ROOT

PAGE = ROOT / "docs" / "GUARANTEES.md"

# What the laws of networks take and the engine's contracts give.
EXECUTIONS = [("laws_safety", "Executions", name) for name in ("Execution", "IsExecution", "trace_of")]

# Each statement: its name, what it is made of, and what cancels.
STATEMENTS = [
    (
        "the first three clauses",
        [
            ("laws_safety", "Replicas", "OfEachNetwork"),
            ("laws_safety", "Agreement", "OneProposal"),
            ("laws_safety", "Agreement", "FinalizedUncovered"),
            ("laws_safety", "Agreement", "ParentNotBelow"),
            ("laws_safety", "ObservedTraces", "shown_trace"),
        ],
        EXECUTIONS,
    ),
    ("no network is stuck", [("laws_progress", "NotStuck", "NoNetworkIsStuck")], [*EXECUTIONS, ("laws_progress", "NetworkStates", "RunsWith")]),
    ("chains reach genesis", [("laws_chains", "Chains", "FinalizedReachGenesis")], EXECUTIONS),
    ("exactness", [("laws_safety", "ExactVotes", "ExactAt")], []),
    (
        "hosts agree",
        [
            ("laws_hosts", "HostNetworks", "OfEachHostNetwork"),
            ("laws_hosts", "HostAgreement", "OneFinalOfEachView"),
            ("laws_hosts", "HostAgreement", "FinalsUncovered"),
            ("laws_hosts", "HostAgreement", "ChainsHoldFinals"),
        ],
        [("laws_hosts", "EngineCalls", "IsEngineCall"), ("laws_hosts", "Processes", "EngineBegins")],
    ),
]

DEFINITION = re.compile(r"^ {0,2}(?:(?:abbrev|unfoldable) (?:pub )?|pub (?:record|data) |record |data )([\w'-]+)")
NAMES = re.compile(r"^use Rattle\.(\w+)\.specs\.([\w.]+?)\.\{(.*)\}")
MODULE = re.compile(r"^use Rattle\.(\w+)\.specs\.([\w.]+) as (\w+)")
CONSTRUCTOR = re.compile(r"^\s*([A-Z]\w*)\s*:")
WORD = re.compile(r"[A-Za-z_][\w']*(?:\.[A-Za-z_][\w']*)*|◌\S*◌")


class Specs:
    """All definitions of specs/, each with its lines of code, and what each file imports."""

    def __init__(self):
        self.lines = {}
        self.imports = {}
        self.data = {}
        for path in sorted(ROOT.glob("crates/*/specs/**/*.antt")):
            crate = path.relative_to(ROOT).parts[1]
            module = ".".join(path.relative_to(ROOT / "crates" / crate / "specs").with_suffix("").parts)
            self.read(crate, module, path.read_text())

    def read(self, crate, module, text):
        imported = self.imports.setdefault((crate, module), {})
        current = None
        for row in text.split("\n"):
            if row.startswith(("use ", "pub use ", "unfoldable pub use ")):
                self.note_import(imported, row[row.index("use ") :])
                continue
            code = row.split("--")[0].rstrip()
            if not code.strip() or code.lstrip().startswith(("module ", "pub mod ", "mod ")):
                current = None if code.lstrip().startswith("module ") else current
                continue
            begins = DEFINITION.match(code)
            if begins:
                current = (crate, module, begins[1])
                self.lines[current] = [code]
            elif current:
                self.lines[current].append(code)
                made = CONSTRUCTOR.match(code)
                if made and "data " in self.lines[current][0]:
                    self.data[(crate, module, made[1])] = current

    @staticmethod
    def note_import(imported, row):
        names = NAMES.match(row)
        if names:
            for item in names[3].split(","):
                word, _, local = item.strip().partition(" as ")
                imported[local or word] = (names[1], names[2], word)
            return
        module = MODULE.match(row)
        if module:
            imported[module[3]] = (module[1], module[2], None)

    def found(self, key):
        """The definition of a name in a module, passed on by others or not, or none."""
        for _ in range(8):
            if key in self.lines:
                return key
            if key in self.data:
                return self.data[key]
            crate, module, name = key
            onward = self.imports.get((crate, module), {}).get(name)
            if not onward or onward[2] is None:
                return None
            key = onward
        return None

    def meant(self, crate, module, word):
        """What a word of a definition means, or none where it is no definition of specs/."""
        head, _, field = word.partition(".")
        through = self.imports[(crate, module)].get(head)
        if through and through[2] is None:
            return self.found((through[0], through[1], field.split(".")[0]))
        return self.found((crate, module, head))

    def reached(self, roots, taken_as_it_is):
        """The definitions that some reach, each with its lines."""
        counts, waiting = {}, list(roots)
        while waiting:
            key = waiting.pop()
            if key in counts:
                continue
            if key in taken_as_it_is:
                counts[key] = 1
                continue
            counts[key] = len(self.lines[key])
            for word in WORD.findall("\n".join(self.lines[key])):
                meant = self.meant(key[0], key[1], word)
                if meant and meant != key:
                    waiting.append(meant)
        return counts


def by_crate(counts):
    """For each crate, how many definitions and lines."""
    sums = {}
    for (crate, _, _), lines in counts.items():
        definitions, before = sums.get(crate, (0, 0))
        sums[crate] = (definitions + 1, before + lines)
    return sums


def told(sums):
    """The sums on the page."""
    crates = sorted(sums, key=lambda crate: -sums[crate][1])
    return [f"{sums[crate][0]} definitions of {sums[crate][1]} lines in `{crate}`" for crate in crates]


def main():
    parser = argparse.ArgumentParser(description=__doc__, formatter_class=argparse.RawDescriptionHelpFormatter)
    parser.add_argument("--check", action="store_true")
    checks = parser.parse_args().check
    specs = Specs()
    page = PAGE.read_text()
    missing = []
    for name, roots, taken in STATEMENTS:
        sums = by_crate(specs.reached(roots, set(taken)))
        total = f"{sum(d for d, _ in sums.values())} definitions of {sum(n for _, n in sums.values())} lines"
        print(f"{name}: {total}: {', '.join(told(sums))}")
        if total not in page:
            missing.append(f"{PAGE.name} doesn't say of {name}: {total}")
    if checks and missing:
        sys.exit("\n".join(missing))


if __name__ == "__main__":
    main()
