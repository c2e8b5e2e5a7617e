#!/usr/bin/env python3
"""That each command on a page is run by a test.

The commands are the lines of blocks for a shell in the README, in `docs/*.md` and in the page of a release, and those with arguments between
backquotes. Each is in a table: what runs it, or why nothing does. Those
for hosts that begin are run here, as the page has them, in a copy of the repository, over the archive.

    tests/pages/commands.py [--archive PATH]     without an archive one is built, unproved, in some minutes

It ends with status 1 where a command fails, where a page has one that the table has not, or the table one that no page has. Where `cargo` or a
compiler is missing it says so in one line, and runs nothing."""

import argparse
import os
import re
import shutil
import subprocess
import sys
import tempfile
from pathlib import Path

sys.path.insert(0, str(Path(__file__).resolve().parents[1]))
from lib.program import ROOT

PAGES = [ROOT / "README.md", ROOT / "bindings/packaging/README.md", *sorted(ROOT.glob("docs/*.md"))]
FENCED = re.compile(r"^```(\w*)\n(.*?)^```", re.DOTALL | re.MULTILINE)
SHELLS = ("sh", "bash")
INLINE = re.compile(r"`((?:CGO_LDFLAGS=|bindings/|bench/|tests/|c\+\+ |cc |cd |go |make |pip |dpkg|sha256sum |simplex-[a-z]+ |rt new )[^`\n]* [^`\n]+)`")
# How long a command may take, in seconds.
LONGEST = 900
HERE = "run here"
# What runs a page's commands. A command is a line up to its comment: two spaces or more, or `#`.
TABLE = {
    "README.md": {"./demo": "tests/node/node.py, in a build for trying", "tests/all": "CI", "tests/all --quick": "CI, as parts of the gate"},
    "docs/EMBEDDING.md": {
        "bindings/build --unproved": "tests/bindings/bindings.py",
        "bindings/build": "CI: it proves",
        "cd bindings/rust && cargo test && cargo run --example engine": HERE,
        "cc -Ibindings/c/include host.c bindings/libsimplex.a": HERE,
        "c++ -std=c++17 -Ibindings/c/include -Ibindings/cpp host.cpp bindings/libsimplex.a": HERE,
        "bindings/release --out FOLDER": "tests/bindings/release.py",
        "CGO_LDFLAGS=-L/path/to/bindings go build": "tests/bindings/languages.py",
        "go build -a": "by hand: it is for a changed archive alone",
        "cd bindings/python && pip install --no-build-isolation --no-index .": "tests/bindings/languages.py, into another folder",
        "make -C bindings install PREFIX=/usr/local": "tests/bindings/languages.py, with DESTDIR",
        "cc host.c $(pkg-config --cflags --libs simplex)": "tests/bindings/languages.py",
        "find_package(simplex 0.1.0 REQUIRED)": "tests/bindings/languages.py",
    },
    "bindings/packaging/README.md": {command: "tests/bindings/release.py" for command in (
        "sha256sum -c SHA256SUMS", "make install PREFIX=/usr/local", "dpkg-buildpackage -b -us -uc", "pip install ./python")},
    "docs/PARTS.md": {"rt new crates/my_parts start_lib": "by hand: it is the kit's own"},
    "docs/TUTORIAL.md": {
        "bindings/build --unproved": "tests/bindings/bindings.py",
        "cd bindings/rust": HERE,
        "cargo run --example first_engine -- /tmp/members": HERE,
    },
    "docs/PRODUCTION.md": {"*": "node/node/tests/walk_through.rs"},
    "docs/TRACE.md": {"*": "node/node/tests/walk_through.rs"},
    "docs/PROGRAM.md": {"*": "tests/pages/copies.py: lines and replies; tests/sweeps/refusals.py: usages"},
    "docs/TESTED.md": {
        "tests/all": "CI", "tests/all --quick": "CI, as parts of the gate", "tests/all --changed": "by hand: it compares with another commit",
        "tests/all --long": "by hand: it takes hours", "(cd crates/viewstate && rt run -- resolver 5 < /dev/null)": "by hand, beside figures: it proves first",
        "bench/run --page --plot docs/speed.svg": "by hand: figures are measured on an idle machine",
        **{command: "by hand: it takes hours" for command in ("tests/node/node.py --chaos MINUTES", "tests/node/node.py --wrong")},
        "tests/sweeps/networks.py --name skipped-by-one --draw": "by hand: it draws a stored network, which tests/sweeps/networks.py runs",
    },
}


def commands(page):
    """The commands of a page, in order: the lines of blocks for a shell, and of indented blocks."""
    text = page.read_text()
    for kind, block in FENCED.findall(text):
        if kind in SHELLS:
            yield from filter(None, (re.split(r"\s+#|\s{2,}", line.strip())[0] for line in block.splitlines()))
    outside = FENCED.sub("", text)
    for line in re.findall(r"^    (\S.*)$", outside, re.MULTILINE):
        yield re.split(r"\s+#|\s{2,}", line)[0]
    yield from INLINE.findall(outside)


def table_faults():
    """Where the table and the pages differ."""
    for page in PAGES:
        name = str(page.relative_to(ROOT))
        there, known = {*commands(page)}, TABLE.get(name, {})
        if "*" in known:
            continue
        yield from (f"{name}: nothing runs {command!r}: add it to the table of tests/pages/commands.py" for command in sorted(there - {*known}))
        yield from (f"{name}: the page has no {command!r} any more" for command in sorted({*known} - there))


def copied(room, archive):
    """A copy of the repository's files, with an archive."""
    tree = room / "tree"
    listed = subprocess.run(["git", "ls-files", "-z", "bindings", "crates/viewstate", "docs", "tests/scripts"], cwd=ROOT, capture_output=True, text=True, check=True)
    for name in filter(None, listed.stdout.split("\0")):
        if (ROOT / name).is_file():
            (tree / name).parent.mkdir(parents=True, exist_ok=True)
            shutil.copy(ROOT / name, tree / name)
    shutil.copy(archive, tree / "bindings/libsimplex.a")
    shutil.copy(ROOT / "bindings/c/examples/network.c", tree / "host.c")
    shutil.copy(ROOT / "bindings/cpp/examples/member_lines.cpp", tree / "host.cpp")
    return tree


def run_faults(room, archive):
    """Which of the commands that are run here fail: those of a page in one shell, in their order."""
    tree, surroundings = copied(room, archive), {**os.environ, "CARGO_NET_OFFLINE": "true", "CARGO_TARGET_DIR": str(room / "target")}
    surroundings.pop("SIMPLEX_ARCHIVE", None)
    for name, known in TABLE.items():
        chosen = [command for command in commands(ROOT / name) if known.get(command) == HERE]
        if not chosen:
            continue
        text = "\n".join(f"( {it} )" if it.startswith("cd ") and "&&" in it else it for it in chosen).replace("/tmp/members", str(room / "members"))
        done = subprocess.run(["bash", "-euo", "pipefail", "-c", text], cwd=tree, env=surroundings, capture_output=True, text=True, timeout=LONGEST)
        print(f"commands: {name}: {len(chosen)} run")
        if done.returncode:
            yield f"{name}: {chosen} ended with {done.returncode}: {(done.stdout + done.stderr)[-1500:]}"


def main():
    parser = argparse.ArgumentParser(description=__doc__, formatter_class=argparse.RawDescriptionHelpFormatter)
    parser.add_argument("--archive", type=Path, help="the library, if it is built already")
    given = parser.parse_args()
    faults = [*table_faults()]
    missing = [tool for tool in ("cargo", "cc", "c++", "git") if not shutil.which(tool)]
    if missing:
        print(f"commands: not run, since {' and '.join(missing)} is not here")
    else:
        with tempfile.TemporaryDirectory() as room:
            archive = given.archive and given.archive.resolve() or Path(room) / "libsimplex.a"
            if not given.archive:
                subprocess.run([ROOT / "bindings/build", "--unproved", "--out", archive], check=True)
            faults += run_faults(Path(room), archive)
    print(f"commands: {sum(len([*commands(page)]) for page in PAGES)} on pages; {len(faults)} wrong")
    print("".join(f"  {fault}\n" for fault in faults), end="")
    return 1 if faults else 0


if __name__ == "__main__":
    sys.exit(main())
