#!/usr/bin/env python3
"""Tests that two proved builds of the library are the same bytes, wherever they are made.

The first build is that of `bindings/build` in a copy of the sources, over the libraries that `rt lib` left in this folder, or else makes in
the copy. The second one is made at another path, by a kit at another path, which finds no earlier work. There each crate below the library is
proved and compiled anew, over the first build's libraries of the crates below it, many crates side by side, and has to become the same bytes
as in the first build. So from the lowest crate up each is what a build from nothing makes. Of these libraries `bindings/build` then makes
the second archive. No copy has a commit.

    tests/bindings/same_bytes.py             the library: an hour or more, where `rt lib` left what is below it; else two
    tests/bindings/same_bytes.py --small     a library of two small crates, in minutes
    tests/bindings/same_bytes.py --wrong     the same, and then by wrong builds, which the comparison has to find

It ends with status 1 where a byte differs."""

import argparse
import os
import shutil
import subprocess
import sys
import tempfile
import time
from concurrent.futures import ThreadPoolExecutor
from pathlib import Path

sys.path.insert(0, str(Path(__file__).resolve().parents[1]))
from lib import kit, libraries
from lib.program import ROOT

SCRIPT = "bindings/build"
CRATE = "ffi_exports"
COPIED = ("bindings", "tests/lib")
LEFT_OUT = shutil.ignore_patterns("target", "*.a", "__pycache__")
# A library of two crates.
SMALL_CRATES = "number:\nffi_exports staticlib: number core\n"
SMALL = {
    "number": """//! A number.
#![tactic(auto)]

ghost use Rattle.std.specs.Prelude.{◌≡◌};

/// Returns the version.
pub fn version() -> u32
    ensures { result ≡ 4 }
{
    4
}
""",
    CRATE: """//! A library of one function.
#![tactic(auto)]

ghost use Rattle.std.specs.Prelude.{◌≡◌};

use number::version;

/// Returns the version.
#[unsafe(no_mangle)]
pub extern "C" fn simplex_version() -> u32
    ensures { result ≡ 4 }
{
    version()
}
""",
}
# A file of the second build's tree, a text of it, and what is put in its place.
WRONG_BODIES = (
    (SCRIPT, 'kit {version}"; }}', 'kit {version}; {ROOT}"; }}'),
    (SCRIPT, '"rcsD"', '"rcsU"'),
    (SCRIPT, '"-O2", "-c", source', '"-g", "-O2", "-c", source'),
    ("crates/number/src/lib.rt", "    4\n", "    2 + 2\n"),
)


# The environment with the kit of this machine.
OUTSIDE = dict(os.environ)


class Differ(Exception):
    """Two builds are not the same bytes."""


def small_repository(folder):
    """Makes a repository of a small library."""
    for name, text in SMALL.items():
        source = folder / "crates" / name / "src"
        source.mkdir(parents=True)
        (source / "lib.rt").write_text(text)
    (folder / "crates.txt").write_text(SMALL_CRATES)
    shutil.copy(ROOT / "HANDLES", folder)
    return folder


def kit_without_work(folder):
    """The kit at another path. What it kept of earlier proofs is beside its own folder, so this one finds nothing."""
    here = kit.folder()
    folder.mkdir(parents=True)
    for part in here.iterdir():
        if part.name == "bin":
            shutil.copytree(part, folder / "bin")
        else:
            (folder / part.name).symlink_to(part)
    return folder


def crate_of(rt, root, name):
    """A crate of a repository, as the kit sees it."""
    return rt.rtlib.Crate(str(root / "crates" / name), str(root), {})


def copied(root, tree, names):
    """Copies what the library is built of to a folder, and the scripts that build it."""
    libraries.add_crates({CRATE, *names}, root, tree)
    for name in COPIED:
        shutil.copytree(ROOT / name, tree / name, ignore=LEFT_OUT)
    return tree


def first_build(rt, root, names, room):
    """Copies the library's sources, with the libraries below it: those of the repository, if all have the stamp of its sources, or those that
    `rt lib` makes, the lowest first."""
    tree = copied(root, room / "first", names)
    here = [crate_of(rt, root, name) for name in names]
    if all(it.is_built() for it in here):
        libraries.lend(here, tree)
    else:
        for it in sorted(here, key=lambda it: len(it.below())):
            subprocess.run(["rt", "lib"], cwd=tree / "crates" / it.name, env=OUTSIDE, check=True)
    return tree


def make_anew(rt, first, second, names, room):
    """Makes the libraries of the second build, each of which is the same bytes as the first build's, the longest proofs first."""
    by_size = sorted(names, key=lambda name: -crate_of(rt, first, name).count(b"\n"))
    with ThreadPoolExecutor(len(os.sched_getaffinity(0))) as pool:
        made = [*pool.map(lambda name: made_anew(rt, name, first, second, room / name), by_size)]
    libraries.lend(made, second)


def made_anew(rt, name, first, second, tree):
    """Proves and compiles a crate of the second build in a tree of its own, over the first build's libraries, as `rt lib` does; the crate there."""
    old, begun = crate_of(rt, first, name), time.monotonic()
    libraries.add_crates({name, *(it.name for it in old.below())}, second, tree)
    libraries.lend(old.below(), tree)
    new = crate_of(rt, tree, name)
    with tempfile.TemporaryFile("w+", errors="replace") as new.out:
        if new.build_rlib(["--jobs", "1"], anew=False):
            new.out.seek(0)
            raise Differ(f"{name} is not proved: {new.out.read()[-2000:]}")
    compare_folders(name, Path(old.rlib), Path(new.rlib))
    print(f"same_bytes: {name}: the same bytes, {time.monotonic() - begun:.0f} s", flush=True)
    return new


def compare_folders(name, one, other):
    """Raises `Differ` where two folders have other files, or a file has other bytes."""
    files = [sorted(it.relative_to(folder) for it in folder.rglob("*") if it.is_file()) for folder in (one, other)]
    if files[0] != files[1]:
        raise Differ(f"the library of {name} has other files: {sorted({*files[0]} ^ {*files[1]})[:3]}")
    for file in files[0]:
        compare(f"{name}, {file}", (one / file).read_bytes(), (other / file).read_bytes())


def compare(name, one, other):
    """Raises `Differ` where two texts of bytes differ."""
    if one != other:
        shorter = min(len(one), len(other))
        place = next((at for at in range(shorter) if one[at] != other[at]), shorter)
        found = f"{one[place:place + 30]!r} and {other[place:place + 30]!r}"
        raise Differ(f"{name}: {len(one)} and {len(other)} bytes; from byte {place} on {found}")


def archive_of(tree, environment):
    """The bytes of the archive that the build script of a tree makes."""
    archive = tree / "libsimplex.a"
    done = subprocess.run([tree / SCRIPT, "--out", archive], env=environment, stdout=subprocess.DEVNULL)
    if done.returncode:
        raise Differ(f"{tree / SCRIPT} ended with {done.returncode}")
    return archive.read_bytes()


def size_of_both(rt, first, names, room, change=None):
    """Makes the second build, of sources in which a text may be changed, and both archives; their size. Raises `Differ` where a byte differs."""
    second = copied(first, room / "second/elsewhere", names)
    if change:
        file, old, new = change
        (second / file).write_text((second / file).read_text().replace(old, new))
    make_anew(rt, first, second, names, room / "anew")
    with ThreadPoolExecutor() as pool:
        one, other = pool.map(archive_of, (first, second), (OUTSIDE, os.environ))
    compare("libsimplex.a", one, other)
    return len(one)


def unfound(rt, first, names, room):
    """The wrong builds that the comparison does not find."""
    for number, change in enumerate(WRONG_BODIES):
        file, old, new = change
        if (first / file).read_text().count(old) != 1:
            yield f"{file}: {old!r} is not there once"
            continue
        try:
            size_of_both(rt, first, names, room / str(number), change)
            yield f"{file}: {old!r} as {new!r} is not found"
        except Differ as found:
            print(f"{old!r} -> {new!r}: {found}", flush=True)


def faults_of(given, room):
    """What is wrong with both builds, and which wrong builds are not found. The kit at another path is the one that this process uses."""
    os.environ["PATH"] = f"{kit_without_work(room / 'another/kit')}/bin:{os.environ['PATH']}"
    rt = kit.guarded()
    root = small_repository(room / "small") if given.small or given.wrong else ROOT
    names = {it.name for it in crate_of(rt, root, CRATE).below()}
    first = first_build(rt, root, names, room)
    try:
        print(f"same_bytes: two proved builds of {size_of_both(rt, first, names, room)} bytes, of {len(names)} libraries", flush=True)
    except Differ as found:
        yield str(found)
    if given.wrong:
        yield from unfound(rt, first, names, room / "wrong")


def main():
    parser = argparse.ArgumentParser(description=__doc__, formatter_class=argparse.RawDescriptionHelpFormatter)
    parser.add_argument("--small", action="store_true", help="a library of two small crates")
    parser.add_argument("--wrong", action="store_true", help="the small one, and by wrong builds too")
    given = parser.parse_args()
    begun = time.monotonic()
    with tempfile.TemporaryDirectory() as room:
        faults = [*faults_of(given, Path(room))]
    print("".join(f"  {fault}\n" for fault in faults), end="")
    print(f"same_bytes: {len(faults)} wrong; {time.monotonic() - begun:.0f} s")
    sys.exit(1 if faults else 0)


if __name__ == "__main__":
    main()
