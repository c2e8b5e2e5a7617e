#!/usr/bin/env python3
"""Tests that `bindings/release` makes a folder that needs nothing else, and the same bytes each time.

Two releases of one archive, made in two places with other masks for modes, have the same files, modes and times. The sums are right, and a
changed file is found by them. What was proved names the archive and what it says of itself. From the folder alone, moved elsewhere, the C
package and what installs it are tried as `tests/bindings/languages.py` does, and Debian's packages are built; a host is compiled against these. A
folder that is not empty, an archive of unknown origin, and a gate's output without a count are refused, and nothing is written.

    tests/bindings/release.py [--archive PATH]     without an archive one is built, unproved, in some minutes
    tests/bindings/release.py --wrong              each wrong body of a table, in a copy: a test has to fail

It ends with status 1 where something is not as it has to be."""

import argparse
import hashlib
import json
import shutil
import subprocess
import sys
import tempfile
from pathlib import Path

sys.path.insert(0, str(Path(__file__).resolve().parents[1]))
import languages
from lib.program import ROOT

SCRIPT = "bindings/release"
WRONG_BODIES = (
    (SCRIPT, "os.utime(path, (moment, moment))", "pass"),
    (SCRIPT, "path.chmod(0o755", "str(0o755"),
    (SCRIPT, "or any(given.out.iterdir()))", "or False)"),
    (SCRIPT, 'is_proved": kind == "proved"', 'is_proved": "proved" in kind'),
    (SCRIPT, "if not counts:", "if counts == 0:"),
    (SCRIPT, "files = sorted(path for path in out.rglob(\"*\") if path.is_file())", "files = sorted(path for path in out.glob(\"*\") if path.is_file())"),
    (SCRIPT, 'COPIED = ("Makefile", "c",', 'COPIED = ("Makefile",'),
    ("bindings/c/include/simplex.h", "/** What simplex_version returns", "/* What simplex_version returns"),
    ("bindings/packaging/debian/libsimplex5.install", "libsimplex.so.5", "libsimplex.so"),
    ("bindings/packaging/debian/rules", "LIBDIR=/usr/lib/$(DEB_HOST_MULTIARCH)", "LIBDIR=/usr/lib"),
)


def made(tree, out, archive, *words, umask="022"):
    """Makes a release by the script of a tree."""
    command = ["bash", "-c", f'umask {umask}; exec "$@"', "-", tree / SCRIPT, "--out", out, "--archive", archive, *words]
    return subprocess.run([str(it) for it in command], capture_output=True, text=True)


def listing(folder):
    """Each path of a folder, with its mode, its time and its bytes."""
    return {
        str(path.relative_to(folder)): (path.stat().st_mode, int(path.stat().st_mtime), path.read_bytes() if path.is_file() else b"")
        for path in sorted(folder.rglob("*"))
    }


def sameness_faults(tree, archive, room):
    """What is wrong with two releases of one archive; the first is left in `room`."""
    first, second = room / "first/it", room / "second/elsewhere/it"
    for out, umask in ((first, "022"), (second, "077")):
        out.parent.mkdir(parents=True)
        done = made(tree, out, archive, umask=umask)
        if done.returncode:
            yield f"no release: {done.stderr[-1000:]}"
            return
    here, there = listing(first), listing(second)
    differing = [name for name in sorted({*here, *there}) if here.get(name) != there.get(name)]
    if differing:
        yield f"two releases differ in {', '.join(differing[:5])}"
    moments = {moment for _, moment, _ in here.values()}
    if len(moments) != 1:
        yield f"files have {len(moments)} times"


def sum_faults(folder):
    """Whether the sums find each change."""
    def test():
        return subprocess.run(["sha256sum", "--check", "--quiet", "SHA256SUMS"], cwd=folder, capture_output=True).returncode
    listed = {line.split("  ", 1)[1] for line in (folder / "SHA256SUMS").read_text().splitlines()}
    there = {str(path.relative_to(folder)) for path in folder.rglob("*") if path.is_file()} - {"SHA256SUMS"}
    if listed != there:
        yield f"SHA256SUMS leaves out {sorted(there - listed)[:3]}"
    if test():
        yield "a sum is wrong"
    changed = folder / "c/include/simplex.h"
    if changed.is_file():
        right = changed.read_bytes()
        changed.write_bytes(right + b"\n")
        if not test():
            yield "a changed header has the right sum"
        changed.write_bytes(right)


def proof_faults(folder, archive):
    """What is wrong with the statement of what was proved."""
    proof, held = json.loads((folder / "PROOF.json").read_text()), archive.read_bytes()
    if proof["archive"]["sha256"] != hashlib.sha256(held).hexdigest() or (folder / "libsimplex.a").read_bytes() != held:
        yield "PROOF.json is of another archive"
    is_proved = b"unproved; commit" not in held
    if proof["is_proved"] != is_proved or ("NOT PROVED" in (folder / "PROOF.txt").read_text()) == is_proved:
        yield "the statement does not say whether the archive is proved"
    if len(proof["theorems"]) < 9 or not proof["trusted"] or proof["gate"] is not None:
        yield "the statement has no theorems or no trust, or names a gate that nobody gave"


def refusal_faults(tree, archive, room):
    """What is not refused, or not left as it was."""
    taken = room / "taken"
    taken.mkdir()
    (taken / "mine").write_text("mine")
    if made(tree, taken, archive).returncode != 1 or [path.name for path in taken.iterdir()] != ["mine"]:
        yield "a folder that is not empty is written to"
    other, gate = room / "other.a", room / "gate"
    other.write_bytes(b"!<arch>\n")
    gate.write_text("rt: nothing is counted here\n")
    for what, words in (("an archive of unknown origin", (other,)), ("a gate without a count", (archive, "--gate", gate))):
        out = room / "refused"
        done = made(tree, out, *words)
        if done.returncode != 1 or out.exists() or "Traceback" in done.stderr:
            yield f"{what} is not refused in words: {done.stderr[-300:]}"
    gate.write_text("12 passed, 0 failed\nrt: and then\n87 passed, 1 failed\n")
    done = made(tree, room / "counted", archive, "--gate", gate)
    if done.returncode or json.loads((room / "counted/PROOF.json").read_text())["gate"] != "87 passed, 1 failed":
        yield "the gate's last count is not in the statement"


def host_faults(folder, room):
    """What the packages of the folder, moved elsewhere, do wrong."""
    if not (folder / "c/include/simplex.h").is_file():
        yield "the folder has no header"
        return
    parts = [*languages.ready_parts(("C", "packaging"))]
    moved = room / "moved"
    shutil.copytree(folder, moved)
    hosts = room / "hosts"
    hosts.mkdir()
    it = languages.Trial(moved, moved / "libsimplex.a", hosts)
    for name in parts:
        languages.PARTS[name](it)
    if "C" not in it.hosts and "C" in parts:
        yield "no host in C is compiled"
    yield from it.faults


def reference_faults(folder, room):
    """What the reference of the C functions lacks, where it can be made here."""
    if not shutil.which("doxygen"):
        print("release: not tried: the reference, since doxygen is missing (bindings/setup installs it)")
        return
    out = room / "reference"
    done = subprocess.run(["make", "-s", "-C", folder, "reference", f"OUT={out}"], capture_output=True, text=True)
    page = out / "reference/simplex_8h.html"
    text = page.read_text() if page.is_file() else ""
    if done.returncode or "What simplex_version returns for this header" not in text:
        yield f"no reference: {done.stderr[-500:]}"


def debian_faults(folder, room):
    """What is wrong with Debian's packages, where they can be built here."""
    missing = [tool for tool in ("dpkg-buildpackage", "dh", "pkg-config") if not shutil.which(tool)]
    if not missing and subprocess.run(["dpkg-checkbuilddeps"], cwd=folder, capture_output=True).returncode:
        missing = ["a package that Debian's tools ask for"]
    if missing:
        print(f"release: not tried: Debian's packages, since {' and '.join(missing)} is missing (bindings/setup installs it)")
        return
    source, root = room / "debian/source", room / "debian/root"
    shutil.copytree(folder, source)
    done = subprocess.run(["dpkg-buildpackage", "-b", "-us", "-uc"], cwd=source, capture_output=True, text=True)
    packages = sorted(source.parent.glob("*.deb"))
    if done.returncode or len(packages) != 2:
        yield f"dpkg-buildpackage makes {len(packages)} packages: {(done.stdout + done.stderr)[-800:]}"
        return
    for package in packages:
        subprocess.run(["dpkg-deb", "-x", package, root], check=True)
    files = [path for path in root.rglob("*.pc")]
    surroundings = {"PATH": "/usr/bin:/bin", "PKG_CONFIG_LIBDIR": str(files[0].parent) if files else "", "PKG_CONFIG_SYSROOT_DIR": str(root)}
    asked = subprocess.run(["pkg-config", "--cflags", "--libs", "simplex"], capture_output=True, text=True, env=surroundings)
    host, example = room / "debian/host", folder / "c/examples/lives.c"
    compiled = subprocess.run(["cc", "-std=c11", example, *asked.stdout.split(), "-o", host], capture_output=True, text=True)
    libraries = [path.parent for path in root.rglob("libsimplex.so.5")]
    is_triplet = any("linux-gnu" in path.name for path in libraries)
    if compiled.returncode or not is_triplet:
        yield f"no host of Debian's packages: {asked.stderr}{compiled.stderr[-500:]}"
    elif subprocess.run([host, "50"], env={"LD_LIBRARY_PATH": str(libraries[0])}, capture_output=True).returncode:
        yield "a host of Debian's packages fails"
    elif not list(root.rglob("doc/libsimplex5/PROOF.txt*")):
        yield "libsimplex5 has no PROOF.txt"


def faults(tree, archive, room):
    """What is not as it has to be."""
    found = [*sameness_faults(tree, archive, room)]
    folder = room / "first/it"
    if not (folder / "SHA256SUMS").is_file():
        return found
    found += [*sum_faults(folder), *proof_faults(folder, archive), *refusal_faults(tree, archive, room)]
    return found + [*host_faults(folder, room), *reference_faults(folder, room), *debian_faults(folder, room)]


def copied(folder):
    """A copy of what the script reads of the repository."""
    ignored = shutil.ignore_patterns("target", "out", "*.a", "__pycache__")
    for name in ("bindings", "docs", "crates"):
        shutil.copytree(ROOT / name, folder / name, ignore=ignored)
    for name in ("LICENSE", "NOTICE", "CHANGELOG.md", "SECURITY.md"):
        shutil.copy(ROOT / name, folder / name)


def wrong_bodies(archive, room):
    """The wrong bodies that no test finds."""
    for place, (file, old, new) in enumerate(WRONG_BODIES):
        folder = room / f"wrong-{place}"
        copied(folder)
        path = folder / file
        if path.read_text().count(old) != 1:
            yield f"{file}: {old!r} is not there once"
            continue
        path.write_text(path.read_text().replace(old, new))
        (room / f"trial-{place}").mkdir()
        found = faults(folder, archive, room / f"trial-{place}")
        print(f"{old!r} -> {new!r}: {found[0][:160] if found else 'NOT FOUND'}", flush=True)
        if not found:
            yield f"{file}: {old!r} as {new!r} is not found"


def main():
    parser = argparse.ArgumentParser(description=__doc__, formatter_class=argparse.RawDescriptionHelpFormatter)
    parser.add_argument("--archive", type=Path, help="the library, if it is built already")
    parser.add_argument("--wrong", action="store_true", help="try the wrong bodies")
    given = parser.parse_args()
    subprocess.run([ROOT / "bindings/setup"], capture_output=True)
    with tempfile.TemporaryDirectory() as room:
        room = Path(room)
        archive = given.archive and given.archive.resolve() or room / "libsimplex.a"
        if not given.archive:
            subprocess.run([ROOT / "bindings/build", "--unproved", "--out", archive], check=True)
        found = [*wrong_bodies(archive, room)] if given.wrong else faults(ROOT, archive, room)
    for it in found:
        print(it)
    print(f"release: {len(found)} not as they have to be")
    sys.exit(1 if found else 0)


if __name__ == "__main__":
    main()
