#!/usr/bin/env python3
"""Unpacks the compiler that `rust-version` of the Rust package names, from Debian's packages, for `tests/bindings/languages.py`.

Debian 12 has two versions of `rustc-web`: this one in its main archive, a newer one among its security updates. Only one of them can be
installed, so the older one and what it depends on are downloaded and unpacked into a folder of the user's caches; nothing is installed. They hold
links, which `rt ci` refuses below a repository, whatever git ignores.

    tests/bindings/oldest_rust.py     unpacks it where that is not done yet, and prints the folder

It ends with status 77 where Debian's packages can't be had."""

import os
import re
import shutil
import subprocess
import sys
import tempfile
from pathlib import Path

sys.path.insert(0, str(Path(__file__).resolve().parents[1]))
from lib.program import ROOT

SKIPPED = 77
PACKAGE = ROOT / "bindings/rust"
CACHES = Path(os.environ.get("XDG_CACHE_HOME") or Path.home() / ".cache") / "simplex-view-state"
COMPILER, BESIDE = "rustc-web", ("cargo-web", "libstd-rust-web-dev")


class Missing(Exception):
    """The compiler can't be had, and why."""


def version():
    """The version that the package's manifest names."""
    return re.search(r'^rust-version = "([\d.]+)"$', (PACKAGE / "Cargo.toml").read_text(), re.MULTILINE)[1]


def unpacked():
    """The folder with the compiler of that version, which is made once."""
    folder = CACHES / f"rust-{version()}"
    if not folder.is_dir():
        folder.parent.mkdir(parents=True, exist_ok=True)
        with tempfile.TemporaryDirectory(dir=folder.parent) as room:
            unpack(listed_version(), Path(room))
            (Path(room) / "root").rename(folder)
    said = subprocess.run([folder / "usr/bin/rustc", "--version"], env=environment(folder), capture_output=True, text=True)
    if not said.stdout.startswith(f"rustc {version()}."):
        raise Missing(f"{folder}/usr/bin/rustc is not {version()}: {said.stdout}{said.stderr}")
    return folder


def listed_version():
    """Debian's name of that version."""
    for update in (False, True):
        if update:
            as_root = ["sudo"] if os.geteuid() and shutil.which("sudo") else []
            subprocess.run([*as_root, "apt-get", "update", "--quiet=2"], capture_output=True)
        rows = subprocess.run(["apt-cache", "madison", COMPILER], capture_output=True, text=True).stdout.splitlines()
        for found in (row.split("|")[1].strip() for row in rows):
            if found.startswith(f"{version()}."):
                return found
    raise Missing(f"Debian lists no {COMPILER} {version()}")


def unpack(wanted, room):
    """Unpacks the packages, and those that they depend on and the machine does not have, into `root`."""
    (room / "archives/partial").mkdir(parents=True)
    names = [f"{name}={wanted}" for name in (COMPILER, *BESIDE)]
    options = ["-o", f"Dir::Cache::Archives={room}/archives", "-o", "Debug::NoLocking=1"]
    done = subprocess.run(["apt-get", "install", "--yes", "--download-only", "--reinstall", "--allow-downgrades", "--no-install-recommends", *options, *names],
                          capture_output=True, text=True)
    if done.returncode:
        raise Missing(f"{COMPILER} {wanted} can't be downloaded: {done.stderr.strip()[-300:]}")
    for package in sorted((room / "archives").glob("*.deb")):
        subprocess.run(["dpkg-deb", "--extract", package, room / "root"], check=True)


def environment(folder):
    """The environment in which cargo takes the compiler of a folder."""
    libraries = [*map(str, folder.glob("usr/lib/*-linux-gnu")), *filter(None, [os.environ.get("LD_LIBRARY_PATH")])]
    tools = {"RUSTC": f"{folder}/usr/bin/rustc", "RUSTDOC": f"{folder}/usr/bin/rustdoc"}
    return {**os.environ, **tools, "PATH": f"{folder}/usr/bin:{os.environ['PATH']}", "LD_LIBRARY_PATH": ":".join(libraries)}


def main():
    try:
        print(unpacked())
    except (Missing, OSError) as error:
        print(f"oldest_rust: {error}")
        sys.exit(SKIPPED)


if __name__ == "__main__":
    main()
