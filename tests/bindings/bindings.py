#!/usr/bin/env python3
"""Compares the replies of the library, called from C and Rust, with those of the program, called by lines.

The scripts of the repository's tests that ask a voter, and random ones, are served by `viewstate`, by `bindings/c/examples/script.c` and
by the example of the Rust package, once with restarts in place and once with each restart of nothing by a resume from the journal's bytes:
the replies are the same, byte for byte. Other random scripts are served with a journal in whose place each `prune` puts what is left of the
record, and from which the member resumes at each restart: the replies are those of a member that keeps its whole record. Random inputs and
questions are served by an engine in Rattle (`tests/programs/engine_lines`) and by one of the package, with lifetimes from what was stored: the
replies are the same, and each kind of output is among them. `bindings/c/examples/lives.c` begins and frees many members and engines, and passes
what has to be refused; under valgrind it neither errs nor loses a byte. `out_of_memory.c` beside it has each request for memory of an engine
refused, one in each of many runs. The package's own tests and lints run too. The archive says of itself what it is, a build shows its progress, and
one without the kit says so in a line. And callers are built with two kinds of calls, of inputs and of
outputs swapped, which the comparisons have to find.

    tests/bindings/bindings.py [--program PATH] [--engine-lines PATH] [--archive PATH] [--again]

Without an archive one is built, unproved, in a minute or two, and then another, which has to have the same bytes; so too by --again.

It ends with status 1 where replies differ, or where less was tried than is asked for. Where `cargo` or `cc` is missing it says so in one
line, and tries nothing of it."""

import argparse
import os
import random
import re
import shutil
import subprocess
import sys
import tempfile
import time
from collections import Counter
from concurrent.futures import ThreadPoolExecutor
from pathlib import Path

sys.path.insert(0, str(Path(__file__).resolve().parents[1]))
from lib import program, scripts
from lib.floors import lacking
from lib.program import ROOT

BINDINGS = ROOT / "bindings"
NETWORKS = (("4", "0", "1", "0"), ("7", "2", "5", "2"), ("5", "4", "3", "1"), ("4", "-", "2", "2"), ("10", "3", "10", "4"))
RANDOM_SCRIPTS, RANDOM_LINES = 4, 500
MEMBERS = 10_000
ENGINES, ENGINE_LINES = (("4", "0", "1", "0"), ("4", "1", "3", "2"), ("7", "2", "5", "4"), ("1", "0", "1", "0"), ("5", "9", "2", "0")), 1000
GIVEN = ("store", "replace", "vote", "broadcast", "verify", "build", "stop", "certify", "fetch", "finalized", "equivocated", "twice", "forget")
LEAST = {
    "engine's lines": 10_000, **{f"'{kind}'": 10 for kind in GIVEN}, "resumes": 50, "engines": MEMBERS // 2, "requests refused": 500,
    "scripts": 80, "random lines": 10_000, "comparisons": 400, "entries taken away": 1000, "resolver's lines": 6000, "members": MEMBERS,
}
# How long a build may write nothing, in seconds.
LONGEST_SILENCE = 30
SWAPPED = ("CONSTRUCT_NOTARIZE", "CONSTRUCT_FINALIZE")
SWAPPED_OF_ENGINES = (("input.rs", "{ .. } => 4,", "{ .. } => 6,"), ("output.rs", " 8 => Output::", " 10 => Output::"))
TIMED = ("nullification", "finalization", "proposed", "rejected", "verdict", "trigger", "timeout", "restart", "restart-pruned")
REASONS = ("Retry", "Inactivity", "LeaderNullify", "MissingProposal", "FailedCertification")


def random_script(seed, length=RANDOM_LINES, rise=0.03):
    """Lines round a view that rises: calls of every kind, and now and then a restart."""
    drawn, now, base, lines = random.Random(seed), 0, 1, []
    for place in range(length):
        now += drawn.randrange(40)
        base += drawn.randrange(3) if drawn.random() < rise else 0
        view = max(0, base + drawn.randrange(-2, 5))
        block = f"{view} {max(0, view - drawn.choice((1, 1, 1, 1, 2, 3)))} {drawn.choice((view, view, view, view + 100))}"
        lines.append(drawn.choice((
            f"notarization {block}", f"notarization {block}", f"nullification {view} {now}", f"finalization {block} {now}", f"proposal {block}",
            f"proposal {block}", "propose", f"proposed {view} {view} {now}", "verify", "verify", f"verified {view}", f"rejected {view} {now}",
            f"supersede {view}", f"abandon {view}", f"release {view}", f"notarize {view}", f"notarize {view}", f"nullify {view}", f"finalize {view}",
            "candidates", f"token {view} {place}", f"verdict {view} {'true' if drawn.random() < 0.8 else 'false'} {now}", f"verdict {view} true {now}",
            f"broadcast {drawn.choice(('notarization', 'nullification', 'finalization'))} {view}", "best",
            f"trigger {view} {drawn.choice(REASONS)} {now}", f"timeout {now}", "prune", "record", "view",
            drawn.choice((f"restart 0 {now}", f"restart 1 {now}", f"restart-pruned 0 {now}", "view", "view", "view", "view")),
        )))
    return lines


def compacting_script(seed, length=2 * RANDOM_LINES):
    """Lines as above, but that each restart prunes, as a record that was pruned within its life asks for, and nothing tells its length; a
    view is finalized now and then, so that there is something to prune."""
    drawn, now, lines = random.Random(seed), 0, []
    for line in random_script(seed, length, rise=0.15):
        words = line.split()
        if words[0] == "record" or words[0].startswith("restart"):
            lines.append(f"restart-pruned 0 {now}" if drawn.random() < 0.5 else "prune")
        elif words[0] == "notarization" and drawn.random() < 0.2:
            lines.append(f"finalization {' '.join(words[1:])} {now}")
        else:
            lines.append(line)
        now = max([now, *(int(word) for word in words[-1:] if word.isdigit() and words[0] in TIMED)])
    return lines


def resolver_script(seed, length=RANDOM_LINES):
    """Lines for a resolver whose replay has ended: certificates and verdicts round a view that rises, and what it is asked."""
    drawn, base, lines = random.Random(seed), 3, ["replayed"]
    for _ in range(length - 1):
        base += drawn.randrange(3) if drawn.random() < 0.1 else 0
        view = max(0, base + drawn.randrange(-3, 9))
        lines.append(drawn.choice((
            f"notarization {view}", f"nullification {view}", f"nullification {view}", f"certified {view} {'true' if drawn.random() < 0.7 else 'false'}",
            f"finalization {max(0, view - 6)}" if drawn.random() < 0.3 else f"nullification {view}", f"settled {view} notarization",
            f"settled {view} nullification", f"key-settled {view}", f"uncertifiable {view}", "outstanding",
        )))
    return lines


def engine_script(network, seed, length=ENGINE_LINES):
    """Lines for an engine: inputs round a view that rises, most of them not ignored, polls, and questions."""
    members, me, term, _ = (int(word) for word in network)
    drawn, now, base, lines = random.Random(seed), 0, 1, []
    for _ in range(length):
        now += drawn.choice((0, 0, 1, 5, 40, 600)) if drawn.random() < 0.4 else 0
        base += drawn.random() < 0.06
        view = max(0, base + drawn.choice((-2, -1, -1, 0, 0, 0, 0, 1, 1, 2, 3)))
        before = max(0, view - drawn.choice((1, 1, 1, 1, 1, 2)))
        block = f"{view} {before} {view if drawn.random() < 0.9 else view + 100}"
        leader, size = max(0, view - 1) // term % members, drawn.randrange(1, 4) if drawn.random() < 0.95 else 200
        vote = f"vote {drawn.choice((1, 1, 2, 3))} {drawn.choice((me, leader, drawn.randrange(members + 1)))} {block} {size} {now}"
        lines.append(drawn.choice((
            *[f"poll {now}"] * 12, *[vote] * 6, f"certificate {drawn.choice((1, 1, 2, 3))} {block} {size} {now}",
            f"proposal {leader if drawn.random() < 0.9 else me} {block} {now}", f"proposal {leader} {block} {now}",
            f"verified {view} {int(drawn.random() < 0.9)} {now}", f"verified {view} 1 {now}",
            f"built {view} {before} {before} {leader} {view} {now}", f"certified {view} {int(drawn.random() < 0.9)} {now}", f"certified {view} 1 {now}",
            f"given-up {view} {drawn.randrange(10)} {now}" if drawn.random() < 0.3 else f"poll {now}",
            drawn.choice(("status", f"open {drawn.randrange(3)}", f"view {view}", f"withheld {drawn.choice((1, 2, 3))} {view}", f"shown {drawn.choice((1, 2, 3))} {view}", f"served {view}")),
            f"resume {now}" if drawn.random() < 0.3 else "status",
        )))
    return lines


def serve(command, lines):
    """A caller that has served lines."""
    return subprocess.run(command, input="".join(f"{line}\n" for line in lines).encode(), capture_output=True, check=False)


def run(command, lines):
    """What a caller writes, with its status."""
    ended = serve(command, lines)
    return ended.returncode, ended.stdout


def differing(path, callers, arguments, lines):
    """The callers whose replies to the lines are not the program's, each with the first line that they differ in."""
    wanted = run((path, *arguments), lines)
    for name, command in callers.items():
        found = run((*command[:1], *arguments, *command[1:]), lines)
        if found != wanted:
            pairs = zip(lines, wanted[1].decode().splitlines(), found[1].decode().splitlines())
            first = next((f"{line!r}: {reply!r}, and not {other!r}" for line, reply, other in pairs if reply != other), f"it ended with {found[0]}")
            yield f"{name} {' '.join(arguments)}: {first}"


def compiled(source, include, archive, made):
    """A caller in C."""
    subprocess.run(["cc", "-std=c11", "-Wall", "-Wextra", "-Werror", "-O2", f"-I{include}", source, archive, "-o", made], check=True)
    return made


def cargo(folder, target, archive, *words):
    """Runs cargo in a package, over the archive; nothing is taken from a network."""
    surroundings = {**os.environ, "SIMPLEX_ARCHIVE": str(archive), "CARGO_TARGET_DIR": str(target), "CARGO_NET_OFFLINE": "true"}
    subprocess.run(["cargo", *words], cwd=folder, env=surroundings, check=True, stdout=subprocess.DEVNULL, stderr=subprocess.PIPE)


def rust_caller(folder, target, archive, example="first_script"):
    """An example of the package."""
    cargo(folder, target, archive, "build", "--quiet", "--example", example)
    return target / "debug/examples" / example


def swapped(text, one=SWAPPED[0], other=SWAPPED[1]):
    """A text in which two kinds have each other's names or numbers."""
    return text.replace(one, "\0").replace(other, one).replace("\0", other)


def wrong_callers(room, archive):
    """Both callers with two kinds swapped where their numbers are declared."""
    include, package = room / "wrong-include", room / "wrong-package"
    include.mkdir()
    header = (BINDINGS / "c/include/simplex.h").read_text()
    (include / "simplex.h").write_text("".join(swapped(line) if "CONSTRUCT_" in line else line for line in header.splitlines(keepends=True)))
    shutil.copytree(BINDINGS / "rust", package, ignore=shutil.ignore_patterns("target"))
    member = package / "src/member.rs"
    member.write_text("".join(swapped(line) if "const CONSTRUCT_" in line else line for line in member.read_text().splitlines(keepends=True)))
    yield "C", (compiled(BINDINGS / "c/examples/script.c", include, archive, room / "wrong_script"),)
    yield "Rust", (rust_caller(package, room / "wrong-target", archive),)


def wrong_engines(room, archive):
    """Callers of engines with two kinds of inputs, or of outputs, swapped."""
    for name, one, other in SWAPPED_OF_ENGINES:
        package = room / f"wrong-{name}"
        shutil.copytree(BINDINGS / "rust", package, ignore=shutil.ignore_patterns("target"))
        source = package / "src/engine" / name
        source.write_text(swapped(source.read_text(), one, other))
        yield name, rust_caller(package, room / f"wrong-{name}-target", archive, "engine_lines")


def compare(path, callers, pool):
    """What was compared, and what differs."""
    voters = [(it.arguments, it.lines[:len(it.replies)]) for it in scripts.all_scripts() if it.is_voter]
    drawn = [(("voter", *network), random_script(100 * place + seed)) for place, network in enumerate(NETWORKS) for seed in range(RANDOM_SCRIPTS)]
    faults = pool.map(lambda it: [*differing(path, callers, *it)], [*voters, *drawn])
    comparisons = len(callers) * (len(voters) + len(drawn))
    seen = Counter({"scripts": len(voters), "random lines": sum(len(lines) for _, lines in drawn), "comparisons": comparisons})
    return seen, [fault for found in faults for fault in found]


def compare_compactions(path, callers, pool):
    """How many entries were taken away of records within a lifetime, and what differs from members that kept theirs whole."""
    drawn = [(("voter", *network), compacting_script(1000 + 100 * place + seed)) for place, network in enumerate(NETWORKS) for seed in range(RANDOM_SCRIPTS)]
    faults = pool.map(lambda it: [*differing(path, callers, *it)], drawn)
    taken = pool.map(lambda it: [taken_away((*command[:1], *it[0], *command[1:]), it[1]) for command in callers.values()], drawn)
    return Counter({"entries taken away": sum(min(counts) for counts in taken)}), [fault for found in faults for fault in found]


def taken_away(command, lines):
    """How many entries a caller with a journal took away."""
    ended = serve(command, lines)
    return int(ended.stderr.split()[0]) if ended.returncode == 0 else 0


def compare_resolvers(path, caller):
    """What was compared of resolvers, and what differs."""
    tried = [(("resolver", length), resolver_script(seed)) for length in ("1", "2", "5") for seed in range(4)]
    faults = [fault for it in tried for fault in differing(path, {"Rust": (caller,)}, *it)]
    return Counter({"resolver's lines": sum(len(lines) for _, lines in tried)}), faults


def compare_engines(path, caller, pool):
    """What was compared of engines, which outputs were seen, and what differs."""
    tried = [(network, engine_script(network, 100 * place + seed)) for place, network in enumerate(ENGINES) for seed in range(2)]
    faults = pool.map(lambda it: [*differing(path, {"an engine in Rust": (caller,)}, *it)], tried)
    answers = Counter(line.split()[0] for network, lines in tried for line in run((path, *network), lines)[1].decode().splitlines())
    seen = Counter({f"'{kind}'": answers[kind] for kind in GIVEN})
    return seen + Counter({"engine's lines": sum(len(lines) for _, lines in tried), "resumes": answers["resumed"]}), [it for found in faults for it in found]


def try_lives(room, archive):
    """What the caller that begins and frees many members does, under valgrind where that is there, and how long it takes."""
    begun = time.monotonic()
    lives = compiled(BINDINGS / "c/examples/lives.c", BINDINGS / "c/include", archive, room / "lives")
    watch = ["valgrind", "-q", "--leak-check=full", "--error-exitcode=9"] if shutil.which("valgrind") else []
    ended = subprocess.run([*watch, lives, str(MEMBERS)], stdout=subprocess.PIPE, check=False)
    if ended.returncode:
        return Counter(), [f"lives.c ended with {ended.returncode}"]
    members, _, engines, _ = ended.stdout.split()
    print(f"{ended.stdout.decode().strip()} under {' '.join(watch[:1]) or 'no watch'}: {time.monotonic() - begun:.0f} s")
    return Counter({"members": int(members), "engines": int(engines)}), []


def try_out_of_memory(room, archive):
    """Runs an engine of which one request for memory is refused, for each request."""
    program = compiled(BINDINGS / "c/examples/out_of_memory.c", BINDINGS / "c/include", archive, room / "out_of_memory")
    ended = subprocess.run([program, "5"], stdout=subprocess.PIPE, check=False)
    if ended.returncode:
        return Counter(), [f"out_of_memory ended with {ended.returncode}"]
    return Counter({"requests refused": int(ended.stdout.split()[0])}), []


def package_faults(target, archive):
    """Which of the package's own tests and lints fail."""
    for words in (("test", "--quiet"), ("clippy", "--quiet", "--all-targets", "--", "-D", "warnings"), ("fmt", "--check"),
                  ("package", "--quiet", "--allow-dirty")):
        if shutil.which(f"cargo-{words[0]}") or words[0] in ("test", "package"):
            try:
                cargo(BINDINGS / "rust", target, archive, *words)
            except subprocess.CalledProcessError as error:
                yield f"cargo {words[0]}: {error.stderr.decode()[-2000:]}"


def built(made):
    """Builds an archive, unproved; what is wrong with how it was built."""
    begun = time.monotonic()
    done = subprocess.run([BINDINGS / "build", "--unproved", "--out", made], check=True, capture_output=True, text=True)
    sys.stdout.write(done.stdout)
    lines, least = len(done.stderr.splitlines()), (time.monotonic() - begun) / LONGEST_SILENCE
    return [] if lines >= least else [f"a build wrote {lines} lines of progress, where {least:.0f} are asked for"]


def refusal_faults(room):
    """What is wrong with how a build is refused where there is no kit."""
    tools = room / "no-kit"
    tools.mkdir()
    for tool in ("python3", "git", "ar"):
        (tools / tool).symlink_to(shutil.which(tool))
    made = room / "no-kit.a"
    done = subprocess.run([BINDINGS / "build", "--unproved", "--out", made], env={**os.environ, "PATH": str(tools)}, capture_output=True, text=True)
    if not done.returncode or made.exists():
        yield "a build without the kit is not refused"
    if len(done.stderr.splitlines()) != 1 or "`rt`" not in done.stderr or "/opt/rattle" not in done.stderr:
        yield f"a build without the kit says, in place of one line that names it: {done.stderr[-500:]}"


def name_faults(room, archive):
    """What is not as it has to be where the package is built over an archive of another name: one line says which names there are."""
    other = room / "lib.a"
    other.write_bytes(Path(archive).read_bytes())
    try:
        cargo(BINDINGS / "rust", room / "name-target", other, "build", "--quiet")
        yield "an archive named lib.a is not refused"
    except subprocess.CalledProcessError as error:
        if "is not named libNAME.a" not in error.stderr.decode():
            yield f"an archive named lib.a is refused without a word of its name: {error.stderr.decode()[-500:]}"


def info_faults(room, archive, is_of_now):
    """What is wrong with what an archive says of itself to C; one that was built just now is of the commit that is checked out."""
    source, asks = room / "info.c", room / "info"
    source.write_text('#include "simplex.h"\n#include <stdio.h>\nint main(void) { return puts(simplex_build_info()) < 0; }\n')
    said = subprocess.run([compiled(source, BINDINGS / "c/include", archive, asks)], capture_output=True, text=True, check=True).stdout.strip()
    commit = subprocess.run(["git", "rev-parse", "HEAD"], cwd=ROOT, capture_output=True, text=True).stdout.strip() or "unknown"
    commit = commit if is_of_now else "(?:[0-9a-f]{40}|unknown)"
    kit = subprocess.run(["rt", "version"], capture_output=True, text=True).stdout.strip()
    if not re.fullmatch(rf"(?:un)?proved; commit {commit}(?: with changes)?; kit {re.escape(kit)}", said):
        yield f"the archive says of itself: {said}"


def try_all(given, room, pool):
    """What was tried, and what is wrong."""
    path = program.find(given.program, room)
    archive = given.archive and given.archive.resolve() or room / "libsimplex.a"
    faults = [*refusal_faults(room)]
    again = room / "again.a"
    for made in [archive] * (not given.archive) + [again] * (given.again or not given.archive):
        faults += built(made)
    faults += [*info_faults(room, archive, is_of_now=again.exists()), *name_faults(room, archive)]
    if again.exists() and archive.read_bytes() != again.read_bytes():
        faults.append("two builds of the archive have other bytes")
    target = room / "target"
    in_c, in_rust = compiled(BINDINGS / "c/examples/script.c", BINDINGS / "c/include", archive, room / "script"), rust_caller(BINDINGS / "rust", target, archive)
    callers = {"C": (in_c,), "Rust": (in_rust,), "C, resumed": (in_c, "resume"), "Rust, resumed": (in_rust, "resume")}
    seen, differences = compare(path, callers, pool)
    compacted, lost = compare_compactions(path, {"C, compacted": (in_c, "compact"), "Rust, compacted": (in_rust, "compact")}, pool)
    resolved, others = compare_resolvers(path, rust_caller(BINDINGS / "rust", target, archive, "resolver"))
    engine = given.engine_lines and given.engine_lines.resolve() or Path(program.build_engine_lines(room))
    told, untold = compare_engines(engine, rust_caller(BINDINGS / "rust", target, archive, "engine_lines"), pool)
    lived, more = try_lives(room, archive)
    refused, unfit = try_out_of_memory(room, archive)
    faults += [*differences, *lost, *others, *untold, *more, *unfit, *package_faults(target, archive)]
    for name, command in wrong_callers(room, archive):
        if not compare(path, {name: command}, pool)[1]:
            faults.append(f"{name} with two kinds swapped is not distinguished from the right one")
    for name, caller in wrong_engines(room, archive):
        if not compare_engines(engine, caller, pool)[1]:
            faults.append(f"an engine with two kinds swapped in {name} is not distinguished from the right one")
    return seen + compacted + resolved + told + lived + refused, faults


def main():
    parser = argparse.ArgumentParser(description=__doc__, formatter_class=argparse.RawDescriptionHelpFormatter)
    program.add_option(parser)
    parser.add_argument("--archive", type=Path, help="the library, if it is built already")
    parser.add_argument("--engine-lines", type=Path, help="the program that calls an engine by lines, if it is built already")
    parser.add_argument("--again", action="store_true", help="the archive was built unproved: another build has to have the same bytes")
    parser.add_argument("--jobs", type=int, default=2, help="how many scripts go side by side")
    given = parser.parse_args()
    missing = [tool for tool in ("cargo", "cc") if not shutil.which(tool)]
    if missing:
        print(f"bindings: not tried, since {' and '.join(missing)} is not here")
        return 0
    start = time.monotonic()
    with tempfile.TemporaryDirectory() as folder, ThreadPoolExecutor(given.jobs) as pool:
        seen, faults = try_all(given, Path(folder), pool)
    faults += lacking(seen, LEAST)
    print(f"bindings: {', '.join(f'{count} {what}' for what, count in seen.items())}; {len(faults)} wrong; {time.monotonic() - start:.1f} s")
    print("".join(f"  {fault}\n" for fault in faults), end="")
    return 1 if faults else 0


if __name__ == "__main__":
    sys.exit(main())
