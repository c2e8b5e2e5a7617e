#!/usr/bin/env python3
"""That the packages for C, C++, Go and Python drive an engine as the Rust package does, and that they install.

Fixed scripts of inputs, drawn from numbers, are served by a host in each language (`engine_lines`): the replies are the same, byte for byte,
and each kind of output is among them. So are the lines of a member and of a resolver (`member_lines`; `script`, or `first_script`, and
`resolver` in C and Rust), with restarts in place, by a resume, and from a journal that is compacted, and the scripts of members in `tests/scripts`. A network of one engine and one of four, in one process, with a member that ends and resumes from its
disk, prints the same text in C, C++, Go and Python. Each package's own tests and lints run; C++ runs under the sanitizers of addresses and of
undefined behaviour. The Rust package's tests are built by the compiler that its `rust-version` names. Each status of the header has a text. The shared library and the archive are installed in a folder, and a host is
compiled against each by pkg-config, and by CMake.

    tests/bindings/languages.py [--archive PATH] [--only WORD]     without an archive one is built, unproved, in some minutes
    tests/bindings/languages.py --wrong                            each wrong body of a table, in a copy: a test has to fail

It ends with status 1 where something is not as it has to be, or where less was tried than is asked for. What a machine does not have is said in one
line (`bindings/setup` installs it) and left out; where nothing can be tried, it ends with status 77: skipped."""

import argparse
import os
import random
import re
import shutil
import subprocess
import sys
import tempfile
import time
from collections import Counter
from concurrent.futures import ThreadPoolExecutor
from pathlib import Path

sys.path.insert(0, str(Path(__file__).resolve().parents[1]))
import oldest_rust
from bindings import ENGINES, GIVEN, NETWORKS, cargo, compacting_script, engine_script, random_script, resolver_script
from lib import scripts
from lib.floors import lacking
from lib.program import ROOT

SKIPPED = 77
SEEDS = range(2)
STRICT = ("-Wall", "-Wextra", "-Wpedantic", "-Werror")
SANITIZED = ("-fsanitize=address,undefined", "-fno-sanitize-recover=all")
NETWORK_LINES = 29
# How a member's lifetime begins anew, and the resolver's lengths of a term.
WAYS, TERMS = ((), ("resume",), ("compact",)), ("1", "2", "5")
RESOLVERS = len(SEEDS) * len(TERMS)
# Ends with status 0 where an interpreter has its headers and its compiler.
COMPILES = """import shutil, sys, sysconfig
from pathlib import Path
compiler, header = sysconfig.get_config_var("CC").split()[0], Path(sysconfig.get_path("include")) / "Python.h"
sys.exit(not (shutil.which(compiler) and header.is_file()))"""
# How long a command may take, in seconds; and one that compiles all tests of the Rust package, beside other work.
LONGEST = 300
LONGEST_BUILD = 1200
# The least of what each part does, where its tools are here.
LEAST = {
    "C": {"statuses": 43, "C: scripts": 10, "C: networks": 1, "C: scripts of members": 110, "C: scripts of resolvers": RESOLVERS},
    **{name: {f"{name}: tests": 15, f"{name}: scripts": 10, f"{name}: networks": 1, f"{name}: scripts of members": 110, f"{name}: scripts of resolvers": RESOLVERS}
       for name in ("C++", "Go", "Python")},
    "Rust": {"Rust: scripts": 10, "Rust: scripts of members": 110, "Rust: scripts of resolvers": RESOLVERS}, "oldest Rust": {"oldest Rust: tests": 60},
    "packaging": {"hosts of an installed library": 3},
}
# What the replies of members and resolvers have among them.
WORDS = ("added", "notarize", "nullify", "finalize", "propose", "prepare", "ready", "resolve", "candidates", "certified", "notarization", "timeout", "pruned",
         "record", "view", "known", "withheld", "shown", "entries", "scan", "refused", "not-allowed", "fault", "settled", "fetch", "finalized", "raised", "served")
TOOLS = {"C": ("cc",), "C++": ("g++",), "Go": ("go", "gofmt", "cc"), "Python": ("cc",), "Rust": ("cargo", "cc"), "oldest Rust": ("apt-get", "dpkg-deb", "cc"),
         "packaging": ("cc", "make", "pkg-config")}
# What `bindings/setup` does not install.
ELSEWHERE = ("C", "Rust", "oldest Rust")

# A part, a file below `bindings`, a text there, what is put in its place.
WRONG_BODIES = (
    ("C", "c/include/simplex_status.h", '    case SIMPLEX_DAMAGED: return "the journal is damaged or cut";\n', ""),
    ("C", "c/examples/engine_lines.c", "*word == 'v'", "*word == 'c'"),
    ("C", "c/examples/network.c", "proposal, !memcmp(", "proposal, !!memcmp("),
    ("C", "c/examples/network.c", "    append(&it->journal, entries.at, entries.count);\n", ""),
    ("C++", "cpp/simplex_inline.hpp", "verdict(SIMPLEX_TELL_CERTIFIED", "verdict(SIMPLEX_TELL_VERIFIED"),
    ("C++", "cpp/simplex.hpp", "{ simplex_engine_free(at); }", "{ (void)at; }"),
    ("Go", "go/output.go", "return CertifyOutput{subject.Proposal}", "return FinalOutput{subject.Proposal}"),
    ("Go", "go/settings.go", "it.is_pruned != 0}", "false}"),
    ("Go", "go/engine.go", "all = append(all, bytesOf(chunk.bytes[:chunk.count])...)", "return bytesOf(chunk.bytes[:chunk.count])"),
    ("Go", "go/engine.go", "return Withheld(withheld.reason), ", "return Withheld(withheld.reason + 1), "),
    ("C++", "cpp/simplex_inline.hpp", "simplex_engine_withheld(at_.get(), static_cast<std::uint32_t>(kind), view)",
     "simplex_engine_withheld(at_.get(), SIMPLEX_NOTARIZE + 0 * static_cast<std::uint32_t>(kind), view)"),
    ("Python", "python/simplex_view_state/messages.py", "signatures[-1][0] >= signer", "signatures[-1][0] > signer"),
    ("Python", "python/simplex_view_state/outputs.py", "read(lib.SIMPLEX_OTHER_OF_OUTPUT)", "read(lib.SIMPLEX_OF_OUTPUT)"),
    ("Python", "python/simplex_view_state/engine.py", "self._at = ffi.NULL", "pass"),
    ("C++", "cpp/simplex_member_inline.hpp", "return {reply.flag != 0, reply.kind", "return {true, reply.kind"),
    ("C++", "cpp/simplex_member_inline.hpp", "SIMPLEX_CONSTRUCT_NULLIFY", "SIMPLEX_CONSTRUCT_NOTARIZE"),
    ("C++", "cpp/simplex_member_inline.hpp", "{cut.last, now, cut.prune ? 1u : 0u,", "{cut.last, now, 0u,"),
    ("C++", "cpp/simplex_resolver.hpp", "{SIMPLEX_TOLD_VERDICT, is_success ? 1u : 0u,", "{SIMPLEX_TOLD_VERDICT, is_success ? 0u : 1u,"),
    ("Go", "go/member_calls.go", "certificate.Bytes)\n\tif err", "nil)\n\tif err"),
    ("Go", "go/member_calls.go", "reply.has == 2}, nil", "false}, nil"),
    ("Go", "go/member.go", "it.entriesOf(C.simplex_member_prune_record(it.at))", "it.entriesOf(C.simplex_member_entries(it.at, 0))"),
    ("Go", "go/resolver.go", "View(it.cause), FetchReason", "View(it.view), FetchReason"),
    ("Python", "python/simplex_view_state/member.py", "self._call(_BROADCASTS[kind], view=view)", "self._call(_CONSTRUCTS[kind], view=view)"),
    ("Python", "python/simplex_view_state/member.py", "Missing(reply.waiting, reply.lacking", "Missing(reply.lacking, reply.waiting"),
    ("Python", "python/simplex_view_state/views.py", "it.admits_vote != 0, it.admits_certificate != 0", "it.admits_certificate != 0, it.admits_vote != 0"),
    ("Python", "python/simplex_view_state/resolver.py", "known.nullification if kind", "known.notarization if kind"),
    ("oldest Rust", "rust/src/journal.rs", "bytes.chunks_exact_mut(8).zip(numbers)", "bytes.as_chunks_mut::<8>().0.iter_mut().zip(numbers)"),
    ("oldest Rust", "rust/src/messages.rs", "if signatures.last().is_some_and(|(before, _)| *before >= signer) {",
     "if let Some((before, _)) = signatures.last() && *before >= signer {"),
    ("oldest Rust", "rust/examples/threshold/scheme.rs", "let shares = shares.get(..QUORUM)?;", "let shares = shares.get(..QUORUM - 1)?;"),
    ("oldest Rust", "rust/examples/threshold/host.rs", "&& scheme::is_signature(&subject.text(&NAMESPACE), certificate.bytes())", ""),
    ("C++", "cpp/simplex_inline.hpp", "simplex_subject(network_namespace.bytes.data(),", "simplex_subject(Namespace{}.bytes.data(),"),
    ("C++", "cpp/simplex_inline.hpp", "it.network_namespace.bytes.end(), made.namespace_bytes", "it.network_namespace.bytes.begin(), made.namespace_bytes"),
    ("Go", "go/settings.go", "it.Namespace.flat()", "Namespace{}.flat()"),
    ("Python", "python/simplex_view_state/settings.py", "list(namespace_bytes(self.namespace))", "[0] * 32"),
    ("oldest Rust", "rust/src/settings.rs", "*self.namespace.bytes()", "[0; 32]"),
    ("packaging", "packaging/exports.map", "global: simplex_*;", "global: simplex_member_*;"),
    ("packaging", "packaging/simplex.pc.in", "-I${includedir}", "-I${libdir}"),
    ("packaging", "packaging/simplex-config.cmake.in", "libsimplex.so.@VERSION@", "libsimplex.so.@RELEASE@"),
)
# The parts that a wrong body is compared with, where it is not C.
BESIDE = {"C": ["Rust"], "oldest Rust": [], "packaging": []}


class Trial:
    """A folder of bindings with an archive: what was tried of it, and what is wrong."""

    def __init__(self, bindings, archive, room):
        self.bindings, self.archive, self.room = bindings, archive, room
        self.include, self.seen, self.faults = bindings / "c/include", Counter(), []
        self.hosts, self.networks, self.members, self.resolvers = {}, {}, {}, {}

    def run(self, what, *command, longest=LONGEST, **given):
        """Runs a command; returns what it writes, or None where it fails, which is a fault."""
        try:
            done = subprocess.run([str(it) for it in command], capture_output=True, text=True, timeout=longest, **given)
        except subprocess.TimeoutExpired:
            self.faults.append(f"{what}: {command[0]} has not ended in {longest} s")
            return None
        if done.returncode == 0:
            return done.stdout + done.stderr
        self.faults.append(f"{what}: {' '.join(str(it) for it in command[:2])} ended with {done.returncode}: {(done.stdout + done.stderr)[-1500:]}")
        return None

    def serves(self, name, *command):
        """Notes a host that serves a member's lines and a resolver's, where it was made."""
        if all(command):
            self.members[name] = self.resolvers[name] = [*command]

    def compiled(self, what, compiler, source, name, *flags):
        """A program, or None where it does not compile."""
        made = self.room / name
        return made if self.run(what, *compiler, *STRICT, f"-I{self.include}", *flags, source, self.archive, "-o", made) is not None else None


def try_c(it):
    """The statuses' texts, and a host in C."""
    body = re.search(r"enum simplex_status \{(.*?)\n\};", (it.include / "simplex.h").read_text(), re.DOTALL)[1]
    numbers = {int(number): name for name, number in re.findall(r"^\s*(SIMPLEX_\w+) = (\d+)", body, re.MULTILINE)}
    source = it.room / "statuses.c"
    source.write_text('#include "simplex_status.h"\n#include <stdio.h>\n'
                      "int main(void) { for (uint32_t i = 0; i < 100; i++) puts(simplex_status_text(i)); return 0; }\n")
    asks = it.compiled("C", ("cc", "-std=c11"), source, "statuses")
    texts = (it.run("C", asks) or "").splitlines() if asks else []
    known = [(number, text) for number, text in enumerate(texts) if text != "an unknown status"]
    it.seen["statuses"] += len(known)
    if {number for number, _ in known} != set(numbers) or len({text for _, text in known}) != len(numbers):
        it.faults.append(f"C: statuses without a text of their own: {sorted(set(numbers.values()) - {numbers.get(number) for number, _ in known})}")
    host = it.compiled("C", ("cc", "-std=c11", "-O1"), it.bindings / "c/examples/engine_lines.c", "lines_c", *SANITIZED)
    it.hosts |= {"C": [host]} if host else {}
    for hosts, example in ((it.members, "script"), (it.resolvers, "resolver"), (it.networks, "network")):
        made = it.compiled("C", ("cc", "-std=c11", "-O1"), it.bindings / f"c/examples/{example}.c", f"{example}_c", *SANITIZED)
        hosts |= {"C": [made]} if made else {}


def try_cpp(it):
    """The tests, a network and a host in C++."""
    sources = {"tests": "cpp/tests/engines.cpp", "members": "cpp/tests/members.cpp", "network": "cpp/examples/network.cpp",
               "lines": "cpp/examples/engine_lines.cpp", "member_lines": "cpp/examples/member_lines.cpp"}

    def made(name):
        return it.compiled("C++", ("g++", "-std=c++17"), it.bindings / sources[name], f"{name}_cpp", f"-I{it.bindings / 'cpp'}", *SANITIZED)

    with ThreadPoolExecutor(2) as pool:
        engines, members, network, lines, member_lines = pool.map(made, sources)
    for tests in filter(None, (engines, members)):
        it.seen["C++: tests"] += len(re.findall(r"^test ", it.run("C++", tests) or "", re.MULTILINE))
    it.networks |= {"C++": [network]} if network else {}
    it.serves("C++", member_lines)
    it.hosts |= {"C++": [lines]} if lines else {}


def try_go(it):
    """The lints, the tests, a network and a host in Go."""
    package, made = it.bindings / "go", it.room / "go"
    made.mkdir()
    libraries = it.room / "go-lib"
    libraries.mkdir()
    shutil.copy(it.archive, libraries / "libsimplex.a")
    given = {"cwd": package, "env": {**os.environ, "GOFLAGS": "-mod=mod", "GOPROXY": "off", "CGO_ENABLED": "1", "CGO_LDFLAGS": f"-L{libraries}"}}
    if it.run("Go", "gofmt", "-l", ".", **given):
        it.faults.append("Go: gofmt would change a file")
    it.run("Go", "go", "vet", "./...", **given)
    written = it.run("Go", "go", "test", "-count=1", "-v", ".", **given) or ""
    it.seen["Go: tests"] += len(re.findall(r"^--- PASS", written, re.MULTILINE))
    if it.run("Go", "go", "build", "-o", f"{made}/", "./examples/...", **given) is not None:
        it.networks["Go"], it.hosts["Go"] = [made / "network"], [made / "engine_lines"]
        it.serves("Go", made / "member_lines")


def pythons():
    """The interpreters that may build the package: each with whether it has all that pip needs without a network."""
    for path in dict.fromkeys((sys.executable, "/usr/bin/python3")):
        def is_so(code):
            return Path(path).exists() and subprocess.run([path, "-c", code], capture_output=True).returncode == 0
        if is_so("import cffi, setuptools") and is_so(COMPILES):
            yield path, is_so("import pip, wheel")


def try_python(it):
    """The package as pip installs it, or built in place where pip can't; its tests, a network and a host."""
    path, has_pip = max(pythons(), key=lambda found: found[1])
    package = it.room / "python-package"
    shutil.copytree(it.bindings / "python", package)
    given = {"cwd": package, "env": {**os.environ, "SIMPLEX_INCLUDE": str(it.include), "SIMPLEX_ARCHIVE": str(it.archive)}}
    site = it.room / "site" if has_pip else package
    pip = (path, "-m", "pip", "install", "--quiet", "--no-build-isolation", "--no-index", "--no-deps", "--target", site, ".")
    if it.run("Python", *(pip if has_pip else (path, "setup.py", "--quiet", "build_ext", "--inplace")), **given) is None:
        return
    if not has_pip:
        print("languages: not tried: `pip install`, since pip or wheel is missing (bindings/setup installs them)")
    surroundings = {**os.environ, "PYTHONPATH": str(site), "PYTHONDONTWRITEBYTECODE": "1"}
    written = it.run("Python", path, "-m", "unittest", "discover", "-s", package / "tests", env=surroundings) or ""
    it.seen["Python: tests"] += int((re.search(r"Ran (\d+) tests", written) or [0, 0])[1])
    with_site = ["env", f"PYTHONPATH={site}", path]
    it.networks["Python"], it.hosts["Python"] = [*with_site, package / "examples/network.py"], [*with_site, package / "examples/engine_lines.py"]
    it.serves("Python", *with_site, package / "examples/member_lines.py")


def try_rust(it):
    """Hosts in Rust."""
    target, names = it.room / "target", ("engine_lines", "first_script", "resolver")
    try:
        cargo(it.bindings / "rust", target, it.archive, "build", "--quiet", *(word for name in names for word in ("--example", name)))
    except subprocess.CalledProcessError as error:
        it.faults.append(f"Rust: {error.stderr.decode()[-1500:]}")
        return
    it.hosts["Rust"], it.members["Rust"], it.resolvers["Rust"] = ([target / "debug/examples" / name] for name in names)


def try_oldest_rust(it):
    """The tests of the Rust package, built by the oldest compiler that it takes."""
    surroundings = oldest_rust.environment(oldest_rust.unpacked())
    surroundings |= {"SIMPLEX_ARCHIVE": str(it.archive), "CARGO_TARGET_DIR": str(it.room / "oldest-target"), "CARGO_NET_OFFLINE": "true"}
    written = it.run("oldest Rust", "cargo", "test", longest=LONGEST_BUILD, cwd=it.bindings / "rust", env=surroundings) or ""
    it.seen["oldest Rust: tests"] += sum(map(int, re.findall(r"^test result: ok\. (\d+) passed", written, re.MULTILINE)))


def try_packaging(it):
    """Installs the library in a folder, and compiles hosts that find it there."""
    stage = it.room / "stage"
    if it.run("packaging", "make", "-s", "-C", it.bindings, "install", f"ARCHIVE={it.archive}", f"OUT={it.room / 'out'}", f"DESTDIR={stage}",
              "PREFIX=/usr") is None:
        return
    libraries = stage / "usr/lib"
    surroundings = {**os.environ, "PKG_CONFIG_LIBDIR": str(libraries / "pkgconfig"), "PKG_CONFIG_SYSROOT_DIR": str(stage)}
    asked = it.run("packaging", "pkg-config", "--cflags", "--libs", "simplex", env=surroundings)
    source = it.bindings / "c/examples/engine_lines.c"
    for name, flag in (("static", ["-static"]), ("shared", [])) if asked else ():
        made = it.room / f"installed_{name}"
        if it.run("packaging", "cc", "-std=c11", *STRICT, source, *flag, *asked.split(), "-o", made) is not None:
            add_installed(it, name, made, libraries)
    if shutil.which("cmake"):
        try_cmake(it, source, libraries)
    else:
        print("languages: not tried: CMake's files, since cmake is missing (bindings/setup installs it)")
        it.seen["hosts of an installed library"] += 1


def try_cmake(it, source, libraries):
    """A host that CMake builds with the shared library."""
    folder = it.room / "cmake"
    folder.mkdir()
    (folder / "CMakeLists.txt").write_text(
        "cmake_minimum_required(VERSION 3.13)\nproject(host C)\nset(CMAKE_C_STANDARD 11)\nfind_package(simplex 0.1.0 REQUIRED)\n"
        f"add_executable(installed_cmake {source})\ntarget_link_libraries(installed_cmake simplex::simplex)\n")
    begun = it.run("packaging", "cmake", "-S", folder, "-B", folder / "out", f"-DCMAKE_PREFIX_PATH={libraries.parent}")
    if begun is not None and it.run("packaging", "cmake", "--build", folder / "out") is not None:
        add_installed(it, "cmake", folder / "out/installed_cmake", libraries)


def add_installed(it, name, made, libraries):
    """A host of the installed library, where it takes the library as it has to."""
    it.seen["hosts of an installed library"] += 1
    it.hosts[f"C, {name}"] = ["env", f"LD_LIBRARY_PATH={libraries}", made]
    loads = "libsimplex.so" in (it.run("packaging", "readelf", "-d", made) or "")
    if loads != (name != "static"):
        it.faults.append(f"packaging: the host {name} {'loads' if loads else 'does not load'} the shared library")


def with_questions(lines, seed):
    """The lines, with questions about what the member knows and about its journal between them."""
    drawn = random.Random(seed)
    for line in lines:
        yield line
        if drawn.random() < 0.3:
            view = max(0, int((re.findall(r"\d+", line) or ["1"])[0]) + drawn.randrange(-1, 2))
            yield drawn.choice((f"known {view}", *(f"withheld {kind} {view}" for kind in (1, 2, 3)), f"shown {drawn.choice((1, 2, 3))} {view}",
                                f"entries {drawn.randrange(9)}", f"scan {drawn.randrange(200)}"))


def member_scripts():
    """Scripts of members, each with its arguments: drawn ones, in each way, and those of the repository's pages."""
    for place, network in enumerate(NETWORKS):
        for way in WAYS:
            for seed in SEEDS:
                draw = compacting_script if way == ("compact",) else random_script
                yield ("voter", *network, *way), [*with_questions(draw(100 * place + seed), seed)]
    for script in scripts.all_scripts():
        if script.is_voter:
            yield script.arguments, [*script.lines[:len(script.replies)]]


def resolver_scripts():
    """Scripts of resolvers, with what is served and how much is fetched between their lines."""
    for term in TERMS:
        for seed in SEEDS:
            drawn = random.Random(seed)
            lines = (it for line in resolver_script(seed) for it in (line, drawn.choice((f"served {drawn.randrange(60)}", "fetches", f"open {drawn.randrange(60)}"))))
            yield ("resolver", term), [*lines]


def engine_scripts():
    """Scripts of engines."""
    for place, network in enumerate(ENGINES):
        for seed in SEEDS:
            yield network, engine_script(network, 100 * place + seed)


def served(command, arguments, lines):
    """The replies of a host to lines, and what it says of itself where it fails."""
    text = "".join(f"{line}\n" for line in lines)
    done = subprocess.run([*map(str, command), *arguments], input=text, capture_output=True, text=True)
    return done.stdout.splitlines() + [f"ended with {done.returncode}: {done.stderr[-500:]}"] * (done.returncode != 0)


def compare(it, pool, hosts, drawn, what):
    """Serves scripts by each host; the replies are those of the first host. Returns the replies' first words."""
    first, words = "Rust" if "Rust" in hosts else "C", Counter()
    for arguments, lines in drawn if first in hosts else ():
        replies = dict(zip(hosts, pool.map(lambda host: served(hosts[host], arguments, lines), hosts)))
        wanted = replies[first]
        words.update(part.split()[0] for reply in wanted for part in reply.split("; "))
        for host, found in replies.items():
            it.seen[f"{host}: {what}"] += found == wanted and len(found) == len(lines)
            if found != wanted:
                line = next((place for place, pair in enumerate(zip(wanted, found)) if pair[0] != pair[1]), min(len(wanted), len(found)))
                it.faults.append(f"{host}, {' '.join(arguments)}: {lines[min(line, len(lines) - 1)]!r}: {found[line:line + 1]}, and not {wanted[line:line + 1]}")
    return words


def compare_hosts(it, pool):
    """Serves the scripts of engines, members and resolvers by the hosts of all languages."""
    words = compare(it, pool, it.hosts, engine_scripts(), "scripts")
    it.seen["replies"] += words.total()
    it.seen.update({f"'{word}'": words[word] for word in GIVEN})
    words = compare(it, pool, it.members, member_scripts(), "scripts of members") + compare(it, pool, it.resolvers, resolver_scripts(), "scripts of resolvers")
    it.seen["replies of members"] += words.total()
    it.seen.update({f"'{word}' of a member": words[word] for word in WORDS})


def compare_networks(it, pool):
    """Runs each language's network: all print the same."""
    found = dict(zip(it.networks, pool.map(lambda name: it.run(name, "timeout", "60", *it.networks[name]), it.networks)))
    texts = Counter(text for text in found.values() if text is not None)
    usual = max(texts, key=texts.get, default="")
    for name, text in found.items():
        is_whole = text is not None and len(text.splitlines()) == NETWORK_LINES and "member 1 resumes from its disk" in text
        it.seen[f"{name}: networks"] += is_whole and text == usual
        if text is not None and (text != usual or not is_whole):
            it.faults.append(f"{name}: its network prints other lines: {text[-300:]}")


PARTS = {"C": try_c, "C++": try_cpp, "Go": try_go, "Python": try_python, "Rust": try_rust, "oldest Rust": try_oldest_rust,
         "packaging": try_packaging}


def ready_parts(only):
    """The parts whose tools are here; what others lack is printed."""
    for name in PARTS:
        if only and name not in only:
            continue
        missing = [*missing_of(name)]
        if missing:
            installs = "" if name in ELSEWHERE else " (bindings/setup installs it)"
            print(f"languages: not tried: {name}, since {' and '.join(missing)} is missing{installs}")
        else:
            yield name


def missing_of(name):
    """The tools that a part needs and this machine does not have."""
    tools = [tool for tool in TOOLS[name] if not shutil.which(tool)]
    yield from tools
    if name == "Python" and not [*pythons()]:
        yield "python3-cffi, or its compiler,"
    if name == "oldest Rust" and not tools:
        try:
            oldest_rust.unpacked()
        except oldest_rust.Missing as error:
            yield f"its compiler ({error})"


def try_all(bindings, archive, room, parts, jobs):
    """What was tried, and what is wrong."""
    it = Trial(bindings, archive, room)
    with ThreadPoolExecutor(jobs) as pool:
        for _ in pool.map(lambda name: PARTS[name](it), parts):
            pass
        compare_hosts(it, pool)
        compare_networks(it, pool)
    least = {}
    if not {"C", "Rust"}.isdisjoint(parts):
        least = {"replies": 10_000, **{f"'{kind}'": 1 for kind in GIVEN}, "replies of members": 20_000, **{f"'{word}' of a member": 1 for word in WORDS}}
    for name in parts:
        least |= LEAST[name]
    it.faults += lacking(it.seen, least)
    return it


def misplaced():
    """The wrong bodies whose text is not in its file."""
    for _, file, old, _ in WRONG_BODIES:
        if old not in (ROOT / "bindings" / file).read_text():
            yield f"{file}: {old!r} is not there"


def wrong_bodies(archive, room, only, jobs):
    """The wrong bodies that no test finds."""
    for place, (part, file, old, new) in enumerate(WRONG_BODIES):
        if only and part not in only:
            continue
        folder = room / f"wrong-{place}"
        shutil.copytree(ROOT / "bindings", folder / "bindings", ignore=shutil.ignore_patterns("target", "out", "*.a"))
        changed = folder / "bindings" / file
        changed.write_text(changed.read_text().replace(old, new))
        begun = time.monotonic()
        found = try_all(folder / "bindings", archive, folder, [part, *BESIDE.get(part, ["C"])], jobs).faults
        print(f"{part}: {old.strip()!r} -> {new.strip()!r}: {found[0][:160] if found else 'NOT FOUND'} ({time.monotonic() - begun:.0f} s)", flush=True)
        if not found:
            yield f"{file}: {old!r} as {new!r} is not found"


def main():
    parser = argparse.ArgumentParser(description=__doc__, formatter_class=argparse.RawDescriptionHelpFormatter)
    parser.add_argument("--archive", type=Path, help="the library, if it is built already")
    parser.add_argument("--only", action="append", choices=list(PARTS), help="a part, and no other")
    parser.add_argument("--jobs", type=int, default=2, help="how many parts go side by side")
    parser.add_argument("--wrong", action="store_true", help="try the wrong bodies")
    given = parser.parse_args()
    installed = subprocess.run([ROOT / "bindings/setup"], capture_output=True, text=True)
    if installed.returncode:
        print(f"languages: Debian's packages can't be had: {(installed.stderr.strip() or installed.stdout.strip()).splitlines()[-1]}")
    parts = [*ready_parts(given.only)]
    if not parts:
        sys.exit(SKIPPED)
    start = time.monotonic()
    with tempfile.TemporaryDirectory() as room:
        room = Path(room)
        archive = given.archive and given.archive.resolve() or room / "libsimplex.a"
        if not given.archive:
            subprocess.run([ROOT / "bindings/build", "--unproved", "--out", archive], check=True)
        if given.wrong:
            faults = [*misplaced(), *wrong_bodies(archive, room, given.only, given.jobs)]
            said = "wrong bodies"
        else:
            it = try_all(ROOT / "bindings", archive, room, parts, given.jobs)
            faults, said = [*it.faults, *misplaced()], ", ".join(f"{count} {what}" for what, count in it.seen.items() if not what.startswith("'"))
    print(f"languages: {said}; {len(faults)} wrong; {time.monotonic() - start:.1f} s")
    print("".join(f"  {fault}\n" for fault in faults), end="")
    sys.exit(1 if faults else 0)


if __name__ == "__main__":
    main()
