#!/usr/bin/env python3
"""Tests that paths in pages lead somewhere and that words are the field's, and counts the words.

Each `ghost use` and `use` line in a fenced block of the README, of `docs/**/*.md` and of `crates/*/CALLING.md`, and each path of
the repository's crates between backquotes, names a module that stands here, and the names that are taken from it stand in it. Of
the kit's own `std` the module alone is looked for, and in Rust nothing. Crates whose names begin with `my_` are the reader's own. Each page that
a page or a comment names is there, with the section in quotes behind it.
Words are what has a letter or a digit between spaces, outside fenced blocks, which are code or output, and of pages that no script writes.

    tests/pages/pages.py

It ends with status 1 where a path or a link leads nowhere, where it found next to none, where a page or a comment has a word of the repository's own
for one of the field's, where a comment of a crate has a name outside of backquotes, or one in them that no code has."""

import re
import shutil
import sys
from pathlib import Path

sys.path.insert(0, str(Path(__file__).resolve().parents[1]))
from lib.floors import lacking
from lib.pages import links, words
from lib.pages.links import FENCED
from lib.program import ROOT

KIT = Path(shutil.which("rt") or "/").resolve().parent.parent / "rattle"
RUST_USE = re.compile(r"^\s*(?:pub )?use ([\w:]+?)(?:::\{([^}]*)\})?;", re.MULTILINE)
RATTLE_PATH = re.compile(r"^Rattle\.([^\s{]+?)(?:\.\{([^}]*)\})?$")
SIBLING = re.compile(r"^((?:\w+\.)*[A-Z]\w*)(?:\.\{([^}]*)\})?$")
GENERATED = ("Goals", "Given", "Answers", "TheVariants")
PACKAGE = "bindings/rust/src/lib.rs"
WRITTEN_BY_SCRIPTS = ("DEFINITIONS.md", "REFUSED.md", "SPEED.md", "RESULTS.md", "TABLES.md", "LAWS.md")
# Pages that keep to the field's words.
IN_PLAIN_WORDS = ("README.md", "CONTRIBUTING.md", "CHANGELOG.md", "SECURITY.md", *(f"docs/{name}.md" for name in (
    "DECISIONS", "DESIGN", "DIFFERENCES", "EMBEDDING", "GLOSSARY", "GUARANTEES", "PARTS", "PRODUCTION", "PROGRAM", "TESTED", "TRACE", "TUTORIAL")),
    "docs/inside/PROOFS.md",
    *(f"crates/{name}/CALLING.md" for name in (
        "simplex_codec", "simplex_engine", "ffi_member", "ffi_scheme", "laws_safety", "lawful_member", "simplex_member", "simplex_record", "simplex_resolver",
        "simplex_types", "simplex_voter")))
LEAST = {"paths in blocks": 45, "paths between backquotes": 25, "names": 120, "links": 80}


class LeadsNowhere(Exception):
    """A path, or a name at its end, that doesn't stand in the repository."""


def pages():
    """The pages, as paths."""
    return [ROOT / "README.md", *sorted(ROOT.glob("docs/**/*.md")), *sorted(ROOT.glob("crates/*/CALLING.md"))]


def names_in(text):
    """The names of a list between braces."""
    return [it.strip().split(" as ")[0].strip() for it in (text or "").split(",") if it.strip()]


def is_in(name, text):
    """Whether a proof's or a definition's text has a name at the beginning of a line, where names are defined."""
    begin = r"^\s*(?:(?:pub|abbrev|unfoldable|record|data|constructor) )*"
    return re.search(begin + re.escape(name) + r"(?=[\s:])", text, re.MULTILINE) is not None


def module_file(base, words):
    """The file of a module below a folder, and the words behind it: the longest beginning of the words that has one."""
    for count in range(len(words), 0, -1):
        for end in (".antt", ".rt"):
            file = base.joinpath(*words[:count]).with_name(words[count - 1] + end)
            if file.is_file():
                return file, words[count:]
    raise LeadsNowhere(f"no module {'.'.join(words)} in {base}")


def looked_up_in_source(crate, words):
    """A path to what the kit makes of a crate's source: a type's declaration, or the goals of a function."""
    file, rest = module_file(ROOT / "crates" / crate / "src", [it for it in words if it not in GENERATED])
    text = file.read_text()
    for name in rest:
        if not re.search(rf"\b(?:fn|struct|enum|trait|impl|for)\b[^\n]*\b{re.escape(name)}\b", text):
            raise LeadsNowhere(f"no {name} in {file.relative_to(ROOT)}")


def look_up(path, names):
    """Looks for a path of Rattle's, as `CRATE.specs.MODULE` without the first word, and for names in it."""
    crate, part, *words = path.split(".")
    if crate.startswith("my_"):
        return
    if crate == "std":
        module_file(KIT / "std" / part, words)
        return
    folder = ROOT / "crates" / crate / part
    if words[0] == "declared":
        looked_up_in_source(crate, words[1:])
        return
    if words[-1] in GENERATED:
        looked_up_in_source(crate, words)
        return
    file, rest = module_file(folder, words)
    for name in [*rest, *names]:
        if not is_in(name, file.read_text()):
            raise LeadsNowhere(f"no {name} in {file.relative_to(ROOT)}")


def is_declared(name, text):
    """Whether a module's text declares a name, or takes it from elsewhere for its users."""
    declared = rf"^\s*pub (?:struct|enum|trait|fn|const|static|type|mod) {name}\b"
    taken = [names for path, names in re.findall(r"^\s*pub use ([\w:]+?)(?:::\{([^}]*)\})?;", text, re.MULTILINE) if name in names_in(names)]
    alone = rf"^\s*pub use [\w:]*::{name};"
    return bool(re.search(declared, text, re.MULTILINE) or taken or re.search(alone, text, re.MULTILINE))


def look_up_rust(path, names):
    """Looks for a path of Rust's, and for names behind it. The last word of a path between backquotes may be a method or a variant."""
    crate, *words = path.split("::")
    if crate == "simplex_view_state":
        return look_up_package(names)
    if not (ROOT / "crates" / crate / "src").is_dir():
        if crate == "std" or crate.startswith("my_"):
            return
        raise LeadsNowhere(f"no crate {crate}")
    folder = ROOT / "crates" / crate / "src"
    file = folder / "lib.rt"
    while words and folder.joinpath(f"{words[0]}.rt").is_file():
        file, folder = folder / f"{words[0]}.rt", folder / words[0]
        words = words[1:]
    text = file.read_text()
    for name in [*words[:1], *names]:
        if not is_declared(name, text):
            raise LeadsNowhere(f"no {name} in {file.relative_to(ROOT)}")
    for name in words[1:]:
        sources = [file, *folder.rglob("*.rt")]
        if not any(re.search(rf"\bfn {name}\b|^\s*{name}\b", it.read_text(), re.MULTILINE) for it in sources):
            raise LeadsNowhere(f"no {name} of {words[0]} in {file.relative_to(ROOT)}")


def look_up_package(names):
    """Looks for names that the Rust package shows."""
    shown = " ".join(re.findall(r"^pub use [^{;]*\{([^}]*)\};", (ROOT / PACKAGE).read_text(), re.MULTILINE))
    for name in names:
        if not re.search(rf"\b{name}\b", shown):
            raise LeadsNowhere(f"no {name} in {PACKAGE}")


def used_in(block):
    """The paths that a fenced text uses: how each is looked up, the path and its names."""
    for line in block.splitlines():
        found = re.match(r"\s*(?:ghost )?use Rattle\.([^\s{;]+?)(?:\.\{([^}]*)\})?(?: as \S+)?;?$", line)
        if found:
            yield look_up, found[1], names_in(found[2])
    for path, names in RUST_USE.findall(block):
        yield look_up_rust, path, names_in(names)


def told_in(cell):
    """The paths between backquotes in a cell of a table, or a line. What stands there behind a path of Rattle's may be named from the
    same folder."""
    folder = None
    for text in re.findall(r"`([^`]+)`", cell):
        text = text.removeprefix("ghost ").removeprefix("use ").removesuffix(";")
        rattle, sibling = RATTLE_PATH.match(text), SIBLING.match(text)
        if rattle and not text.endswith("."):
            folder = rattle[1].rpartition(".")[0]
            yield look_up, rattle[1], names_in(rattle[2])
        elif folder and sibling:
            yield look_up, f"{folder}.{sibling[1]}", names_in(sibling[2])
        elif re.match(r"[a-z_]+::[\w:]+(?:::\{[^}]*\})?(?:<\w+>)?$", text) and (ROOT / "crates" / text.split("::")[0]).is_dir():
            path, _, names = text.partition("::{")
            yield look_up_rust, re.sub(r"<\w+>$", "", path), names_in(names.removesuffix("}"))


def paths_of(page):
    """The paths of a page: where each stands, how it is looked up, the path and its names."""
    text = page.read_text()
    for block in FENCED.findall(text):
        yield from (("paths in blocks", *it) for it in used_in(block))
    for cell in re.split(r"\n| \| ", FENCED.sub("", text)):
        yield from (("paths between backquotes", *it) for it in told_in(cell))


def in_dialect():
    """The words of the repository's own in pages that are written in the field's, outside code."""
    for name in IN_PLAIN_WORDS:
        text = FENCED.sub("", (ROOT / name).read_text())
        yield from (f"{name}: say {found[0]!r} in the field's words" for found in words.DIALECT.finditer(re.sub(r"`[^`]*`", "`", text)))


def words_by_hand(texts):
    """The words of some pages, and what else is between their spaces: bars of tables, bullets."""
    found = [it for page in texts if page.name not in WRITTEN_BY_SCRIPTS for it in FENCED.sub("", page.read_text()).split()]
    return [it for it in found if any(letter.isalnum() for letter in it)], found


def main():
    seen, faults = dict.fromkeys(LEAST, 0), []
    for page in pages():
        for kind, look, path, names in paths_of(page):
            seen[kind] += 1
            seen["names"] += len(names)
            try:
                look(path, names)
            except LeadsNowhere as fault:
                faults.append(f"{page.relative_to(ROOT)}: {path}: {fault}")
    seen["links"] = len(list(links.all_links()))
    faults += [*in_dialect(), *words.faults(), *links.dead(), *lacking(seen, LEAST)]
    print(f"pages: {', '.join(f'{count} {what}' for what, count in seen.items())}; {len(faults)} faults")
    print("".join(f"  {fault}\n" for fault in faults), end="")
    callings = [page for page in pages() if page.name == "CALLING.md"]
    others = [ROOT / "CONTRIBUTING.md", ROOT / "CHANGELOG.md", *(page for page in pages() if page not in callings)]
    for what, counted in (("words by hand", others), ("for callers of one crate", callings)):
        by_hand, found = words_by_hand(counted)
        print(f"{what}: {len(by_hand)}, or {len(found)} with bars and bullets")
    return 1 if faults else 0


if __name__ == "__main__":
    sys.exit(main())
