"""The words of comments and of texts in scripts: none of the repository's own where the field has one, and names that exist, in backquotes."""

import re
import tokenize
from functools import cache
from pathlib import Path

from lib.program import ROOT

# Words of this repository's own, where the field has one (returns, passes, out of memory, lifetime, host ..).
DIALECT = re.compile(
    r"\b(hand(?:s|ed|ing)? (?:in|out)|giv(?:es?|en|ing) (?:out|up)|(?:is|are|was|were|be|been) told|want of memory|memory is wanting|of no use"
    r"|lets? go|likewise|its kin|comes? of|go(?:es)? on|leaves? behind|a life|lives|drivers?|owes?|owed|reckoned|late comers?)\b",
    re.IGNORECASE,
)
QUOTED = re.compile(r"`[^`]*`")
FENCED_IN_COMMENT = re.compile(r"```.*?```", re.DOTALL)
# Names as code has them: words joined by underscores, or two capitals with letters between.
SNAKE = r"[a-z][a-z0-9]*(?:_[a-z0-9]+)+"
CAMEL = r"[A-Z][a-z0-9]+(?:[A-Z][a-z0-9]*)+"
NAME = re.compile(rf"`({SNAKE}|{CAMEL})`")
BARE = re.compile(rf"(?<![\w`/.-]){SNAKE}(?![\w`/-])")
# Names of the Rattle kit, of Rust and of C that comments cite.
ELSEWHERE = {"simplex_view_state"}
SCRIPTS = ("tests/**/*", "bench/*", "bindings/*", "bindings/**/*.py")
# What is read side by side: statements, code, comments and proofs. The formatter keeps a `use` on one line; a script of lines is a text.
READ_FIRST = ("crates/*/src/**/*.rt", "crates/*/specs/**/*.antt", "crates/*/proofs/**/*.antt")
WIDTH = 120
# The words of a module's name, and those in -ing that are nouns or adjectives.
WORD = re.compile(r"[A-Z]?[a-z0-9]+")
NO_GERUNDS = {"covering", "encoding", "missing", "nothing", "outstanding", "pending", "rising"}
MAY_BE_LONG = re.compile(r'^\s*((pub |ghost )?use |#!\[)|"|\\n\\$')
COMMENTED = (("crates/**/*.rt", "//"), ("crates/**/*.antt", "--"), ("bindings/**/*.rs", "//"), ("node/**/*.rs", "//"))
# Documentation says first what it is of: a noun, or what a function does.
DOCUMENTED = ("bindings/**/*.rs", "node/**/*.rs")
# Names that are sentences.
EDITS = ("crates/*/must-fail/*.edit", "tests/mutants/must-fail/*/*.edit", "tests/mutants/swept/*/*.edit")
TESTED = ("crates/**/*.rt", "bindings/**/*.rs", "node/**/*.rs")
TEST = re.compile(r"#\[test\](?:\s*#\[[^\]]*\])*\s*fn (\w+)")
OPENING = re.compile(r"^[/!] (What|Whether|That|Of)\b")


def files(pattern):
    """The files of the repository that match, without what is built."""
    return sorted(it for it in ROOT.glob(pattern) if not {"out", "target"} & set(it.parts))


def split(line, mark):
    """The code and the comment of a line. A mark within a text between quotes begins none."""
    at = line.find(mark)
    while at >= 0 and line[:at].count('"') % 2:
        at = line.find(mark, at + 1)
    return (line, "") if at < 0 else (line[:at], line[at + len(mark):])


def comments_in(path, mark):
    """The comments of a file, each run of lines as one text, with the number of its first line."""
    run, first = [], 0
    for number, line in enumerate([*path.read_text().splitlines(), ""], 1):
        code, comment = split(line, mark)
        if comment and not (run and code.strip()):
            first = first if run else number
            run.append(comment)
            continue
        if run:
            yield first, FENCED_IN_COMMENT.sub("", "\n".join(run))
        run, first = ([comment], number) if comment else ([], 0)


@cache
def names_in_code():
    """Each name that the code of the crates, of the bindings or of the kit's specs has."""
    found = set(ELSEWHERE)
    for pattern in ("crates/**/*.rt", "crates/**/*.antt", "bindings/**/*.rs", "bindings/**/*.h", "tests/**/*.py", "node/**/*.rs"):
        mark = "--" if pattern.endswith("antt") else "//"
        for path in files(pattern):
            for line in path.read_text().splitlines():
                found.update(re.findall(r"\w+", split(line, mark)[0]))
    found.update(it.stem for it in files("tests/mutants/must-fail/**/*.edit"))
    found.update(it.name for it in (ROOT / "crates").iterdir())
    return found


def scripts():
    """The scripts in Python, but for this one, which has the words themselves."""
    found = {it for pattern in SCRIPTS for it in files(pattern) if it.is_file()} - {Path(__file__).resolve()}
    return sorted(it for it in found if it.suffix == ".py" or it.read_bytes().startswith(b"#!/usr/bin/env python3"))


def texts_in(path):
    """The comments and the texts of a script, with their lines. A text without a space is a name or a path."""
    with path.open("rb") as source:
        for token in tokenize.tokenize(source.readline):
            if token.type in (tokenize.COMMENT, tokenize.STRING) and " " in token.string:
                yield token.start[0], re.sub(r"\S*[./]\w\S*", "", token.string)


def long_lines():
    """The lines of code and definitions that are too long to be read side by side."""
    for pattern in READ_FIRST:
        for path in files(pattern):
            lines = enumerate(path.read_text().splitlines(), 1)
            long = [number for number, line in lines if len(line) > WIDTH and not MAY_BE_LONG.search(line)]
            yield from (f"{path.relative_to(ROOT)}:{number}: break this line before character {WIDTH}" for number in long)


def gerunds():
    """The modules of the crates that are named by a gerund. A folder of a function's proofs has that function's name."""
    for pattern in READ_FIRST:
        for path in files(pattern):
            found = [it for it in WORD.findall(path.stem) if it.endswith("ing") and it.lower() not in NO_GERUNDS]
            yield from (f"{path.relative_to(ROOT)}: {it!r} is a gerund: name the module by a noun" for it in found)


def openings():
    """The documentation of Rust that does not begin with its subject, but with a question's word."""
    for pattern in DOCUMENTED:
        for path in files(pattern):
            place = path.relative_to(ROOT)
            for line, text in comments_in(path, "//"):
                yield from (f"{place}:{line}: begin with a noun or with a verb, not with {it[1]!r}" for it in OPENING.finditer(text))


def names_of_tests():
    """The names of must-fail edits and of tests in Rust and Rattle, each with its file."""
    for pattern in EDITS:
        yield from ((path, path.stem) for path in files(pattern))
    for pattern in TESTED:
        for path in files(pattern):
            yield from ((path, name) for name in TEST.findall(path.read_text()))


def names_in_dialect():
    """The names of tests and edits with a word of this repository's own."""
    for path, name in names_of_tests():
        words = name.replace("_", " ")
        yield from (f"{path.relative_to(ROOT)}: {name}: say {it[0]!r} in the field's words" for it in DIALECT.finditer(words))


def faults():
    """What is wrong with the words of comments, of scripts, and of the names of tests."""
    yield from long_lines()
    yield from gerunds()
    yield from openings()
    yield from names_in_dialect()
    for path in scripts():
        place = path.relative_to(ROOT)
        for line, text in texts_in(path):
            yield from (f"{place}:{line}: say {it[0]!r} in the field's words" for it in DIALECT.finditer(QUOTED.sub("`", text)))
    for pattern, mark in COMMENTED:
        for path in files(pattern):
            place = path.relative_to(ROOT)
            for line, text in comments_in(path, mark):
                plain = QUOTED.sub("`", text)
                yield from (f"{place}:{line}: say {it[0]!r} in the field's words" for it in DIALECT.finditer(plain))
                if pattern.startswith("crates"):
                    yield from (f"{place}:{line}: put {it[0]} between backquotes" for it in BARE.finditer(plain))
                    yield from (f"{place}:{line}: no code has the name `{it[1]}`" for it in NAME.finditer(text) if it[1] not in names_in_code())
