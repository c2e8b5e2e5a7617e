"""Many must-fail edits in few checks.

A function is proved from the contracts of those that it calls, and the edit of a body leaves contracts alone. So edits of different
functions go into one copy of a crate, and one check of just these functions refuses each on a line of its own. In each batch a few
functions that no edit turns are asked for too, and one must be proved: a copy that can't be read refuses all, and shows nothing.

What a check proves is kept for the crate's next batch, in a folder that the caller gives."""

import re
from pathlib import Path
from typing import NamedTuple

from lib.edits.edits import NotMade, turned
from lib.edits.sources import function_at, functions
from lib.program import ROOT

SAID = re.compile(r"^fn (\S+): (.*)$", re.MULTILINE)
SEVERAL = re.compile(r"several functions are named `([^`]*)`: help: write one of (.*)")
ENDED = re.compile(r"^only=\d+ proved=\d+", re.MULTILINE)
PROOF_ERROR = re.compile(r"^(?:\./)?proofs/(\S+?)/[A-Za-z]+\.antt:\d+:\d+: error: (.*(?:\n  .*)*)", re.MULTILINE)
OF_A_NAME = re.compile(r"has no field|is not in scope|has no `|was not admitted")
OF_A_CALL = re.compile(r"^(?:no proof|not proved): it calls `[^`]*`, which is not proved$")
MOST_NAMES = 12
WITNESSES = 4


class Trial(NamedTuple):
    """An edit, and the functions that must refuse it: the names that are asked for."""

    edit: object
    asked: tuple


class Verdict(NamedTuple):
    """How a check judged an edit, and in which words: it is refused at a "contract", only since a proof cites a "name" that it takes away,
    or "proved"; or the check says nothing of it ("unknown"), or can't read it ("unread")."""

    edit: object
    kind: str
    said: str


def trial_of(edit, folder):
    """The functions that an edit of a crate turns, or those that it names itself."""
    if edit.asks:
        return Trial(edit, edit.asks)
    found = []
    for turn in edit.turns:
        text = (folder / turn.file).read_text()
        place = text.find(turn.old)
        here = function_at(turn.file, text, place) if turn.file.startswith("src/") and place >= 0 else None
        if here and here not in found:
            found.append(here)
    if not found:
        raise NotMade(f"{edit.title} turns no function: name those that must refuse it on a line 'asks: NAME ..'")
    return Trial(edit, tuple(found))


def asked_name(asked):
    """The name by which a function is asked for."""
    return asked if isinstance(asked, str) else asked.asked


def in_batches(trials, folder):
    """Parts trials so that each function is turned once in a batch, and all edits of a batch can be made together: (trials, texts)."""
    batches = []
    for trial in trials:
        for batch in batches:
            if not any(set(trial.asked) & set(other.asked) for other in batch[0]):
                try:
                    texts = turned(trial.edit, batch[1], folder)
                except NotMade:
                    continue
                batch[0].append(trial)
                batch[1].update(texts)
                break
        else:
            batches.append(([trial], turned(trial.edit, {}, folder)))
    return batches


def untouched(trials, folder):
    """A few short functions with a contract that no trial turns and that call none that one turns: of each file the shortest, those of the
    turned files first."""
    taken = {asked for trial in trials for asked in trial.asked}
    calls = re.compile(rf"\b(?:{'|'.join(sorted({asked_name(it).rpartition('::')[2] for it in taken}))})\b")
    turned_files = {turn.file for trial in trials for turn in trial.edit.turns}
    sources = sorted(str(path.relative_to(folder)) for path in (folder / "src").rglob("*.rt"))
    found = []
    for file in sorted(sources, key=lambda it: it not in turned_files):
        text = (folder / file).read_text()
        own = [(it, text[it.start:it.end]) for it in functions(file, text) if not it.trait and it not in taken]
        whole = [(len(body), it) for it, body in own if "ensures" in body and not calls.search(body)]
        found += [min(whole)[1]] if whole else []
    return found[:WITNESSES]


class Checked(NamedTuple):
    """What a check of a batch said: each function's line by the name that it prints, the errors in each function's proof, and all of its text."""

    lines: dict
    errors: dict
    text: str

    def line_of(self, asked):
        """The line of a function that was asked for, and its printed name; none where the check has no such line, or more than one."""
        named = (lambda printed: printed == asked or printed.endswith(f"::{asked}")) if isinstance(asked, str) else asked.is_named
        found = [(printed, said) for printed, said in self.lines.items() if named(printed)]
        return found[0] if len(found) == 1 else (None, None)

    def is_whole(self):
        """Whether the check reached the prover and came to its end."""
        return bool(ENDED.search(self.text))


def checked(rt, crate, texts, asked, kept):
    """Checks these functions alone in a copy of a crate with other texts. A name that fits several functions is asked for by the one that
    is meant, which the check's own list shows."""
    names = {asked_name(it): asked_name(it) for it in asked}
    for _ in range(MOST_NAMES):
        words = [word for name in names.values() for word in ("--only", name)]
        text = rt.checked(crate, texts, ["--jobs", "1", *words], kept).stdout
        several = SEVERAL.search(text)
        if not several:
            break
        meant = [it for it in asked if names[asked_name(it)] == several[1] and not isinstance(it, str)]
        fitting = [name for name in re.findall(r"`([^`]*)`", several[2]) for it in meant if it.is_named(name)]
        if len(fitting) != 1:
            break
        names[asked_name(meant[0])] = fitting[0]
    errors = {}
    for folder, error in PROOF_ERROR.findall(text):
        errors.setdefault(folder, []).append(error)
    return Checked(dict(SAID.findall(text)), errors, text)


def said_of(asked, check, crate):
    """How a check judged one function: "contract", "name", "proved" or "unknown", and in which words."""
    printed, line = check.line_of(asked)
    if line is None:
        return "unknown", f"the check has no line of `{asked_name(asked)}`"
    if line == "proved" or OF_A_CALL.match(line):
        return "proved", line
    if line.startswith("no proof"):
        return "contract", line
    errors = check.errors.get(printed.removeprefix(f"{crate}::").replace("::", "/"), [])
    others = [it for it in errors if not OF_A_NAME.search(it)]
    if others:
        return "contract", others[0]
    return ("name", errors[0]) if errors else ("unknown", line)


def verdict_of(trial, check, crate):
    """The verdict on one edit of a batch: one function that refuses it at a contract is enough."""
    judged = [said_of(asked, check, crate) for asked in trial.asked]
    order = ("contract", "unknown", "name", "proved")
    kind, words = min(judged, key=lambda it: order.index(it[0]))
    return Verdict(trial.edit, kind, words.splitlines()[0][:240])


def first_words(text):
    """The first lines of a check that say what is wrong."""
    lines = [line for line in text.splitlines() if "error" in line] or text.splitlines()[-3:]
    return "; ".join(lines[:2])[:400]


def tried(rt, crate, trials, texts, kept):
    """The verdicts on a batch. Where the check of all together says nothing, each edit is tried alone, so that one that can't be read
    hides no other."""
    folder = Path(crate.folder)
    witnesses = untouched(trials, folder)
    asked = [it for trial in trials for it in trial.asked]
    check = checked(rt, crate, texts, [*asked, *witnesses], kept)
    if check.is_whole() and (not witnesses or any(check.line_of(it)[1] == "proved" for it in witnesses)):
        return [verdict_of(trial, check, crate.name) for trial in trials]
    if len(trials) == 1:
        return [Verdict(trials[0].edit, "unread", first_words(check.text))]
    return [verdict for trial in trials for verdict in tried(rt, crate, [trial], turned(trial.edit, {}, folder), kept)]
