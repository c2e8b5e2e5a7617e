"""The must-fail edits: wrong bodies that the contracts refuse, where their files are, and how one is made.

An edit is a file of the form that `rt ci` reads: a line `file: PATH`, and then pairs of lines `old: TEXT` and `new: TEXT`. `PATH` is
below the crate's folder, and each old text is in that file exactly once. A line `asks: NAME ..`, which `rt ci` passes over, names the
functions that refuse the edit, where the edit turns none of them itself: those that use a constant, a table or a macro."""

from pathlib import Path
from typing import NamedTuple

from lib.program import ROOT

TRIED_BY_THE_KIT = "crates/{crate}/must-fail"
TRIED_IN_BATCHES = "tests/mutants/must-fail/{crate}"
# Wrong bodies that no must-fail edit shows, and that the sweeps find: a contract allows them, since memory may be refused at any time, or
# it refuses them only by names that its proof cites.
SWEPT = "tests/mutants/swept/{crate}"


class NotMade(Exception):
    """An edit that can't be made: its text is not in its file exactly once, or no such edit exists."""


class Turn(NamedTuple):
    """One change of an edit: the file below the crate's folder, the text that is taken out, and the one put in."""

    file: str
    old: str
    new: str


class Edit(NamedTuple):
    """An edit: its crate and name, its file, its changes, and the functions that it names itself."""

    crate: str
    name: str
    path: Path
    turns: tuple
    asks: tuple

    @property
    def title(self):
        return f"{self.crate}/{self.name}"


def read(path):
    """The edit in a file."""
    turns, asks = [], ()
    file = old = None
    for row in path.read_text().splitlines():
        key, _, text = row.partition(": ")
        if key == "file":
            file = text
        elif key == "old":
            old = text
        elif key in ("new", "new:"):
            turns.append(Turn(file, old, text))
        elif key == "asks":
            asks = tuple(text.split())
    if not turns:
        raise NotMade(f"{path.relative_to(ROOT)} changes nothing")
    return Edit(path.parent.name if path.parent.name != "must-fail" else path.parent.parent.name, path.stem, path, tuple(turns), asks)


def edits_in(place):
    """The edits in one of the two places, by crate and name."""
    return sorted(read(path) for folder in ROOT.glob(place.format(crate="*")) for path in folder.glob("*.edit"))


def all_edits():
    """All edits of the repository, by crate and name."""
    return sorted(edits_in(TRIED_BY_THE_KIT) + edits_in(TRIED_IN_BATCHES))


def named(title):
    """The edit of a title `CRATE/NAME`, in whichever place it is."""
    crate, name = title.split("/")
    places = [ROOT / place.format(crate=crate) / f"{name}.edit" for place in (TRIED_BY_THE_KIT, TRIED_IN_BATCHES, SWEPT)]
    found = [path for path in places if path.is_file()]
    if len(found) != 1:
        raise NotMade(f"{title} is in {len(found)} places, where an edit is in one")
    return read(found[0])


def turned(edit, texts, folder):
    """The texts of a crate's files with an edit made in them, by their path below the crate's folder. `texts` has those that earlier
    edits changed."""
    changed = dict(texts)
    for turn in edit.turns:
        text = changed.get(turn.file) or (Path(folder) / turn.file).read_text()
        if text.count(turn.old) != 1:
            raise NotMade(f"{edit.title}: {turn.file} has {turn.old!r} {text.count(turn.old)} times; write the edit anew")
        changed[turn.file] = text.replace(turn.old, turn.new)
    return changed


def make(root, title):
    """Makes an edit in a copy of the repository."""
    edit = named(title)
    folder = Path(root) / "crates" / edit.crate
    for file, text in turned(edit, {}, folder).items():
        (folder / file).write_text(text)
