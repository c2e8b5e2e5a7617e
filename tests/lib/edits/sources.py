"""Where functions are in a crate's sources, under the names that a check prints.

The sources are in the layout of `rt fmt`, so a function ends at the first brace as far in as its own line, and an `impl` begins a line."""

import re
from pathlib import Path
from typing import NamedTuple

FUNCTION = re.compile(r"^( *)(?:pub(?:\([^)]*\))? )?(?:unsafe |const |extern \"C\" )*fn (\w+)", re.MULTILINE)
BLOCK = re.compile(r"^(?:pub(?:\([^)]*\))? )?(?:unsafe )?(impl|trait)\b(.*)", re.MULTILINE)


class Function(NamedTuple):
    """A function of a file: its module, the type and the trait that its `impl` is of, its name, and where its text begins and ends."""

    module: str
    owner: str
    trait: str
    name: str
    start: int
    end: int

    @property
    def asked(self):
        """The end of the name that a check prints: a method's type is named by the module that declares it, which may be another one. Of a
        trait's method it is the last word alone, since the check has a name of its own for the `impl`."""
        if self.trait:
            return self.name
        return f"{self.owner}::{self.name}" if self.owner else "::".join(word for word in (self.module, self.name) if word)

    def is_named(self, printed):
        """Whether a check's name of a function is this one's."""
        if self.trait:
            return bool(re.search(rf"::{self.owner}{self.trait}\w*::{self.name}$", printed))
        return printed.endswith(f"::{self.asked}")


def module_of(path):
    """The module of a source below a crate's folder."""
    words = Path(path).with_suffix("").parts[1:]
    return "" if words in (("lib",), ("main",)) else "::".join(words)


def owner_at(text, start):
    """The type and the trait that the `impl` round a place is of; no trait is "". None within a trait's own declaration."""
    found = list(BLOCK.finditer(text, 0, start))
    if not found or found[-1].group(1) == "trait":
        return None
    head = found[-1].group(2)
    while (shorter := re.sub(r"<[^<>]*>", "", head)) != head:
        head = shorter
    words = re.findall(r"\w+", head)
    if "for" not in words:
        return words[0], ""
    at = words.index("for")
    return words[at + 1], words[at - 1]


def functions(path, text):
    """The functions of a source, in order, but for those that a trait declares."""
    module, found = module_of(path), list(FUNCTION.finditer(text))
    for at, here in enumerate(found):
        indent, name = here.groups()
        close = re.compile(rf"^{indent}(?:\}}|\{{\}})$", re.MULTILINE).search(text, here.end())
        following = next((it.start() for it in found[at + 1:] if len(it[1]) <= len(indent)), len(text))
        owned = owner_at(text, here.start()) if indent else ("", "")
        if not owned:
            continue
        owner, trait = owned
        yield Function(module, owner, trait, name, here.start(), min(close.end(), following) if close else following)


def function_at(path, text, place):
    """The function that a place of a source is in, or None."""
    return next((it for it in functions(path, text) if it.start <= place < it.end), None)
