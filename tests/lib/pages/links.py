"""Links between pages: that the page which is named is there, and the section in quotes behind it."""

import re

from lib.pages.words import files
from lib.program import ROOT

PAGES = ("*.md", "docs/**/*.md", "crates/*/CALLING.md")
CITING = (*PAGES, "bindings/**/*.rs", "bindings/**/*.h", "bindings/**/*.hpp", "bindings/**/*.go", "bindings/**/*.py", "node/**/*.rs")
LINK = re.compile(r'((?:docs|crates)/[\w/]+\.md|\b(?:README|CHANGELOG|CONTRIBUTING|SECURITY)\.md)`?(?:, "([^"]+)")?')
# A section is a heading, or the bold words that a paragraph begins with.
SECTION = re.compile(r"^#+ (.*)$|^(?:[-*] )?\*\*([^*]+)\*\*", re.MULTILINE)
FENCED = re.compile(r"^```\w*\n(.*?)^```", re.DOTALL | re.MULTILINE)


def sections():
    """The sections of each page, by its path."""
    found = {}
    for page in {it for pattern in PAGES for it in files(pattern)}:
        titles = (one or other for one, other in SECTION.findall(FENCED.sub("", page.read_text())))
        found[page.relative_to(ROOT).as_posix()] = {title.replace("`", "").rstrip(".") for title in titles}
    return found


def all_links():
    """Each link: the file that has it, the page, and the section or nothing."""
    for path in sorted({it for pattern in CITING for it in files(pattern)}):
        yield from ((path.relative_to(ROOT), *link) for link in LINK.findall(path.read_text()) if "NAME" not in link[0])


def dead():
    """The links that lead nowhere."""
    found = sections()
    for path, name, section in all_links():
        if name not in found:
            yield f"{path}: no page {name}"
        elif section and section.rstrip(".") not in found[name]:
            yield f"{path}: {name} has no section {section!r}"
