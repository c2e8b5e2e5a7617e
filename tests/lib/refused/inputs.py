"""Hostile inputs: lines of every length, numbers at the limits in each place of each line, and what each has to end in."""

from typing import NamedTuple

LARGEST_VIEW = 2**63 - 1
LARGEST = 2**64 - 1
NUMBERS = (0, 1, LARGEST_VIEW, LARGEST_VIEW + 1, LARGEST)
NO_NUMBERS = ("18446744073709551616", "01", "-1", "+1", "0x1", "1.0", "\u0661", "")
KINDS = ("notarization", "nullification", "finalization")
BEFORE = ("", "notarization 1 0 7\nverdict 1 true 10\nfinalize 1\nnullify 2\n", "finalization 9223372036854775807 5 9 10\n")

VOTER = ("voter", "4", "0", "1", "0")
WIDE_VOTER = ("voter", "1000", "999", "4294967295", "3")
RESOLVER = ("resolver", "5")
VOTER_FORMS = (
    "notarization # # #", "finalization # # # #", "nullification # #", "proposal # # #", "verified #", "rejected # #",
    "proposed # # #", "supersede #", "abandon #", "release #", "token # #", "verdict # true #", "verdict # false #",
    "notarize #", "nullify #", "finalize #", *(f"broadcast {kind} #" for kind in KINDS), "trigger # Inactivity #",
    "timeout #", "restart # #", "restart-pruned # #",
)
RESOLVER_FORMS = (
    "notarization #", "nullification #", "finalization #", "certified # true", "certified # false", "settled # notarization",
    "settled # nullification", "key-settled #", "uncertifiable #", "produce #",
)
BARE_LINES = ("verify", "propose", "candidates", "best", "prune", "record", "view")


class Case(NamedTuple):
    """An input, how many replies it has, and the status that it ends with."""

    arguments: tuple
    given: bytes
    replies: int
    status: int


def filled(form, numbers):
    """A form with numbers in its places."""
    for number in numbers:
        form = form.replace("#", str(number), 1)
    return form


def limit_lines(forms):
    """Each line with each of the numbers in each of its places, the others being 1; and all of them in all places."""
    for form in forms:
        places = form.count("#")
        for number in NUMBERS:
            for place in range(places):
                yield filled(form, [number if at == place else 1 for at in range(places)])
            yield filled(form, [number] * places)


def limit_cases():
    """The lines at the limits, one by one and all together, in a new state and in others."""
    voter, resolver = (VOTER_FORMS, BARE_LINES, BEFORE), (RESOLVER_FORMS, ("outstanding", "replayed"), ("", "replayed\n"))
    for arguments, (forms, asked, befores) in ((VOTER, voter), (WIDE_VOTER, voter), (RESOLVER, resolver)):
        lines = list(limit_lines(forms))
        for before in befores:
            for line in lines:
                text = before + "\n".join([line, *asked]) + "\n"
                yield Case(arguments, text.encode(), text.count("\n"), 0)
            text = before + "\n".join(lines) + "\n"
            yield Case(arguments, text.encode(), text.count("\n"), 0)


def refused_lines():
    """Lines that are no call, as bytes without their line feed."""
    for form in (*VOTER_FORMS, *(f"{it} 1" for it in BARE_LINES)):
        for word in NO_NUMBERS:
            yield form.replace("#", word, 1).replace("#", "1").encode() if "#" in form else form.encode()
    for length in (199, 200, 201, 202, 4096, 100_000):
        yield b"7" * length
        yield b"view" + b" " * (length - 4)
        yield b"nullify " + b"0" * (length - 9) + b"1"
    yield from (b"view\r", b"\r", b"view\0", b"\0", b"View", b"view\t", b"\x1b[A")
    yield from (b"view\xff", b"\xff\xfe", b"view\xc3", b"\xed\xa0\x80", b"\xef\xbb\xbfview")


def refused_cases():
    """Lines that are no call: first and after others, with and without a last line feed."""
    for line in dict.fromkeys(refused_lines()):
        for before in (0, 2):
            for feed in (b"\n", b"", b"\nview\n"):
                if line + feed:
                    yield Case(VOTER, b"view\n" * before + line + feed, before, 3)


def last_line_cases():
    """A last line without its line feed is served like any other."""
    for line in BARE_LINES:
        yield Case(VOTER, b"view\n" + line.encode(), 2, 0)
    yield Case(VOTER, b"", 0, 0)


def all_cases():
    return [*limit_cases(), *refused_cases(), *last_line_cases()]
