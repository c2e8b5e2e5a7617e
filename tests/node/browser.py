#!/usr/bin/env python3
"""Tests that the page of a trace shows what the trace says.

Five simulated networks (healthy, a silent leader, two proposals in terms with handoffs, links that are cut and joined, a crash with a
pruned record) are traced, `simplex-view` makes a page of each, and a headless Chromium opens it. Views are chosen by click, key, slider
and number; counts, votes with their signers, fates, filters, colours and pixels are compared with the trace. And no page is written over
a file that is none.

    tests/node/browser.py [--archive PATH] [--screenshots FOLDER]     without an archive one is built, unproved, in a minute or two
    tests/node/browser.py --wrong                                     each wrong body of a table, in a copy: this test has to fail

It ends with status 1 where something is not as it has to be. Where Chromium or packages can't be had it says so in one line, and ends with
status 77: skipped."""

import argparse
import base64
import os
import shutil
import subprocess
import sys
import tempfile
from pathlib import Path

sys.path.insert(0, str(Path(__file__).resolve().parents[1]))
from lib.pages import chromium
from lib.pages.traced import Traced
from lib.program import ROOT
from node import is_ready

SKIPPED = 77
LEAST_WITHHELD = 10
# A page's name, the words of its network, and what the reasons of its lost views have to say.
NETWORKS = (
    ("healthy", "--members 4 --views 60", ()),
    ("silent", "--members 4 --faulty 1 --byzantine silent --views 40", ("leader 3, which is faulty, sent no proposal",)),
    ("equivocation", "--members 7 --faulty 2 --term 5 --optimistic 2 --loss 5 --views 120 --seed 7",
     ("leader 6 sent two proposals: ", " was built on it", "the nullification of view ")),
    ("partition", "--members 5 --partition 3s..8s:0,1 --views 60", ("cut off from a quorum", " did not vote for it, since no proposal was received")),
    ("crash", "--members 4 --retention 10 --term 2 --crash 3@4s..9s --views 220", ("leader 3 was down",)),
)
# How many views from the first one on are drawn without a scroll.
SHOWN_VIEWS = 40
# The measures of the grid: `grid.js` has them.
LABEL, TOP, ROW, CELL = 130, 22, 28, 22
# A file, what is in it, what is put in its place: then the test has to fail.
WRONG_BODIES = (
    ("a view's votes are of the view after it", "page/detail.js", "for (const i of run.eventsOf(view)) {", "for (const i of run.eventsOf(view + 1)) {"),
    ("signers are left out", "page/detail.js", "votes.get(key).add(code[i] >= CODE.NotarizeReceived ? other[i] : member[i]);",
     "votes.get(key).add(member[i]);"),
    ("a click is of the next view", "page/grid.js", "const view = Math.floor((x - LABEL) / state.cell) + state.first;",
     "const view = Math.floor((x - LABEL) / state.cell) + state.first + 1;"),
    ("votes are not drawn", "page/grid.js", "    context.fillStyle = fill;\n    context.fillRect(x + 1, y + 2",
     "    context.fillStyle = fill;\n    context.rect(x + 1, y + 2"),
    ("a filter hides nothing", "page/main.js", "(i) => state.kinds.has(kindOfCode.get(run.events.code[i]))", "() => true"),
    ("members stay where they are hidden", "page/main.js", "state.visible = (isOn ?", "const unused = (isOn ?"),
    ("dark is as light", "page/style.css", "@media (prefers-color-scheme: dark)", "@media (prefers-color-scheme: sepia)"),
    ("a vote that is withheld has the reason after its own", "page/words.js",
     "withholds its vote to notarize: ${run.withheld[run.events.choice[i]]}", "withholds its vote to notarize: ${run.withheld[run.events.choice[i] + 1]}"),
    ("why votes were withheld is left out of the lost views", "src/reasons.rs", "of_reason.entry(*reason).or_default().insert(*member);",
     "let _ = (reason, member);"),
    ("no messages are drawn", "page/timeline.js", "const arrows = received.length <= MOST_ARROWS", "const arrows = received.length < 0"),
    ("events are read one byte off", "src/pack.rs", "let doubled = ((step << 1) ^ (step >> 63)) as u64;", "let doubled = (step << 1) as u64;"),
    ("the chain ends at its first finalized view", "src/chain.rs", "while view > 0 && facts[view].fate != Fate::Finalized {",
     "if view > 0 && facts[view].fate != Fate::Finalized {"),
    ("two proposals are not told", "src/reasons.rs", "        1 => with_proposal(run, facts, view),\n", "        1.. => with_proposal(run, facts, view),\n"),
    ("a page is written over any file", "src/page.rs", "match start == BEGINNING.as_bytes() {", "match true {"),
)


class Shown:
    """A page in a browser, compared with its trace."""

    def __init__(self, page, trace, name):
        self.page, self.trace, self.name, self.faults, self.compared, self.withheld_cells = page, trace, name, [], 0, 0

    def expect(self, what, seen, wanted):
        if seen != wanted:
            self.faults.append(f"{self.name}: {what}: {seen!r} in place of {wanted!r}")

    def selected(self):
        """The view and the member of the panel."""
        return tuple(self.page.ask("[...document.querySelectorAll('#detail h2, #detail h3')].map((it) => it.innerText)"
                                   ".map((it) => it.match(/^(?:View|Member) (\\d+)/)?.[1]).filter(Boolean).map(Number)"))

    def counters(self):
        lost = self.trace.lost()
        counted = self.page.ask("Object.fromEntries([...document.querySelectorAll('#counters div')].map((it) => "
                                "[it.querySelector('dt').innerText, it.querySelector('dd').innerText.replaceAll(',', '')]))")
        wanted = {"views": self.trace.views, "finalized": len(self.trace.chain), "lost": len(lost), "events": len(self.trace.lines)}
        self.expect("counters", {name: counted.get(name) for name in wanted}, {name: str(count) for name, count in wanted.items()})
        listed = self.page.ask("[...document.querySelectorAll('#lost li')].map((it) => Number(it.dataset.view))")
        self.expect("lost views", listed, lost[:200])

    def view(self, view):
        """Chooses a view by its number, and compares the panel."""
        self.page.ask(f"(() => {{ const it = document.getElementById('view'); it.value = {view}; it.dispatchEvent(new Event('change')); }})()")
        self.page.drawn()
        self.expect("the view that was typed", self.selected()[0], view)
        wanted = {f"{kind} {payload}".strip(): ",".join(map(str, signers)) for (kind, payload), signers in self.trace.votes(view).items()}
        seen = self.page.ask("Object.fromEntries([...document.querySelectorAll('#votes tr')].map((it) => "
                             "[it.querySelector('th').innerText.trim(), it.dataset.signers]))")
        self.expect(f"votes of view {view}", seen, wanted)
        fate = self.page.text("fate")
        is_lost, is_final = view in self.trace.lost(), view in self.trace.chain
        self.expect(f"fate of view {view}: {fate}", (fate.startswith("Lost: "), fate.startswith("Final")), (is_lost, is_final))
        leader = f"Leader: member {self.trace.leader(view)}"
        self.expect(f"leader of view {view}", leader in self.page.text("detail"), True)
        self.compared += 1

    def keys(self):
        """Steps by keys from the first view on."""
        lost, last = self.trace.lost(), self.trace.views
        self.page.press("Home")
        self.page.press("ArrowRight", 3)
        self.expect("three steps on", self.selected(), (4, 0))
        self.page.press("ArrowDown", 2)
        self.page.press("ArrowLeft")
        self.expect("two members down, a step back", self.selected(), (3, 2))
        if following := [view for view in lost if view > 3]:
            self.page.press("n")
            self.expect("the next lost view", self.selected()[0], following[0])
        self.page.press("End")
        self.page.press("PageUp")
        self.expect("ten before the last", self.selected()[0], last - 10)
        if before := [view for view in lost if view < last - 10]:
            self.page.press("p")
            self.expect("the lost view before", self.selected()[0], before[-1])

    def click(self, view, member):
        """Clicks on a cell."""
        self.page.press("Home")
        self.page.click("grid", LABEL + (view - 1) * CELL + CELL / 2, TOP + member * ROW + ROW / 2)
        self.expect("the cell that was clicked", self.selected(), (view, member))
        votes = sum(line.startswith(word) for line in self.events() for word in ("votes to notarize", "votes to nullify", "votes to finalize"))
        self.expect(f"votes of member {member} in view {view}", votes, self.trace.of(member, view, "vote"))

    def events(self):
        """What the panel says that the member did, without moments."""
        lines = self.page.ask("[...document.querySelectorAll('#view-events li')].map((it) => it.textContent)")
        return [line.partition("  ")[2] for line in lines]

    def withheld(self):
        """Clicks on cells of members that withheld their votes."""
        withheld = self.trace.withheld()
        for view, member in [it for it in sorted(withheld) if it[0] <= SHOWN_VIEWS][:4]:
            self.click(view, member)
            seen = [line for line in self.events() if line.startswith("withholds")]
            self.expect(f"what member {member} withheld in view {view}", seen, withheld[view, member])
            self.withheld_cells += 1

    def slider(self, view):
        self.page.ask(f"(() => {{ const it = document.getElementById('slider'); it.value = {view}; it.dispatchEvent(new Event('input')); }})()")
        self.expect("the slider's view", self.selected()[0], view)

    def filters(self):
        """Hides a member and a kind, and shows them again."""
        height = "document.getElementById('grid').clientHeight"
        before = self.page.ask(height)
        self.toggle("member-1")
        self.expect("a row less", before - self.page.ask(height), ROW)
        self.toggle("member-1")
        self.view(2)
        self.toggle("kind-notarize")
        self.expect("votes to notarize are hidden", [it for it in self.events() if "to notarize" in it], [])
        self.expect("pixels of hidden votes", self.pixels("notarize", "grid", certificates=False), 0)
        self.toggle("kind-notarize")
        self.expect("votes to notarize are there again", any("to notarize" in it for it in self.events()), True)

    def toggle(self, name):
        self.page.ask(f"document.getElementsByName('{name}')[0].click()")
        self.page.drawn()

    def pixels(self, colour, canvas, certificates=True):
        """How many pixels of a canvas have a colour of the style sheet, with or without the row of certificates."""
        return self.page.ask(f"""(() => {{
            const canvas = document.getElementById('{canvas}'), pen = canvas.getContext('2d');
            const wanted = getComputedStyle(document.documentElement).getPropertyValue('--{colour}').trim();
            const bytes = pen.getImageData(0, 0, canvas.width, canvas.height - {0 if certificates else 26} * devicePixelRatio).data;
            const [red, green, blue] = [1, 3, 5].map((at) => parseInt(wanted.slice(at, at + 2), 16));
            let count = 0;
            for (let i = 0; i < bytes.length; i += 4) count += bytes[i] === red && bytes[i + 1] === green && bytes[i + 2] === blue;
            return count;
        }})()""")

    def drawing(self):
        """Looks at pixels, at messages in the time line, and at dark and printed pages."""
        self.page.press("Home")
        self.expect("votes to notarize are drawn", self.pixels("notarize", "grid", certificates=False) > 500, True)
        self.expect("the chain is drawn", self.pixels("finalize", "chain") > 500, True)
        self.view(5)
        events, messages = self.time_line()
        self.expect(f"messages are drawn ({events} events, {messages} messages)", messages > 3, True)
        self.page.ask("document.getElementById('timeline').focus()")
        self.page.press("+", 3)
        self.expect("fewer events in a shorter time", self.time_line()[0] < events, True)
        light = self.page.ask("document.getElementById('grid').getContext('2d').getImageData(2, 2, 1, 1).data[0]")
        self.page.call("Emulation.setEmulatedMedia", features=[{"name": "prefers-color-scheme", "value": "dark"}])
        self.page.drawn()
        dark = self.page.ask("document.getElementById('grid').getContext('2d').getImageData(2, 2, 1, 1).data[0]")
        self.expect(f"paper is dark where dark is preferred ({light}, {dark})", light > 200 > 60 > dark, True)
        self.page.call("Emulation.setEmulatedMedia", media="print", features=[{"name": "prefers-color-scheme", "value": "light"}])
        self.expect("controls are not printed", self.page.ask("getComputedStyle(document.getElementById('controls')).display"), "none")
        self.page.call("Emulation.setEmulatedMedia", media="", features=[{"name": "prefers-color-scheme", "value": "light"}])

    def time_line(self):
        """How many events and messages the time line shows."""
        words = self.page.text("timeline-status").replace(":", "").replace(",", "").split()
        return int(words[words.index("events") - 1]), int(words[words.index("messages") - 1])

    def all(self, reasons):
        lost, last = self.trace.lost(), self.trace.views
        self.counters()
        for view in sorted({1, 2, last, last // 2, last // 3, *lost[:4], *lost[-2:]}):
            self.view(view)
        self.keys()
        self.click(5, 2)
        self.click(9, 0)
        self.withheld()
        self.slider(last // 2)
        self.filters()
        self.drawing()
        told = " ".join(self.page.ask("[...document.querySelectorAll('#lost li')].map((it) => it.innerText)"))
        self.expect(f"no reason among {told[:600]}", [it for it in reasons if it not in told], [])
        self.expect("exceptions of the page", self.page.faults, [])
        return self.faults


def run(words, **more):
    return subprocess.run([str(word) for word in words], capture_output=True, text=True, timeout=300, **more)


def build(engine, surroundings):
    """Builds the simulator and the viewer."""
    done = run(["cargo", "build", "--offline", "--quiet", "-p", "simplex-sim", "-p", "simplex-view"], cwd=engine, env=surroundings)
    if done.returncode:
        raise SystemExit(done.stderr[-4000:])
    return Path(surroundings["CARGO_TARGET_DIR"]) / "debug"


def refusals(programs, room, trace):
    """What is wrong with a page that meets a file of somebody else's, and an earlier page."""
    thesis, page = room / "thesis.html", room / "again.html"
    thesis.write_text("years of work")
    done = run([programs / "simplex-view", trace, "-o", thesis])
    if done.returncode == 0 or thesis.read_text() != "years of work":
        yield "a file that is no page was written over"
    if "name another file" not in done.stderr:
        yield f"a refusal does not say what to do: {done.stderr}"
    if [run([programs / "simplex-view", trace, "-o", page]).returncode for _ in range(2)] != [0, 0]:
        yield "a page is not written again"
    if run([programs / "simplex-view", thesis, "-o", page]).returncode == 0:
        yield "a file that is no trace was taken for one"


def faults(binary, programs, room, screenshots=None):
    """What is not as it has to be. How many views were compared is printed."""
    compared, withheld = 0, 0
    with chromium.Page(binary) as page:
        for name, words, reasons in NETWORKS:
            trace, html = room / f"{name}.trace", room / f"{name}.html"
            played = run([programs / "simplex-sim", *words.split(), "--trace", trace])
            viewed = run([programs / "simplex-view", trace, "-o", html])
            if played.returncode or viewed.returncode:
                yield f"{name}: {played.stdout}{played.stderr}{viewed.stderr}"
                continue
            page.open(html)
            shown = Shown(page, Traced(trace), name)
            yield from shown.all(reasons)
            compared, withheld = compared + shown.compared, withheld + shown.withheld_cells
            if screenshots:
                picture = page.call("Page.captureScreenshot", format="png")["data"]
                (screenshots / f"{name}.png").write_bytes(base64.b64decode(picture))
    print(f"browser: {len(NETWORKS)} pages, {compared} views compared, {withheld} cells of members that withheld their votes")
    if withheld < LEAST_WITHHELD:
        yield f"{withheld} cells of members that withheld their votes, where {LEAST_WITHHELD} are asked for"
    yield from refusals(programs, room, room / "healthy.trace")


def tried(binary, programs, room, screenshots=None):
    """The faults, or what the browser said where it failed."""
    try:
        return list(faults(binary, programs, room, screenshots))
    except chromium.BrowserFault as fault:
        return [str(fault)]


def wrong_bodies(binary, surroundings, room, only):
    """Those that the test did not find, of the wrong bodies whose name holds a word."""
    copy = room / "copy"
    shutil.copytree(ROOT / "node", copy / "node", ignore=shutil.ignore_patterns("target"))
    shutil.copytree(ROOT / "bindings", copy / "bindings", ignore=shutil.ignore_patterns("target", "*.a"))
    for name, file, old, new in (it for it in WRONG_BODIES if only in it[0]):
        path = copy / "node/view" / file
        right = path.read_text()
        if right.count(old) != 1:
            yield f"{name}: its text is {right.count(old)} times in {file}"
            continue
        path.write_text(right.replace(old, new))
        with tempfile.TemporaryDirectory() as scratch:
            found = tried(binary, build(copy / "node", surroundings), Path(scratch))
        path.write_text(right)
        print(f"{name}: {found[0][:160] if found else 'nothing'}", flush=True)
        if not found:
            yield f"{name}: the test did not fail"


def main():
    parser = argparse.ArgumentParser(description=__doc__, formatter_class=argparse.RawDescriptionHelpFormatter)
    parser.add_argument("--archive", type=Path, help="the library, if it is built already")
    parser.add_argument("--screenshots", type=Path, help="where a picture of each page goes")
    parser.add_argument("--target", type=Path, help="cargo's folder, if it is to stay")
    parser.add_argument("--wrong", action="store_true", help="the wrong bodies alone")
    parser.add_argument("--only", default="", help="the wrong bodies whose name holds this")
    given = parser.parse_args()
    binary = chromium.found()
    if not binary:
        print("browser: skipped, since there is no Chromium: apt-get install chromium")
        sys.exit(SKIPPED)
    if not is_ready():
        sys.exit(SKIPPED)
    with tempfile.TemporaryDirectory() as room:
        room = Path(room)
        archive = given.archive and given.archive.resolve() or room / "libsimplex.a"
        if not given.archive:
            subprocess.run([ROOT / "bindings/build", "--unproved", "--out", archive], check=True)
        target = given.target or room / "target"
        surroundings = {**os.environ, "SIMPLEX_ARCHIVE": str(archive), "CARGO_TARGET_DIR": str(target), "CARGO_NET_OFFLINE": "true"}
        if given.wrong:
            found = list(wrong_bodies(binary, surroundings, room, given.only))
        else:
            found = tried(binary, build(ROOT / "node", surroundings), room, given.screenshots)
    for it in found:
        print(it)
    print(f"browser: {len(found)} not as they have to be")
    sys.exit(1 if found else 0)


if __name__ == "__main__":
    main()
