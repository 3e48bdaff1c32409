"""Reads back what the playground shows in each browser, and compares it with what this second implementation tells.

usage: python3 crosscheck/compare_playground.py [SEED]

The playground is put together by `page/make`, first with a core that answers as this implementation does, and knows some texts: so page, worker
and address are looked at alone, with a core that lacks memory, or breaks, among its answers. Where `page/core/make` has left the module in
out/page/page.wasm, the playground is made of that too, and what it shows of the examples and of the specs of `page_specs/` is compared. The last
line counts.
"""

import json
import subprocess
import sys
from collections import Counter
from concurrent.futures import ThreadPoolExecutor
from pathlib import Path
from tempfile import TemporaryDirectory

from binding import bind
from browser import there
from checks import further, idle_lines
from classes import Asking
from compare import ended
from compare_pages import CONTRAST, CONTROLS, LEAST_CONTRAST, MAKE, SPECS, TOP, Reading, Wanted, plural
from generate import fresh_seed
from levels import NoLevel, level_in
from refusal import Refusal
from shown import Order, show_json
from spec_file import read_spec

CORE, MODULE = TOP / "page/core.js", TOP / "out/page/page.wasm"
EXAMPLES = TOP / "examples"
NAME = "playground.spec"
# Of specs with more permutations the orders alone are counted here.
MOST_ORDERS = 20_000
HEADS = {"name": "isofarm playground", "title": "isofarm playground"}
SENTENCE = "Here <b>something</b> is wrong."
LACKS, BREAKS, UNSTARTED, ENDLESS = b"# no memory for this\n", b"# this breaks the core\n", b"# this does not start\n", b"# this takes for ever\n"
TOO_MANY = b"# this has too many states\n"
LEVELS = ("read-committed", "serializable")
MISTAKEN = "setup { CREATE TABLE \u00e9 (id int PRIMARY KEY); }\nsession a\nstep a1 { INSERT INTO account VALUES (1 50); }\nstep a2 { COMMIT; SELECT 1 2; }\n".encode()
# A core that knows some texts. What it answers of them stands in its table; it is spent by one of them.
STUB = r"""
async function makeCore(bytes) {
  if (String(bytes.slice(0, 4)) !== '0,97,115,109') throw new Error('another module');
  const table = TABLE, of = spec => table[new TextDecoder().decode(spec)];
  let isSpent = false;
  const ask = (spec, part) => {
    if (isSpent) throw new Error('a spent core is asked');
    while (of(spec).endless);
    if (of(spec).breaks) { isSpent = true; return { fault: 'trap', kind: 0, place: 0 }; }
    return of(spec)[part];
  };
  return {
    check: spec => ask(spec, 'check'), classes: spec => ask(spec, 'classes'), show: (spec, rank) => ask(spec, 'shows')[String(rank)],
    get isSpent() { return isSpent; },
  };
}
"""


def at_level(text, level):
    return f"# level: {level}\n".encode() + text


# ---- the core that knows some texts


def line_and_column(text, place):
    before = text[:place].decode()
    return before.count("\n") + 1, len(before) - before.rfind("\n")


def faults_of(text):
    """The places of the faults of a text."""
    try:
        bind(read_spec(text))
    except Refusal as refusal:
        try:
            others = [other.place for other in further(read_spec(text), refusal)]
        except Refusal:
            others = []
        return [refusal.place, *others]
    return []


def answers_of(text):
    """What the core answers of a text that it knows."""
    lines = {LACKS: {"check": {"fault": "memory", "kind": 0, "place": 0}}, BREAKS: {"breaks": True}, ENDLESS: {"endless": True}}
    if text in lines:
        return lines[text]
    right = {"check": {"faults": [], "text": ""}}
    if text == UNSTARTED:
        return right | {"classes": {"fault": "start", "kind": 2, "place": 1}}
    if text == TOO_MANY:
        return right | {"classes": {"fault": "states", "kind": 0, "place": 12_345_678}}
    faults = [dict(zip(("line", "column"), line_and_column(text, place)), sentence=SENTENCE, place=place) for place in faults_of(text)]
    if faults:
        return {"check": {"faults": faults, "text": ""}}
    try:
        level = level_in(text)
    except NoLevel as refusal:
        return {"check": {"fault": "level", "kind": refusal.kind, "place": refusal.place}}
    spec = bind(read_spec(text))
    right["check"]["text"] = f"sessions {len(spec.session_names)}\n{idle_lines(text, read_spec(text), level)}"
    wanted = Wanted(text, NAME, [])
    shows = {one["first_rank"]: show_json(Order(text, NAME, one["first_rank"])) for one in wanted.classes}
    return right | {"classes": json.dumps(wanted.value) + "\n", "shows": shows}


def stub(texts):
    # All of it is ASCII, and ends no script.
    table = json.dumps({text.decode(): answers_of(text) for text in texts})
    return STUB.replace("TABLE", table.replace("<", "\\u003c").replace(">", "\\u003e"))


def made(core, module, page):
    ran = subprocess.run([MAKE, "playground", core, module, page], capture_output=True, check=False)
    if ran.returncode:
        raise SystemExit(f"page/make playground: {ran.stderr.decode()}")
    return page


# ---- the page


class Playing(Reading):
    """The playground, used in one browser."""

    def put(self, text):
        """Puts a text in the place of what is there, as typing does. What is told of the one before is taken away, so that it is not taken for the answer."""
        wipe = "document.getElementById('status').replaceChildren(); const it = document.getElementById('spec');"
        self.browser.run(f"(() => {{ {wipe} it.value = {json.dumps(text.decode())}; it.dispatchEvent(new Event('input')); }})()")

    def value(self, field):
        return self.browser.run(f"document.getElementById('{field}').value")

    def choose(self, field, value):
        """Chooses a value as one does. What is told of the text is taken away."""
        change = f"it.value = {json.dumps(value)}; it.dispatchEvent(new Event('change'));"
        self.browser.run(f"(() => {{ document.getElementById('status').replaceChildren(); const it = document.getElementById('{field}'); {change} }})()")

    def status(self, words):
        """Waits until the page tells this of the text."""
        return self.browser.wait_for(f"document.getElementById('status').textContent.includes({json.dumps(words)}) && document.getElementById('status').textContent")

    def is_old(self):
        return self.browser.run("document.getElementById('results').classList.contains('old')")

    def expect(self, what, want, got):
        if want != got:
            self.wrong("playground", f"{what}: {want!r} was to be, and {got!r} is")

    def told(self, text):
        spec = bind(read_spec(text))
        counts = [plural(len(spec.session_names), "session"), plural(len(spec.steps), "step"), plural(Asking(text).classes(False).orders, "order")]
        return f"{', '.join(counts)}: "

    def shows(self, page, text):
        """The page shows all of a text."""
        self.status(self.told(text))
        self.read_open(page, Wanted(text, NAME, []), HEADS)
        self.expect(f"{page} is old", False, self.is_old())

    def mistakes(self, text):
        """Faults are told with their places, and a button leads there; what was shown before is faint."""
        self.put(text)
        places = faults_of(text)
        line, column = line_and_column(text, places[0])
        self.status(f"Line {line}, column {column}. {SENTENCE}")
        self.expect("faults", len(places), self.browser.run("document.querySelectorAll('#status div').length"))
        self.expect("an old answer is faint", True, self.is_old())
        marks = self.browser.run("[...document.querySelectorAll('#status pre')].map(one => one.textContent.split('\\n'))")
        for place, (shown, mark) in zip(places, marks, strict=True):
            line, column = line_and_column(text, place)
            self.expect("the line of a fault", text.decode().split("\n")[line - 1][: column + 47], shown)
            self.expect("the mark of a fault", " " * (column - 1) + "^", mark)
        self.browser.run("(document.querySelectorAll('#status button')[1].click(), 1)")
        self.expect("the way to a fault", len(text[: places[1]].decode()), self.browser.run("document.getElementById('spec').selectionStart"))
        self.expect("the field with the way to a fault", "spec", self.browser.run("document.activeElement.id"))

    def refused(self):
        """A core that lacks memory, breaks, does not start a text, or finds too many states, is told of; the page goes on."""
        many = "The orders lead to too many different states: more than 12,345,678."
        told = ((LACKS, "not enough memory"), (BREAKS, "core has stopped"), (UNSTARTED, "The setup of a session fails (number 1"), (TOO_MANY, many), (BREAKS, "core has stopped"))
        for text, words in told:
            self.put(text)
            self.status(words)
            self.expect("an old answer is faint", True, self.is_old())

    def levels(self, text):
        """A level that is chosen is asked for by a line of the text, in the place of another one, and the choice is what the text asks for."""
        for level, wanted in (("", text), *((level, at_level(text, level)) for level in LEVELS), ("", text)):
            self.choose("level", level)
            self.shows(f"level {level}", wanted)
            self.expect("the text at a level", wanted.decode(), self.value("spec"))
            self.expect("the level of a text", level, self.value("level"))
        self.put(at_level(text, LEVELS[0]))
        self.shows("a level that is typed", at_level(text, LEVELS[0]))
        self.expect("the level that is typed", LEVELS[0], self.value("level"))
        self.put(at_level(text, "snapshot"))
        self.status("There is no such level (line 1).")
        self.expect("a level that is none", -1, self.browser.run("document.getElementById('level').selectedIndex"))
        self.choose("level", "")
        self.shows("a level that was none", text)
        self.expect("the text without a level", text.decode(), self.value("spec"))

    def stopped(self):
        """A text that takes long is told so, and a new one stops it."""
        self.put(ENDLESS)
        self.status("All orders are counted ..")
        self.put(LACKS)
        self.status("not enough memory")

    def address(self, path, text):
        """The address keeps the text, and the class; a page that is opened with it shows them."""
        self.browser.run("(document.getElementById('class-1').click(), 1)")
        fragment = self.browser.wait_for("location.hash.includes('&class=2') && location.hash")
        self.browser.open(path, fragment)
        self.shows("address", text)
        self.browser.open(path, fragment)
        self.status(self.told(text))
        self.expect("the class of an address", "2", self.browser.run("document.getElementById('what').textContent").split()[1])
        self.expect("the text of an address", text.decode(), self.value("spec"))

    def typed(self, before, letters):
        """Letters that are typed one after another are answered once, behind the last."""
        self.put(before)
        self.status(self.told(before))
        self.browser.run("(() => { const it = document.getElementById('spec'); it.focus(); it.setSelectionRange(it.value.length, it.value.length); })()")
        self.browser.type(letters)
        self.status("column")

    def reaches(self):
        controls = self.browser.run(CONTROLS)
        self.browser.run("(document.activeElement.blur(), 1)")
        missing = {*controls} - {*self.reach(["Tab"] * (len(controls) + 6))}
        if missing:
            self.wrong("keys", f"Tab does not reach {missing}")
        for theme in ("dark", "light"):
            self.browser.run("(document.getElementById('theme').click(), 1)")
            for text in self.browser.run(CONTRAST % LEAST_CONTRAST):
                self.wrong(f"{theme} theme", f"does not stand out: {text}")


def play(browser, path, seed, texts):
    """Uses the playground with the core that knows these texts."""
    playing, deadlock, hostile, skew = Playing(browser, seed), *(texts[name] for name in ("deadlock", "hostile", "write_skew"))
    browser.open(path)
    playing.shows("first", deadlock)
    playing.mistakes(MISTAKEN)
    playing.reaches()
    playing.put(hostile)
    playing.shows("hostile", hostile)
    playing.refused()
    playing.stopped()
    place = browser.run("[...document.getElementById('examples').options].find(one => one.textContent === 'write_skew.spec').value")
    playing.choose("examples", place)
    playing.shows("write_skew", skew)
    playing.levels(skew)
    playing.reaches()
    playing.address(path, skew)
    playing.typed(deadlock, "zz")
    return playing


def core_of(path, texts):
    """Shows each text in the playground with the module."""

    def use(browser, seed):
        playing = Playing(browser, seed)
        browser.open(path)
        playing.status("counted here")
        for name, text in texts.items():
            playing.put(text)
            if bind(read_spec(text)).ranks() > MOST_ORDERS:
                playing.status(playing.told(text))
            else:
                playing.shows(name, text)
        playing.put(MISTAKEN)
        line, column = line_and_column(MISTAKEN, faults_of(MISTAKEN)[0])
        playing.status(f"Line {line}, column {column}. ")
        playing.expect("faults", len(faults_of(MISTAKEN)), browser.run("document.querySelectorAll('#status div').length"))
        return playing

    return use


def main(seed):
    browsers = there()
    if not browsers:
        print("0 pages: there is no browser here")
        return 0
    texts = {path.stem: path.read_bytes() for path in [*sorted(EXAMPLES.glob("*.spec")), *sorted(SPECS.glob("*.spec"))]}
    known = [texts[name] for name in ("deadlock", "hostile", "write_skew")]
    known += [at_level(texts["write_skew"], level) for level in (*LEVELS, "snapshot")]
    known += [MISTAKEN, LACKS, BREAKS, UNSTARTED, TOO_MANY, ENDLESS, *(texts["deadlock"] + letters for letters in (b"z", b"zz"))]
    with TemporaryDirectory() as name, ThreadPoolExecutor(len(browsers)) as pool:
        folder = Path(name)
        (folder / "stub.js").write_text(stub(known), encoding="ascii")
        (folder / "stub.wasm").write_bytes(b"\0asm\1\0\0\0")
        stubbed = made(folder / "stub.js", folder / "stub.wasm", folder / "stub.html")
        uses = [lambda browser: play(browser, stubbed, seed, texts)]
        has_core = CORE.is_file() and MODULE.is_file()
        if has_core:
            use = core_of(made(CORE, MODULE, folder / "core.html"), texts)
            uses.append(lambda browser: use(browser, seed))

        def in_browser(kind):
            with kind() as browser:
                return [each(browser) for each in uses]

        playings = [one for several in pool.map(in_browser, browsers) for one in several]
    counts, found = sum((one.counts for one in playings), Counter()), sum(len(one.found) for one in playings)
    told = ", ".join(f"{counts[word]} {word}" for word in ("pages", "classes", "cells"))
    print(f"{told} in {' and '.join(one.name for one in browsers)}{'' if has_core else ' without the module'}, {found} differences")
    return 1 if found else 0


if __name__ == "__main__":
    if len(sys.argv) > 2:
        sys.exit(__doc__)
    sys.exit(ended(main, int(sys.argv[1]) if len(sys.argv) > 1 else fresh_seed()))
