"""Tests of specs that are refused memory: what they tell, and what they leave.

Of each spec is told what is told with memory, or that there is none; or the one fault line stands alone. Just those texts are accepted of which
that is told, a report is whole or the old one, and no other file is left.
"""

import re
from pathlib import Path

from compare import PROGRAM, told

NO_MEMORY, NO_MEMORY_FOR_IT = (4, b"", b"isofarm: no memory\n"), "no memory\n"
REPORT, OLD_REPORT = "report.xml", b"<old/>\n"
ONE, TWO = b"session a step s {}\n", b"session a step s {} session b step t {}\n"
# Each spec with its text, and the accepted record that it has before each run: none, that of a text, or another text.
SPECS = {
    "specs/inner/new.spec": (ONE, None),
    "specs/inner/wrong.spec": (b"session a\n\tstep s {}\n\tstep {}\n", b"another one\n"),
    "specs/more.spec": (TWO, ONE),
    "specs/other.spec": (b"session a step r {}\n", ONE),
    "specs/same.spec": (ONE, ONE),
}
WORDS = ["specs --workers 1", "specs/more.spec specs/other.spec", "--update specs --workers 1", "nothing specs/inner --junit report.xml --workers 1"]
WORDS += ["--update --junit report.xml specs/inner specs/other.spec --workers 1", "specs/inner/wrong.spec --junit no/report.xml"]
# The status of what is told of a spec: the first of these that its first line begins with.
STATUSES = {"report not written": 5, "as accepted": 0, "accepted\n": 0, "no accepted text": 1, "differs": 1, "only the head": 1, "spec error": 3, "no memory": 4, "read fault": 5}


def told_of_each(out):
    """Each spec with what is told of it behind its path: lines that begin with a blank go on."""
    blocks = re.findall(r"([^ \n][^\n]*?): ([^\n]*\n(?: [^\n]*\n)*)", out.decode())
    return blocks if "".join(f"{path}: {text}" for path, text in blocks) == out.decode() else None


def apart(blocks):
    """What is told of specs, and of a report behind them that is not written."""
    of_report = [(path, text) for path, text in blocks if path.endswith(REPORT)]
    return blocks[: len(blocks) - len(of_report)], of_report


def status_of(text):
    return next(status for start, status in STATUSES.items() if text.startswith(start))


class Tested:
    """A folder with specs, and what is to be told of them."""

    def __init__(self, folder):
        self.folder = Path(folder)
        for path, (text, accepted) in SPECS.items():
            (self.folder / path).parent.mkdir(parents=True, exist_ok=True)
            (self.folder / path).write_bytes(accepted if accepted in (ONE, TWO) else text)
        before = self.accepted_now()
        for path, (text, _accepted) in SPECS.items():
            (self.folder / path).write_bytes(text)
        self.new = self.accepted_now()
        self.old = {path: before[path] if accepted in (ONE, TWO) else accepted for path, (_text, accepted) in SPECS.items()}

    def accepted_now(self):
        """The record of each spec that has one."""
        told(PROGRAM, ["test", "--update", "specs"], self.folder, {})
        return self.texts()

    def file(self, path):
        return self.folder / f"{path.removesuffix('.spec')}.accepted"

    def texts(self):
        return {path: self.file(path).read_bytes() if self.file(path).exists() else None for path in SPECS}

    def begin(self):
        for path, text in self.old.items():
            if text is None:
                self.file(path).unlink(missing_ok=True)
            else:
                self.file(path).write_bytes(text)
        (self.folder / REPORT).write_bytes(OLD_REPORT)
        self.names = {*self.folder.rglob("*")}

    def run(self, words, settings):
        self.begin()
        return told(PROGRAM, ["test", *words], self.folder, settings)

    def look(self, words):
        """A function that runs words with some settings and gives what is wrong then, or nothing."""
        full, _of_report = apart(told_of_each(self.run(words, {})[1]))
        report = (self.folder / REPORT).read_bytes()

        def wrong(settings):
            ran = self.run(words, settings)
            what = self.wrong_in(words, ran, full, report)
            return f"{what}: {ran}" if what else None

        return wrong

    def wrong_in(self, words, ran, full, report):
        """What is wrong with a run of which this is told with memory, or nothing."""
        told_now = [] if ran == NO_MEMORY else told_of_each(ran[1])
        blocks, of_report = apart(told_now or [])
        if ran != NO_MEMORY:
            if ran[2] or told_now is None or [path for path, _text in blocks] != [path for path, _text in full]:
                return "not all specs"
            if any(one not in (whole, NO_MEMORY_FOR_IT) for (_path, one), (_same, whole) in zip(blocks, full, strict=True)):
                return "something else is told"
        accepted = {path for path, text in blocks if text == "accepted\n"}
        if self.texts() != {path: self.new[path] if path in accepted else text for path, text in self.old.items()}:
            return "other texts are there"
        if {*self.folder.rglob("*")} - self.names != {self.file(path) for path in accepted if self.old[path] is None}:
            return "other files are there"
        return self.wrong_end(words, ran, blocks, of_report, blocks == full and report)

    def wrong_end(self, words, ran, blocks, of_report, report):
        """What is wrong with the status and the report."""
        got = (self.folder / REPORT).read_bytes()
        is_asked = "--junit" in words and ran != NO_MEMORY
        if ran[0] != max([status_of(text) for _path, text in blocks + of_report], default=4):
            return "another status"
        if got == OLD_REPORT:
            return None if bool(of_report) == is_asked else "it is not told whether the report is written"
        if of_report or not is_asked:
            return "another report"
        return None if got == report or got.count(b"<testcase ") == len(blocks) and got.endswith(b"</testsuites>\n") else "half a report"
