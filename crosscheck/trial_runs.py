"""Runs of `isofarm test` in a folder, with what they are held against, and reports in the form of JUnit as a standard parser reads them."""

import re
import shutil
import subprocess
from collections import Counter
from dataclasses import dataclass
from pathlib import Path
from xml.etree import ElementTree

MOST_SECONDS = 120
# What XML does not have, and what stands there.
NO_CHARACTERS, IN_ITS_PLACE = re.compile("[\0-\x08\x0b\x0c\x0e-\x1f\ufffe\uffff]"), "\ufffd"
BYTES_TOLD = 600


@dataclass(frozen=True)
class Case:
    """A case of a report: its name, `passed`, `failure` or `error`, the message, and the text."""

    name: str
    ending: str
    message: str
    text: str


class Trial:
    """Runs the program, counts the runs, and prints what is other than it should be."""

    def __init__(self, program):
        self.program, self.counts, self.differences = str(Path(program).resolve()), Counter(), 0

    def run(self, words, folder, before=(), program=None, **how):
        """The status and both outputs of the program, or a copy of it, with these words in a folder; words before them may be of another one."""
        self.counts["runs"] += 1
        command = [*before, program or self.program, "test", *words]
        how = {"check": False, "stdin": subprocess.DEVNULL, "capture_output": True, "timeout": MOST_SECONDS} | how
        ended = subprocess.run(command, cwd=folder, **{name: value for name, value in how.items() if value is not None})
        return ended.returncode, ended.stdout, ended.stderr

    def hold(self, what, got, want):
        """Whether two things are the same. Where they are not, both are printed."""
        if got != want:
            self.differences += 1
            print(f"{what}: {str(got)[:BYTES_TOLD]} in the place of {str(want)[:BYTES_TOLD]}", flush=True)
        return got == want

    def tells(self, what, words, folder, want, **how):
        """Whether the program tells this: a status and standard output, and nothing on standard error; or all three."""
        return self.hold(f"{what}, test {' '.join(words)}", self.run(words, folder, **how), want if len(want) == 3 else (*want, b""))


# ---- reports


def as_xml(text):
    """A text with characters in the place of those that XML does not have."""
    return NO_CHARACTERS.sub(IN_ITS_PLACE, text)


def case_of(path, status, out):
    """The case of a spec of which this was told."""
    name, told = as_xml(path), as_xml(out.decode().removeprefix(f"{path}: "))
    if status == 0:
        return Case(name, "passed", "", "")
    return Case(name, "failure" if status == 1 else "error", told.split("\n")[0], told)


def read_cases(element):
    for case in element:
        inner = [*case]
        assert case.tag == "testcase" and case.get("classname") == "isofarm" and len(inner) <= 1 and not (case.text or "").strip(), case.attrib
        if inner:
            yield Case(case.get("name"), inner[0].tag, inner[0].get("message"), inner[0].text or "")
        else:
            yield Case(case.get("name"), "passed", "", "")


def counts_of(element):
    return {name: int(element.get(name)) for name in ("tests", "failures", "errors")}


def hold_report(trial, what, file, cases):
    """Whether a file is a report of these cases and no others."""
    try:
        root = ElementTree.parse(file).getroot()
        (suite,) = root
        got = (root.tag, suite.tag, suite.get("name"), [*read_cases(suite)], counts_of(root), counts_of(suite))
    except (ElementTree.ParseError, OSError, AssertionError, TypeError, ValueError) as fault:
        trial.hold(f"{what}, the report", f"{type(fault).__name__}: {fault}", "a report")
        return
    counts = {"tests": len(cases)} | {f"{kind}s": sum(case.ending == kind for case in cases) for kind in ("failure", "error")}
    trial.hold(f"{what}, the report", got, ("testsuites", "testsuite", "isofarm", cases, counts, counts))
    trial.counts["cases of reports"] += len(cases)
    if shutil.which("xmllint"):
        ended = subprocess.run(["xmllint", "--noout", file], capture_output=True, check=False)
        trial.hold(f"{what}, xmllint", (ended.returncode, ended.stderr), (0, b""))
