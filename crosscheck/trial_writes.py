"""Accepted records and reports that are written where a write fails, or by runs that are killed: each file is the old one or the new one."""

import os
import resource
import shutil
import signal
import subprocess
import time
from pathlib import Path
from random import Random
from xml.etree import ElementTree

from trial_runs import case_of, hold_report
from trial_specs import FOLDER, Accepted, Repository, accepted_path, name_of

REPORT, OLD_REPORT, PART = "report.xml", b"<old/>\n", ".part"
NO_REPORT = f"{REPORT}: report not written\n".encode()
WORDS = ["--update", "--junit", REPORT, FOLDER]
ACCEPTED, SAME, NOT_WRITTEN = b"accepted\n", b"as accepted\n", b"accepted text not written\n"
WRITE_FAULT = b"isofarm: write fault\n"
# An accepted text that is longer than the records which take its place, and no record.
OLD_TEXT = b"old\n" * 4_000
# How many bytes a file may have, and how many pages of a disk are free.
LIMITS, FREE_PAGES = [0, 1, 150, 280, 640, 1_000, 100_000], [0, 1, 2, 3, 5, 8, 40]
PAGE, DISK = 4_096, 1 << 20
KILLS_AT_ANY_MOMENT = 40
# What fills files and names them, by the names that machines have for it, and how it may fail. Before a call that fills a file that is there and
# empty, and before one that names it, it is whole.
FAILS = {"write": "ENOSPC", "?rename,?renameat,?renameat2": "EIO"}
MOST_CALLS = 2_000


class Writes:
    """A repository in which a third of the accepted records is there, a third is another text, and a third is not there."""

    def __init__(self, trial, top, seed):
        self.trial, self.repository = trial, Repository(top, seed)
        self.top, self.paths = self.repository.top, self.repository.paths()
        self.new, self.old = {}, {}
        for number, path in enumerate(self.paths):
            page = Accepted(name_of(path), self.repository.now[path]).page
            self.new[path], self.old[path] = page, [None, OLD_TEXT, page][number % 3]

    def file(self, path):
        return self.top / accepted_path(path)

    def parts(self):
        return sorted(self.top.rglob(f"*{PART}"))

    def begin(self):
        """As it is before each run."""
        if not self.top.exists():
            self.repository.make()
        for part in self.parts():
            part.unlink()
        for path, text in self.old.items():
            if text is None:
                self.file(path).unlink(missing_ok=True)
            elif not self.file(path).exists() or self.file(path).read_bytes() != text:
                self.file(path).write_bytes(text)
        (self.top / REPORT).write_bytes(OLD_REPORT)

    def texts(self):
        return {path: self.file(path).read_bytes() if self.file(path).exists() else None for path in self.paths}

    def hold_whole(self, what):
        """Whether each file is the old one or the new one."""
        for path, text in self.texts().items():
            self.trial.hold(f"{what}, {path} is whole", text in (self.old[path], self.new[path]), True)
        report = (self.top / REPORT).read_bytes()
        try:
            is_whole = report == OLD_REPORT or ElementTree.fromstring(report).tag == "testsuites"
        except ElementTree.ParseError:
            is_whole = False
        self.trial.hold(f"{what}, the report is whole", is_whole, True)

    def hold_told(self, what, told):
        """Whether what is told of each spec is what became of its text, and the status is that of the worst."""
        status, out, error = told
        is_written = (self.top / REPORT).read_bytes() != OLD_REPORT
        want = [(path, self.line_of(path, text)) for path, text in self.texts().items()]
        worst = 0 if is_written and all(line != NOT_WRITTEN for _path, line in want) else 5
        lines = b"".join(f"{path}: ".encode() + line for path, line in want) + (b"" if is_written else NO_REPORT)
        self.trial.hold(what, (status, out, error), (worst, lines, b""))
        self.trial.hold(f"{what}, files that are left", self.parts(), [])
        if is_written:
            cases = [case_of(path, 5 if line == NOT_WRITTEN else 0, f"{path}: ".encode() + line) for path, line in want]
            hold_report(self.trial, what, self.top / REPORT, cases)

    def line_of(self, path, text):
        if self.old[path] == self.new[path]:
            return SAME
        return ACCEPTED if text == self.new[path] else NOT_WRITTEN

    def mend(self, what):
        """A run that nothing disturbs: all is written, and nothing else is left."""
        lines = b"".join(f"{path}: ".encode() + (SAME if text == self.new[path] else ACCEPTED) for path, text in self.texts().items())
        self.trial.tells(f"{what}, then", WORDS, self.top, (0, lines))
        self.trial.hold(f"{what}, then", self.texts(), self.new)
        self.trial.hold(f"{what}, then, files that are left", self.parts(), [])
        hold_report(self.trial, f"{what}, then", self.top / REPORT, [case_of(path, 0, b"") for path in self.paths])

    def failing(self, what, behind=lambda: None, **how):
        """A run whose writes may fail, those to standard output too, which has a front of the lines then. Whether something failed is given.
        Something may be done behind it, before a run mends all."""
        status, out, error = told = self.trial.run(WORDS, self.top, **how)
        self.hold_whole(what)
        if error == WRITE_FAULT:
            lines = b"".join(f"{path}: ".encode() + self.line_of(path, self.new[path]) for path in self.paths) + NO_REPORT
            self.trial.hold(f"{what}, standard output fails", (status, lines.startswith(out)), (5, True))
            self.trial.hold(f"{what}, files that are left", self.parts(), [])
        else:
            self.hold_told(what, told)
        behind()
        self.mend(what)
        self.trial.counts["failing runs"] += status == 5
        return status == 5

    def killed(self, what):
        """What is left of a run that was killed."""
        self.hold_whole(what)
        self.trial.counts["kills"] += 1
        self.trial.counts["kills that left a part"] += bool(self.parts())
        self.trial.hold(f"{what}, parts", len(self.parts()) <= 1, True)
        self.mend(what)


def no_longer_than(limit):
    return lambda: resource.setrlimit(resource.RLIMIT_FSIZE, (limit, resource.RLIM_INFINITY))


def short_files(writes):
    """Files may not grow over a limit: a longer text is not written, or ends the run where the signal for it is not ignored."""
    for limit in LIMITS:
        writes.begin()
        # This process ignores the signal, and so does what it begins.
        writes.failing(f"files of {limit} bytes", restore_signals=False, preexec_fn=no_longer_than(limit))
        writes.begin()
        status, _out, _error = writes.trial.run(WORDS, writes.top, preexec_fn=no_longer_than(limit))
        writes.trial.hold(f"files of {limit} bytes, killed", status, 0 if limit == LIMITS[-1] else -signal.SIGXFSZ)
        if status:
            writes.killed(f"files of {limit} bytes, killed")


def moments(writes, seed):
    """Runs that are killed at any moment."""
    random, began = Random(seed), time.monotonic()
    writes.begin()
    writes.trial.run(WORDS, writes.top)
    whole = time.monotonic() - began
    for number in range(KILLS_AT_ANY_MOMENT):
        writes.begin()
        with subprocess.Popen([writes.trial.program, "test", *WORDS], cwd=writes.top, stdout=subprocess.DEVNULL) as process:
            time.sleep(random.uniform(0, whole))
            process.kill()
        writes.killed(f"killed at moment {number}")


# ---- a full disk


def full_disk(trial, folder, seed):
    """A disk with few pages left. What is left out is given."""
    folder.mkdir()
    mount = ["mount", "-t", "tmpfs", "-o", f"size={DISK}", "none", folder]
    if not shutil.which("mount") or subprocess.run(mount, capture_output=True, check=False).returncode:
        return ["a full disk, since nothing may be mounted here"]
    try:
        writes = Writes(trial, folder / "repository", seed)
        for pages in FREE_PAGES:
            writes.begin()
            fill(folder / "filler", pages)
            writes.failing(f"{pages} pages free", behind=(folder / "filler").unlink)
    finally:
        subprocess.run(["umount", folder], check=True)
    return []


def fill(filler, pages):
    """Fills a disk up to so many pages."""
    with filler.open("wb", buffering=0) as file:
        try:
            while file.write(bytes(PAGE)):
                pass
        except OSError:
            file.truncate(max(file.tell() - pages * PAGE, 0))
            os.fsync(file.fileno())


# ---- system calls that fail, or that a run is killed at


def strace(inject, number, *more):
    return ["strace", "-f", "-qq", "-o", "/dev/null", "-e", f"trace={inject}", "-e", f"inject={inject}:{':'.join(more)}:when={number}"]


def is_traced(folder):
    return shutil.which("strace") and not subprocess.run(["strace", "-o", "/dev/null", "true"], cwd=folder, capture_output=True, check=False).returncode


def calls(writes):
    """Runs that are killed at each write and at each change of a name, and runs in which one of these fails. What is left out is given."""
    if not is_traced(writes.top):
        return ["runs that fail and are killed at each write, since there is no strace"]
    for name in FAILS:
        for number in range(1, MOST_CALLS):
            writes.begin()
            status, _out, _error = writes.trial.run(WORDS, writes.top, strace(name, number, "signal=SIGKILL"))
            if status == 0:
                break
            writes.trial.hold(f"killed at {name} {number}", status, -signal.SIGKILL)
            writes.killed(f"killed at {name} {number}")
    for name, error in FAILS.items():
        for number in range(1, MOST_CALLS):
            writes.begin()
            if not writes.failing(f"{name} fails at {number}", before=strace(name, number, f"error={error}")):
                break
    return []


def writes(trial, folder, seed):
    """What is left out is given."""
    folder.mkdir()
    repository = Writes(trial, Path(folder, "repository"), seed)
    repository.begin()
    short_files(repository)
    moments(repository, seed)
    return [*full_disk(trial, folder / "disk", seed), *calls(repository)]
