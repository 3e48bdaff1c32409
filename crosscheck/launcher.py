"""Looks at ./isofarm: which program it runs, when it compiles it anew, and what it tells where that goes wrong.

usage: python3 crosscheck/launcher.py

It works on a small copy in a folder with a blank in its name and no git, whose `launcher/compile` takes the built program, or the one in the variable ISOFARM,
in place of a compiler, and notes that it was called. The real one is compared with the proved program by compare_compiled.py.
"""

import os
import shutil
import signal
import subprocess
import sys
import time
from contextlib import contextmanager
from pathlib import Path
from tempfile import TemporaryDirectory

from compare import PROGRAM, ended

TOP = Path(__file__).resolve().parent.parent
SOURCE = "crates/isofarm/src/main.rt"
COMPILING = "isofarm: compiling the program from its sources, which takes some minutes, once\n"
PROVED, NOT_PROVED = "compiled from proved sources", "compiled from sources that were not proved, with run-time checks"
STOPPED = "isofarm: stopped by a run-time check: the sources that it was compiled from were not proved\n"
NOT_BUILT = "isofarm: the program was not built\n"
STUB = """#!/usr/bin/env bash
echo "$3" >> "$(dirname "$0")/../called"
sleep "$(cat "$(dirname "$0")/../seconds" 2> /dev/null || echo 0)"
cp "$(cat "$(dirname "$0")/../program")" "$2/isofarm"
"""
STOPS = "#!/usr/bin/env bash\nkill -ILL $$\n"


class Copy:
    """A small repository with the launcher."""

    def __init__(self, folder):
        self.top = folder
        (folder / "launcher").mkdir(parents=True)
        (folder / "crates/isofarm/src").mkdir(parents=True)
        for name in ("isofarm", "launcher/sum", "launcher/parts.py", "launcher/stops.ll", "launcher/without_checks.sed"):
            shutil.copy(TOP / name, folder / name)
        (folder / "launcher/compile").write_text(STUB)
        (folder / "launcher/compile").chmod(0o755)
        (folder / "crates.txt").write_text("isofarm:\n")
        (folder / SOURCE).write_text("fn main() {}\n")
        self.take(PROGRAM)
        self.prove()

    def take(self, program):
        """Has the next compilation end in this program."""
        (self.top / "program").write_text(str(program))

    def prove(self):
        """Says that the sources as they are were proved."""
        (self.top / "PROVED").write_text(self.sum() + "\n")

    def sum(self):
        return subprocess.run([self.top / "launcher/sum"], capture_output=True, text=True, check=True).stdout.strip()

    def called(self):
        """Whether the sources were proved, for each compilation so far."""
        path = self.top / "called"
        return path.read_text().split() if path.is_file() else []

    def words(self, *words):
        return [str(self.top / "isofarm"), *(words or ("--version",))]

    def run(self, *words, **how):
        ran = subprocess.run(self.words(*words), cwd="/", stdin=subprocess.DEVNULL, capture_output=True, text=True, check=False, **how)
        return ran.returncode, ran.stdout, ran.stderr

    def start(self):
        return subprocess.Popen(self.words(), stdin=subprocess.DEVNULL, stdout=subprocess.PIPE, stderr=subprocess.PIPE, text=True)

    def version(self, origin):
        """What --version tells of a program of that origin."""
        return 0, f"isofarm 0.1.0\n{origin}, {self.sum()}\n"

    @contextmanager
    def slow(self, seconds):
        (self.top / "seconds").write_text(str(seconds))
        yield
        (self.top / "seconds").unlink()


# the looks: each gives what it found and what it expected


def look_as_landed(copy):
    yield "as landed", copy.run(), (*copy.version(PROVED), f"{COMPILING}isofarm: {PROVED}\n")
    yield "once more", copy.run(), (*copy.version(PROVED), "")
    yield "the compilations", copy.called(), ["yes"]
    (copy.top / "link").symlink_to(copy.top / "isofarm")
    told = subprocess.run([copy.top / "link", "--version"], cwd="/", capture_output=True, text=True, check=False)
    yield "by a link", (told.returncode, told.stdout), copy.version(PROVED)
    spec = TOP / "examples/first.spec"
    yield "an answer", copy.run("one", str(spec), "0"), (0, spec.with_suffix(".out").read_text(), "")


def look_at_touches(copy):
    copy.run()
    source = copy.top / SOURCE
    source.touch()
    yield "a source that is touched", copy.run(), (*copy.version(PROVED), "")
    yield "its compilations", copy.called(), ["yes"]
    source.with_name("out").mkdir()
    (copy.top / "PROVED").unlink()
    yield "without PROVED", copy.run()[:2], copy.version(NOT_PROVED)
    yield "the compilations then", copy.called(), ["yes", "no"]


def look_at_edits(copy):
    copy.run()
    source, before = copy.top / SOURCE, copy.sum()
    source.write_text("fn main() { }\n")
    os.utime(source, (0, 0))
    yield "an edited source with an old time", copy.run(), (*copy.version(NOT_PROVED), f"{COMPILING}isofarm: {NOT_PROVED}\n")
    yield "its sum", copy.sum() == before, False
    source.with_name("more.rt").write_text("")
    yield "a source more", copy.run()[:2], copy.version(NOT_PROVED)
    source.with_name("more.rt").unlink()
    source.write_text("fn main() {}\n")
    yield "as before", copy.run()[:2], copy.version(PROVED)
    yield "the compilations", copy.called(), ["yes", "no", "no", "yes"]
    yield "what is kept", len([*(copy.top / "out").glob("isofarm-*")]), 1


def look_at_stops(copy):
    (copy.top / "stops").write_text(STOPS)
    (copy.top / "stops").chmod(0o755)
    copy.take(copy.top / "stops")
    (copy.top / "PROVED").unlink()
    copy.run("one")
    yield "a run-time check", copy.run("one"), (132, "", STOPPED)


def look_at_kills(copy):
    with copy.slow(30):
        first = copy.start()
        while not copy.called():
            time.sleep(0.05)
        time.sleep(0.3)
        first.send_signal(signal.SIGTERM)
        first.communicate()
    yield "a build that is killed", first.returncode, 130
    yield "behind it", copy.run()[:2], copy.version(PROVED)
    yield "what it left", sorted(path.name for path in (copy.top / "out").glob("room.*")), []


def look_at_two(copy):
    with copy.slow(1):
        ends = [it.communicate() for it in [copy.start(), copy.start()]]
    yield "two at once", [out for out, _err in ends], [copy.version(PROVED)[1]] * 2
    yield "who waits", sorted("waiting" in err for _out, err in ends), [False, True]
    yield "their compilations", copy.called(), ["yes"]


def look_at_full_disk(copy):
    if os.geteuid() != 0 or subprocess.run(["unshare", "-m", "true"], capture_output=True, check=False).returncode != 0:
        print("left out a full disk: it wants root and a mount of its own")
        return
    (copy.top / "out").mkdir()
    script = 'mount -t tmpfs -o size=256k tmpfs "$1/out" && exec "$1/isofarm" --version'
    told = subprocess.run(["unshare", "-m", "sh", "-c", script, "", copy.top], capture_output=True, text=True, check=False)
    yield "a full disk", (told.returncode, told.stdout, told.stderr.endswith(NOT_BUILT)), (70, "", True)
    yield "and with room", copy.run()[:2], copy.version(PROVED)


LOOKS = [look_as_landed, look_at_touches, look_at_edits, look_at_stops, look_at_kills, look_at_two, look_at_full_disk]


def main():
    compared = differences = 0
    for look in LOOKS:
        with TemporaryDirectory() as folder:
            for name, found, expected in look(Copy(Path(folder, "with a blank"))):
                compared += 1
                if found != expected:
                    differences += 1
                    print(f"{name}: {found} in place of {expected}")
    print(f"{compared} compared, {differences} differences")
    return 1 if differences else 0


if __name__ == "__main__":
    sys.exit(ended(main))
