"""Runs the Rattle tests of tests/calls, which call the crates in one process. Nothing of them is proved.

usage: python3 tests/calls.py [--jobs N] [MODULE::TEST..]

Each file tests/calls/NAME.rattle is the module NAME of a crate that stands nowhere else. The kit compiles it with run-time checks, with the crates as they lie
here, by `rt try --test`, once: the program is kept in out/calls while sources and kit stay the same. Each test then runs in a process of its own. Those that
are named are run, without names all. The last line counts, and the exit status is 1 where a test fails.

crosscheck/refused_growths.py runs the same program: a number that no run comes to stands in it where `rt try --fail-alloc` has the number of the growth that is
refused.
"""

import argparse
import hashlib
import os
import re
import shlex
import shutil
import subprocess
import sys
import time
from concurrent.futures import ThreadPoolExecutor
from pathlib import Path
from tempfile import TemporaryDirectory

TOP = Path(__file__).resolve().parent.parent
SOURCES = TOP / "tests/calls"
KEPT = TOP / "out/calls"
CRATE = "calls"
ENDING = ".rattle"
# The number of the refused growth that is compiled: no test makes so many.
NUMBER = 1_836_311_903
SECONDS = 300
LINES_TOLD = 12

FOLDERS = ["", "bin", "toolchain", "toolchain/bin"]
BUT_NO_CHECK = """#!/bin/sh
[ "$1" != check ] || exit 0
exec {real} "$@"
"""
AND_KEEP = """#!/bin/sh
{real} "$@" || exit
while [ $# -gt 1 ]; do
  [ "$1" != -o ] || cp "$2" {kept}
  shift
done
"""


class Unfit(Exception):
    """Why the tests are not run."""


def modules(wanted=None):
    """The files of all modules, or of those that this one stands on and itself."""
    paths = sorted(SOURCES.glob(f"*{ENDING}"))
    names, left = set(), [path.stem for path in paths] if wanted is None else [wanted]
    while left:
        name = left.pop()
        if name not in names:
            names.add(name)
            left += re.findall(r"\bcrate::(\w+)", (SOURCES / f"{name}{ENDING}").read_text())
    return [path for path in paths if path.stem in names]


def tests(wanted=None):
    """The names of the tests of these modules, each behind its module."""
    return [f"{path.stem}::{name}" for path in modules(wanted) for name in re.findall(r"#\[test\]\s+fn (\w+)", path.read_text())]


def kit_folder():
    rt = shutil.which("rt")
    if rt is None:
        raise Unfit("are not built: there is no rt")
    return Path(rt).resolve().parent.parent


def sum_of_sources(kit, top, wanted):
    """What the program is made of."""
    found = hashlib.sha256()
    for path in [*sorted(top.glob("crates/*/src/**/*.rt")), *modules(wanted), top / "crates.txt", top / "HANDLES", kit / "KIT-ID"]:
        if path.is_file():
            found.update(f"{path.name} {path.stat().st_size}\n".encode() + path.read_bytes())
    return found.hexdigest()[:16]


def kit_that_keeps(kit, room):
    """The kit, but for a linker that leaves the program that it made in the room, and no look at names."""
    copy, own = room / "kit", {"bin/rt", "bin/rtlib.py", "bin/rattle", "toolchain/bin/ld.lld"}
    for folder in FOLDERS:
        (copy / folder).mkdir()
        for path in (kit / folder).iterdir():
            if str(path.relative_to(kit)) not in own | {*FOLDERS}:
                (copy / folder / path.name).symlink_to(path)
    for name in ("bin/rt", "bin/rtlib.py"):
        shutil.copy(kit / name, copy / name)
    for name, script in (("bin/rattle", BUT_NO_CHECK), ("toolchain/bin/ld.lld", AND_KEEP)):
        (copy / name).write_text(script.format(real=shlex.quote(str(kit / name)), kept=shlex.quote(str(room / "program"))))
        (copy / name).chmod(0o755)
    return copy


def copied(room, top):
    """A repository of the sources of the crates of another one. A crate that is a link would be built where it lies."""
    scratch = room / "top"
    for crate in (top / "crates").iterdir():
        shutil.copytree(crate / "src", scratch / "crates" / crate.name / "src")
    for name in ("crates.txt", "HANDLES"):
        shutil.copy(top / name, scratch / name)
    return scratch


def scratch_top(kit, room, top, wanted):
    """A repository of the sources of the crates of another one, with the crate of these tests."""
    scratch = copied(room, top)
    own = scratch / "crates" / CRATE / "src"
    own.mkdir(parents=True)
    text = ""
    for path in modules(wanted):
        shutil.copy(path, own / f"{path.stem}.rt")
        text += path.read_text()
    declared = "".join(f"#[cfg(test)]\nmod {path.stem};\n" for path in modules(wanted))
    (own / "lib.rt").write_text(f"#![tactic(auto)]\n\n{declared}")
    libraries = {path.name.removesuffix(".rlib") for path in (kit / "rlibs").iterdir()} | {path.name for path in (top / "crates").iterdir()}
    used = sorted({*re.findall(r"\b(\w+)::", text)} & (libraries - {"std", "core"}))
    with open(scratch / "crates.txt", "a") as file:
        file.write(f"{CRATE}: {' '.join(used)}\n")
    return scratch / "crates" / CRATE


def linked(room, folder, words):
    """The bytes of the program that the kit's command links with these words."""
    ran = subprocess.run(words, cwd=folder, stdin=subprocess.DEVNULL, capture_output=True, text=True, check=False)
    if not (room / "program").is_file():
        raise Unfit(f"are not built:\n{ran.stdout}{ran.stderr}")
    return (room / "program").read_bytes()


def built(kit, room, top, wanted):
    """The bytes of the program of the tests over the crates of this top."""
    words = [str(kit_that_keeps(kit, room) / "bin/rt"), "try", "--test", "--fail-alloc", str(NUMBER), "--", tests(wanted)[0]]
    return linked(room, scratch_top(kit, room, top, wanted), words)


def checked_program(top):
    """The bytes of isofarm as its sources at this top make it, with run-time checks."""
    with TemporaryDirectory() as folder:
        room = Path(folder)
        words = [str(kit_that_keeps(kit_folder(), room) / "bin/rt"), "try", "--steps", "1", "--", "--version"]
        return linked(room, copied(room, top) / "crates/isofarm", words)


def program_of(top=TOP, wanted=None):
    """The path of the program of the tests, all or those of one module, which is kept, with the seconds that it took to build it."""
    began, kit = time.monotonic(), kit_folder()
    path = KEPT / sum_of_sources(kit, top, wanted)
    if not path.is_file():
        with TemporaryDirectory() as room:
            program = built(kit, Path(room), top, wanted)
        KEPT.mkdir(parents=True, exist_ok=True)
        if top == TOP:
            for old in KEPT.iterdir():
                old.unlink()
        part = KEPT / f"part-{os.getpid()}-{path.name}"
        part.write_bytes(program)
        part.chmod(0o755)
        part.rename(path)
    return path, time.monotonic() - began


def run(program, test):
    """Whether a test passes, and what it printed."""
    with TemporaryDirectory() as folder:
        try:
            ran = subprocess.run(
                [program, test], cwd=folder, env={}, stdin=subprocess.DEVNULL, capture_output=True, text=True, errors="replace", timeout=SECONDS, check=False
            )
        except subprocess.TimeoutExpired:
            return False, f"was stopped after {SECONDS} seconds"
    return ran.returncode == 0, ran.stdout + ran.stderr


def main():
    words = argparse.ArgumentParser(usage=__doc__.split("usage: ")[1].split("\n\n")[0])
    words.add_argument("--jobs", type=int, default=os.cpu_count())
    words.add_argument("names", nargs="*")
    asked, passed = words.parse_args(), 0
    wanted = [test for test in tests() if not asked.names or test in asked.names or test.split("::")[0] in asked.names]
    try:
        program, seconds = program_of()
    except Unfit as fault:
        print(f"the Rattle tests {fault}\n0 passed, {len(wanted)} failed")
        return 1
    print(f"built in {seconds:.0f} s")
    with ThreadPoolExecutor(asked.jobs) as pool:
        for test, (is_passed, text) in zip(wanted, pool.map(lambda test: run(program, test), wanted)):
            passed += is_passed
            if not is_passed:
                print(f"FAILED {test}\n" + "".join(f"  {line}\n" for line in text.splitlines()[-LINES_TOLD:]), end="")
    print(f"{passed} passed, {len(wanted) - passed} failed")
    return 0 if passed == len(wanted) else 1


if __name__ == "__main__":
    sys.exit(main())
