"""Puts wrong bodies into a copy of the repository, and looks whether what is named for each tells it: a case, a test or the prover.

usage: python3 crosscheck/wrong_bodies.py [--prove] [--sample K] [--seed N] [--jobs N] [NAME..]
       python3 crosscheck/wrong_bodies.py --landing
       python3 crosscheck/wrong_bodies.py --check

Each file of wrong_bodies/ is a wrong body, or a wrong definition. wrong_bodies/CRATE/NAME.edit has lines `file:`, `old:` and `new:` as an edit of must-fail/
has, its files named from the top, and one line before them that names what tells it:

    case: GROUP/NAME              a case of tests/cases, or GROUP: one of that group's
    test: MODULE::TEST            a test of tests/calls
    growths: MODULE::TEST         such a test, when it is refused its growths in turn
    clause: CRATE MODULE::FUNCTION LABEL   a contract; without LABEL where the clause has none

A NAME is that of the file, or CRATE/NAME. Without names all are tried that a case or a test tells, and with --prove those that the prover refuses; with --sample
K of them, half by the prover where --prove stands too. Which ones goes by the seed N, which is printed. --landing tries three by tests and three by the prover, taken by the files of
the newest commit. For a case or a test the program is compiled anew in a copy with that body. The prover looks at the one function, over the libraries that `rt ci` has
left in this checkout. As many are tried side by side as there are processors. out/wrong_bodies.md gets a table of what was told by what. --check builds
nothing: it looks whether all that the files name is there, and whether a clause is of a function that is changed. The exit status is 1 where a body is not told.
"""

import argparse
import os
import re
import shutil
import signal
import subprocess
import sys
import time
from concurrent.futures import ThreadPoolExecutor
from dataclasses import dataclass, field
from pathlib import Path
from random import Random, SystemRandom
from tempfile import TemporaryDirectory
from threading import Lock

TOP = Path(__file__).resolve().parent.parent
sys.path[:0] = [str(TOP / "tests"), str(TOP / "launcher")]

import calls
from kit import kit_command

FOLDER = TOP / "wrong_bodies"
TABLE = TOP / "out/wrong_bodies.md"
BY_TESTS, BY_PROVER = ("case", "test", "growths"), ("clause",)
SAMPLE_OF_LANDING = 3
LINES_TOLD = 5
NOT_PROVED = re.compile(r"^fn \S+: (no proof|not proved)")


@dataclass
class Body:
    name: str
    # How it is told (`case`, `test`, `growths` or `clause`), and the words behind that.
    kind: str = ""
    teller: list = field(default_factory=list)
    # Each a path from the top, what stands there, and what is put in its place.
    changes: list = field(default_factory=list)
    faults: list = field(default_factory=list)


def body_of(path):
    """What a file says, with the lines that it should not have."""
    body, file, old = Body(f"{path.parent.name}/{path.stem}"), None, None
    for line in path.read_text().splitlines():
        key, _colon, text = line.partition(": ")
        if key in BY_TESTS + BY_PROVER and not body.kind:
            body.kind, body.teller = key, text.split()
        elif key == "file":
            file = text
        elif key == "old" and file and old is None:
            old = text
        elif key == "new" and old is not None:
            body.changes.append((file, old, text))
            old = None
        elif not line.startswith("#"):
            body.faults.append(f"has a line that is none: {line}")
    if old is not None or not body.changes:
        body.faults.append("changes nothing, or has an old line without a new one")
    return body


def bodies():
    return [body_of(path) for path in sorted(FOLDER.glob("*/*.edit"))]


def changed(body):
    """The texts of the files that a body changes, by their path from the top, with it; and what cannot be changed."""
    texts, faults = {}, []
    for file, old, new in body.changes:
        path = TOP / file
        if not re.fullmatch(r"crates/\w+/(src/[\w/]+\.rt|specs/[\w/]+\.antt)", file) or not path.is_file():
            faults.append(f"names {file}, which is not there")
            continue
        text = texts.get(file, path.read_text())
        if text.count(old) != 1 or old == new:
            faults.append(f"wants to change what stands {text.count(old)} times in {file}: {old.strip()}")
        texts[file] = text.replace(old, new)
    return texts, faults


# what the files name


def contracts_of(crate, path):
    """The head of each function of that path, down to its body. A path is that of a module, of a type where there is one, and a name."""
    words, src = path.split("::"), TOP / "crates" / crate / "src"
    for length in range(len(words) - 1, -1, -1):
        file = src.joinpath(*words[:length]).with_suffix(".rt") if length else src / "lib.rt"
        if file.is_file():
            heads = re.findall(rf"^ *(?:pub(?:\(crate\))? )?(?:extern \"C\" )?fn {words[-1]}\b.*?(?:^ *\{{\}}?| \{{)$", file.read_text(), re.M | re.S)
            return [head for head in heads if length == len(words) - 1 or words[-2] in file.read_text()]
    return []


def is_told_by(body):
    """Whether what tells a body is there."""
    match body.kind, body.teller:
        case "case", [name]:
            return any((TOP / "tests/cases" / name).rglob("words"))
        case "test" | "growths", [name]:
            return name in calls.tests()
        case "clause", [crate, path, *labels]:
            heads = contracts_of(crate, path)
            return any(f"ensures {label} {{" in head for head in heads for label in labels) if labels else bool(heads)
    return False


def functions_changed(body):
    """The functions of sources in which the lines stand that a body changes. A constant above all functions is in none."""
    for file, old, _new in body.changes:
        text = (TOP / file).read_text() if file.endswith(".rt") and (TOP / file).is_file() else ""
        yield from re.findall(r"\bfn (\w+)", text[: text.find(old) + len(old)])[-1:]


def is_of_its_clause(body):
    """Whether the prover looks at a function that a body changes. What changes no function is refused by whatever stands on it."""
    functions = [*functions_changed(body)]
    return body.kind != "clause" or not functions or any(path.split("::")[-1] in functions for path in body.teller[1:2])


def faults_of(body):
    """What a file names that is not there."""
    faults = body.faults + changed(body)[1]
    if not is_of_its_clause(body):
        faults.append(f"changes another function than that of its clause: {' '.join(functions_changed(body))}")
    if not is_told_by(body):
        faults.append(f"names as what tells it: {body.kind} {' '.join(body.teller)}, which is not there")
    return [f"wrong_bodies/{body.name}.edit {fault}" for fault in faults]


def check(all_bodies):
    faults = [fault for body in all_bodies for fault in faults_of(body)]
    by_test = sum(body.kind in BY_TESTS for body in all_bodies)
    said = f"{len(all_bodies)} wrong bodies, one in a file, each with what tells it: {by_test} by a case or a test and {len(all_bodies) - by_test} by a clause"
    faults += [] if said in (TOP / "docs/PROMISES.md").read_text() else [f"docs/PROMISES.md does not say: {said}"]
    print("".join(f"{fault}\n" for fault in faults), end="")
    print(f"{len(all_bodies)} wrong bodies, {by_test} by a case or a test, {len(all_bodies) - by_test} by a clause; {len(faults)} faults")
    return 1 if faults else 0


# by a case or a test


def top_with(texts, folder):
    """A top whose crates are those here, but for the changed files."""
    (folder / "crates").mkdir()
    edited = {Path(file).parts[1] for file in texts}
    for crate in (TOP / "crates").iterdir():
        if crate.name in edited:
            shutil.copytree(crate, folder / "crates" / crate.name, ignore=shutil.ignore_patterns("out"))
        else:
            (folder / "crates" / crate.name).symlink_to(crate)
    for file, text in texts.items():
        (folder / file).write_text(text)
    for name in ("crates.txt", "HANDLES"):
        shutil.copy(TOP / name, folder / name)
    return folder


def run(words):
    ran = subprocess.run(words, cwd=TOP, stdin=subprocess.DEVNULL, stdout=subprocess.PIPE, stderr=subprocess.STDOUT, text=True, errors="replace", check=False)
    return ran.returncode, ran.stdout.splitlines()


def tested(body, texts, room):
    """Whether a case or a test tells a body, or none where that is not known, and what was printed."""
    top, program = top_with(texts, room), room / "isofarm"
    try:
        if body.kind == "case":
            program.write_bytes(calls.checked_program(top))
            program.chmod(0o755)
            status, lines = run([sys.executable, "tests/run", "--program", str(program), *body.teller])
            return status == 1, lines
        tests, _seconds = calls.program_of(top, body.teller[0].split("::")[0])
    except calls.Unfit as fault:
        return None, str(fault).splitlines()
    try:
        if body.kind == "test":
            is_passed, text = calls.run(tests, body.teller[0])
            return not is_passed, text.splitlines()
        status, lines = run([sys.executable, "crosscheck/refused_growths.py", "--jobs", "1", "--program", str(tests), *body.teller])
        return status == 1, lines
    finally:
        tests.unlink()


# by the prover


class Prover:
    """The kit's own check of one function, over the libraries that the gate has left."""

    def __init__(self):
        self.rt, before = kit_command(str(calls.kit_folder())), os.getcwd()
        os.chdir(TOP)
        self.rt.rtlib.guarded()
        self.rt.Crate.allowed = self.rt.handles_of(str(TOP))
        self.crates = {crate.name: crate for crate in self.rt.rtlib.crates_below(str(TOP))}
        os.chdir(before)

    def check(self, crate, texts, path):
        """The status of a check of the function, and what it printed. Where the path is not how the prover names it, the name alone is asked for."""
        ran = self.rt.checked(crate, texts, ["--jobs", "1", "--only", path], None)
        if "has no function" in ran.stdout:
            ran = self.rt.checked(crate, texts, ["--jobs", "1", "--only", path.split("::")[-1]], None)
        if "several functions are named" in ran.stdout:
            parts = path.split("::")[:-1]
            names = [name for name in re.findall(r"`([\w:]+)`", ran.stdout) if all(f"::{part}" in f"::{name}" for part in parts)]
            if len(names) == 1:
                ran = self.rt.checked(crate, texts, ["--jobs", "1", "--only", names[0]], None)
        return ran.returncode, ran.stdout.splitlines()

    def refuses(self, body, texts, _room):
        """Whether the prover refuses a body, or none where that is not known, and what it printed."""
        name, path = body.teller[:2]
        crate, front = self.crates[name], f"crates/{name}/"
        lacking = [dep.name for dep in crate.below() if not (TOP / "crates" / dep.name / "out/rlib").is_dir()]
        if lacking:
            return None, [f"rt ci has left no library of {lacking[0]}"]
        if any(not file.startswith(front) for file in texts):
            return None, ["changes another crate than that of its clause"]
        status, lines = self.check(crate, {file.removeprefix(front): text for file, text in texts.items()}, path)
        is_read = not any("error[" in line or self.rt.unread(line, {}) for line in lines)
        told = [line for line in lines if NOT_PROVED.search(line)]
        if status == 1 and told and is_read:
            return True, told
        return (False, lines) if status == 0 else (None, [line for line in lines if "error" in line] or lines)


# all


def tried(body, prover):
    """Whether a body is told, or none where that is not known, with what was printed and the seconds that it took."""
    began = time.monotonic()
    texts, faults = changed(body)
    if faults + body.faults:
        return None, faults + body.faults, 0
    with TemporaryDirectory() as room:
        look = prover.refuses if body.kind in BY_PROVER else tested
        told, lines = look(body, texts, Path(room))
    return told, lines, time.monotonic() - began


WORDS = {True: "told", False: "NOT TOLD", None: "NOT TRIED"}


def try_all(wanted, jobs):
    """Tries bodies side by side, prints what became of each, and leaves the table."""
    prover = Prover() if any(body.kind in BY_PROVER for body in wanted) else None
    rows, printing = [], Lock()

    def one(body):
        told, lines, seconds = tried(body, prover)
        with printing:
            print(f"{WORDS[told]} {body.name}: {body.kind} {' '.join(body.teller)}, {seconds:.0f} s", flush=True)
            if not told:
                print("".join(f"  {line.rstrip()[:300]}\n" for line in lines[-LINES_TOLD:]), end="", flush=True)
        rows.append(f"| `{body.name}` | {body.kind} | `{' '.join(body.teller)}` | {WORDS[told]} |\n")
        return told

    with ThreadPoolExecutor(jobs) as pool:
        ends = [*pool.map(one, wanted)]
    TABLE.parent.mkdir(exist_ok=True)
    TABLE.write_text("| Wrong body | Told by | Which | |\n|---|---|---|---|\n" + "".join(sorted(rows)))
    print(f"{ends.count(True)} passed, {len(ends) - ends.count(True)} failed")
    return 0 if all(ends) else 1


def sample_of(some, count, seed):
    return Random(seed).sample(some, min(count, len(some)))


def taken(all_bodies, asked):
    """The bodies that are asked for."""
    by_tests, by_prover = ([body for body in all_bodies if body.kind in kinds] for kinds in (BY_TESTS, BY_PROVER))
    if asked.landing:
        tree = subprocess.run(["git", "rev-parse", "HEAD^{tree}"], cwd=TOP, capture_output=True, text=True, check=True).stdout.strip()
        print(f"chosen by the tree {tree}", flush=True)
        return [body for some in (by_tests, by_prover) for body in sample_of(some, SAMPLE_OF_LANDING, tree)]
    if asked.names:
        wanted = [body for body in all_bodies if body.name in asked.names or body.name.split("/")[1] in asked.names]
        for name in asked.names:
            if not any(name in (body.name, body.name.split("/")[1]) for body in wanted):
                sys.exit(f"wrong_bodies.py: there is no {name}")
        return wanted
    kinds = [by_tests, by_prover] if asked.sample and asked.prove else [by_prover if asked.prove else by_tests]
    if not asked.sample:
        return kinds[0]
    seed = SystemRandom().randrange(2**32) if asked.seed is None else asked.seed
    print(f"seed {seed}", flush=True)
    return [body for some in kinds for body in sample_of(some, asked.sample // len(kinds), seed)]


def main():
    words = argparse.ArgumentParser(usage=__doc__.split("usage: ")[1].split("\n\n")[0])
    for flag in ("--check", "--landing", "--prove"):
        words.add_argument(flag, action="store_true")
    words.add_argument("--sample", type=int)
    words.add_argument("--seed", type=int)
    words.add_argument("--jobs", type=int, default=os.cpu_count())
    words.add_argument("names", nargs="*")
    asked = words.parse_args()
    return check(bodies()) if asked.check else try_all(taken(bodies(), asked), asked.jobs)


def stop(_number, _frame):
    sys.exit(1)


if __name__ == "__main__":
    signal.signal(signal.SIGINT, stop)
    signal.signal(signal.SIGTERM, stop)
    sys.exit(main())
