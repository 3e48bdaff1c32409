"""Files and folders that are not as a repository should have them: what `isofarm test` tells of them, and what it leaves."""

import os
import shutil
from dataclasses import dataclass, field
from pathlib import Path

from trial_runs import Case, hold_report
from trial_specs import Accepted, told_of

ONE, OLD = b"session a step s {}\n", b"old\n" * 2_000
PAGE = Accepted("a.spec", ONE).page
SAME, ACCEPTED, NONE, NOT_WRITTEN, UNREAD = "as accepted", "accepted", "no accepted text", "accepted text not written", "read fault"
NO_REPORT = "report not written"
NO_RECORD, HEAD = "differs, and what is accepted is no record of this version", "only the head of the record differs"
STATUSES = {SAME: 0, ACCEPTED: 0, NONE: 1, NO_RECORD: 1, HEAD: 1, NOT_WRITTEN: 5, NO_REPORT: 5}
MOST_SPECS, MOST_DEPTH, MOST_ACCEPTED = 1_000, 32, 67_108_864
NOBODY = 65_534


@dataclass(frozen=True)
class Link:
    """A link that leads there."""

    target: str


@dataclass(frozen=True)
class Sparse:
    """A file of so many bytes, which begins with these."""

    front: bytes
    size: int


class Folder:
    """An empty folder."""


@dataclass
class Odd:
    """What lies in a folder, the words of a run there, and what it has to tell: a line of each spec, or a fault line. What is left is what was
    there, but for these files, of which `None` is one that is gone. Some is shut, so that nobody but root may read it or write there."""

    name: str
    files: dict
    words: list
    told: list = field(default_factory=list)
    fault: tuple = ()
    left: dict = field(default_factory=dict)
    given: bytes = b""
    shut: dict = field(default_factory=dict)
    status: int = 0

    def want(self):
        if self.fault:
            return (self.fault[0], b"", self.fault[1].encode())
        status = max([self.status, *(STATUSES.get(text, 5 if text.endswith(UNREAD) else 3) for _path, text in self.told)])
        return status, "".join(f"{path}: {text}\n" for path, text in self.told).encode(), b""


def specs(*names):
    """Specs that are as accepted."""
    pages = {f"{name}.accepted": Accepted(f"{Path(name).name}.spec", ONE).page for name in names}
    return {f"{name}.spec": ONE for name in names} | pages


def many(number):
    return {f"many/{place:04}.spec": ONE for place in range(number)}


def of_text(text):
    """What is told of a spec of this text."""
    return told_of("a.spec", None, text)[1].decode().removeprefix("a.spec: ").removesuffix("\n")


A, OTHER = specs("a"), {"a.spec": ONE, "a.accepted": OLD}
UPDATE, NEW = ["--update", "a.spec"], {"a.accepted": PAGE}


def of_folders():
    yield Odd("a folder named as a spec", specs("x.spec/a"), ["x.spec"], [("x.spec/a.spec", SAME)])
    yield Odd("one in another folder", specs("b/x.spec/a"), ["b"], [("b/x.spec/a.spec", SAME)])
    yield Odd("a slash at its end", specs("b/a"), ["b/"], [("b/a.spec", SAME)])
    yield Odd("no folder and no file", A, ["b", "a.spec"], [("b", UNREAD), ("a.spec", SAME)])
    for name, files in {"an empty folder": {"e": Folder}, "hidden specs alone": {"e/.a.spec": ONE, "e/.b/a.spec": ONE, "e/a.txt": ONE, "e/a.spec.bak": ONE}}.items():
        yield Odd(name, files, ["e"], fault=(3, "isofarm: e: no specs\n"))
        yield Odd(f"{name} behind a spec", files | OTHER, ["--update", "a.spec", "e"], fault=(3, "isofarm: e: no specs\n"))
    deep, deeper = "d/" * MOST_DEPTH, "d/" * (MOST_DEPTH + 1)
    yield Odd("folders in folders", specs(f"{deep}a", f"{deeper}b"), ["."], [(f"./{deep}a.spec", SAME)])
    yield Odd("names that are no UTF-8", A | {"\udcff.spec": ONE}, ["."], [("./a.spec", SAME)])
    yield Odd("the order of names", specs("b", "a/z", "B", "a-b", "é", "a.b"), ["."], [(f"./{path}.spec", SAME) for path in ("B", "a/z", "a-b", "a.b", "b", "é")])
    yield Odd("a folder that is shut", specs("shut/a"), ["shut"], [("shut", UNREAD)], shut={"shut": 0})
    yield Odd("one in another folder", specs("shut/a", "b"), ["."], [("./b.spec", SAME), ("./shut", UNREAD)], shut={"shut": 0})


def of_links():
    yield Odd("a link to a spec", {"b.spec": Link("a.spec")} | A, ["."], [("./a.spec", SAME), ("./b.spec", NONE)])
    yield Odd("a link to nothing", {"b.spec": Link("nothing")} | A, ["."], [("./a.spec", SAME), ("./b.spec", UNREAD)])
    yield Odd("links to a folder", {"l": Link("b"), "l.spec": Link("b"), **specs("b/a")}, ["."], [("./b/a.spec", SAME)])
    yield Odd("a link as a path", {"l": Link("b"), **specs("b/a")}, ["l"], [("l/a.spec", SAME)])
    yield Odd("a ring of links", {"b/l": Link("../b"), **specs("b/a")}, ["."], [("./b/a.spec", SAME)])
    linked = {"a.spec": ONE, "a.accepted": Link("kept")}
    yield Odd("an accepted record that is a link", {"kept": PAGE} | linked, UPDATE, [("a.spec", SAME)])
    yield Odd("one to another text", {"kept": OLD} | linked, UPDATE, [("a.spec", ACCEPTED)], left=NEW)
    yield Odd("one to nothing", linked, ["a.spec"], [("a.spec", NONE)])
    yield Odd("one to nothing, written", linked, UPDATE, [("a.spec", ACCEPTED)], left=NEW)


def of_texts():
    for name, text in {"no byte": b"", "no UTF-8": b"\xff" + PAGE, "a bad byte": PAGE.replace(b"strict", b"stric\xff"), "CRLF": PAGE.replace(b"\n", b"\r\n")}.items():
        yield Odd(f"an accepted text with {name}", A | {"a.accepted": text}, ["a.spec"], [("a.spec", NO_RECORD)])
        yield Odd(f"one with {name}, accepted", A | {"a.accepted": text}, UPDATE, [("a.spec", ACCEPTED)], left=NEW)
    for name, text in {"a line without its end": PAGE + b"more", "an empty line": PAGE + b"\n", "another version": PAGE.replace(b"record 1", b"record 2")}.items():
        yield Odd(f"one with {name}", A | {"a.accepted": text}, ["a.spec"], [("a.spec", NO_RECORD)])
    yield Odd("one of another name", A | {"a.accepted": PAGE.replace(b"spec a", b"spec b")}, ["a.spec"], [("a.spec", HEAD)])
    for size in (MOST_ACCEPTED, MOST_ACCEPTED + 1, 40 * MOST_ACCEPTED):
        for front in (b"", PAGE):
            files = A | {"a.accepted": Sparse(front, size)}
            yield Odd(f"one of {size} bytes", files, ["a.spec"], [("a.spec", NO_RECORD)])
        yield Odd(f"one of {size} bytes, accepted", files, UPDATE, [("a.spec", ACCEPTED)], left=NEW)
    for name, text in {"no byte": b"", "no UTF-8": ONE + b"\xff", "too many bytes": ONE + b" " * 65_536, "a NUL": ONE + b"\0"}.items():
        yield Odd(f"a spec with {name}", A | {"a.spec": text}, UPDATE, [("a.spec", of_text(text))])
    yield Odd("a spec with CRLF", A | {"a.spec": ONE.replace(b" ", b"\r\n")}, ["a.spec"], [("a.spec", SAME)])
    for name in ("a.spec", "a"):
        for words in ([name], ["--update", name]):
            yield Odd(f"a folder in the place of the accepted record of {name}", {name: ONE, "a.accepted": Folder}, words, [(name, f"a.accepted: {UNREAD}")])
    yield Odd("a spec of another name", {"a.sql": ONE, "a.sql.accepted": Accepted("a.sql", ONE).page}, ["a.sql"], [("a.sql", SAME)])
    yield Odd("a spec that is shut", A, ["a.spec"], [("a.spec", UNREAD)], shut={"a.spec": 0})
    yield Odd("an accepted record that is shut", A, ["a.spec"], [("a.spec", NONE)], shut={"a.accepted": 0})


def of_numbers():
    yield Odd("a spec twice", OTHER, ["--update", "a.spec", ".", "a.spec"], [("a.spec", ACCEPTED), ("./a.spec", SAME), ("a.spec", SAME)], left=NEW)
    yield Odd("as many specs as may be", many(MOST_SPECS), ["many"], [(path, NONE) for path in many(MOST_SPECS)])
    yield Odd("as many words as may be", A, ["a.spec"] * MOST_SPECS, [("a.spec", SAME)] * MOST_SPECS)
    too_many = (3, "isofarm: too many specs\n")
    yield Odd("too many specs", many(MOST_SPECS + 1), ["--update", "many"], fault=too_many)
    yield Odd("too many specs of two paths", many(MOST_SPECS) | A, ["--update", "many", "a.spec"], fault=too_many)
    yield Odd("standard input", {}, ["-"], [("-", NONE)], given=ONE)
    yield Odd("standard input, accepted", {}, ["--update", "-"], [("-", ACCEPTED)], given=ONE, left={"-.accepted": Accepted("-", ONE).page})
    yield Odd("a folder of that name", specs("-/a"), ["-"], [("-", NONE)], given=ONE)
    yield Odd("its path", specs("-/a"), ["./-"], [("./-/a.spec", SAME)], given=ONE)


def of_parts():
    part = "a.accepted.part"
    yield Odd("a part that a killed run has left", OTHER | {part: OLD}, UPDATE, [("a.spec", ACCEPTED)], left={part: None} | NEW)
    # What is beside a text that need not be written is nobody's, as far as a run knows.
    yield Odd("one beside a text that is as accepted", A | {part: OLD}, UPDATE, [("a.spec", SAME)])
    yield Odd("a folder in its place", OTHER | {part: Folder}, UPDATE, [("a.spec", NOT_WRITTEN)])
    yield Odd("a link in its place", OTHER | {part: Link("kept"), "kept": OLD}, UPDATE, [("a.spec", ACCEPTED)], left={part: None} | NEW)
    yield Odd("a folder that takes no file", OTHER, UPDATE, [("a.spec", NOT_WRITTEN)], shut={".": 0o555})
    yield Odd("a text that is shut where files may be put", OTHER, UPDATE, [("a.spec", ACCEPTED)], left=NEW, shut={"a.accepted": 0})


def of_reports():
    yield Odd("a report without its folder", A, ["--junit", "no/report.xml", "a.spec"], [("a.spec", SAME), ("no/report.xml", NO_REPORT)])
    yield Odd("a folder in its place", A | {"report": Folder}, ["--junit", "report", "a.spec"], [("a.spec", SAME), ("report", NO_REPORT)])
    yield Odd("a folder that takes no report", A | {"b": Folder}, ["--junit", "b/report.xml", "a.spec"], [("a.spec", SAME), ("b/report.xml", NO_REPORT)], shut={"b": 0o555})
    yield Odd("a report that is not written behind a fault", A | {"a.spec": b""}, ["--junit", "no/report.xml", "a.spec"], [("a.spec", of_text(b"")), ("no/report.xml", NO_REPORT)])


# ---- their runs


def put(folder, path, what):
    file = folder / path
    file.parent.mkdir(parents=True, exist_ok=True)
    if what is Folder:
        file.mkdir()
    elif isinstance(what, Link):
        file.symlink_to(what.target)
    elif isinstance(what, Sparse):
        with file.open("wb") as sparse:
            sparse.write(what.front)
            sparse.truncate(what.size)
    else:
        file.write_bytes(what)


def about(file):
    """What a file is, and of a short one its bytes, when it was written and which one it is."""
    if file.is_symlink():
        return os.readlink(file)
    if file.is_dir():
        return "a folder"
    found = file.stat()
    return found.st_size, found.st_mtime_ns, found.st_ino, file.read_bytes() if found.st_size < MOST_ACCEPTED else None


def everything(folder):
    return {str(file.relative_to(folder)): about(file) for file in folder.rglob("*")}


def hold_left(trial, odd, folder, before):
    after = everything(folder)
    for path, text in odd.left.items():
        got = after.pop(path, None)
        before.pop(path, None)
        trial.hold(f"{odd.name}, {path}", got if text is None or isinstance(got, (str, type(None))) else got[3], text)
    trial.hold(f"{odd.name}, what is left", after, before)


def look(trial, odd, folder, how):
    """Puts the files there and runs the program."""
    folder.mkdir()
    for path, what in odd.files.items():
        put(folder, path, what)
    everyone(folder)
    before = everything(folder)
    for path, mode in odd.shut.items():
        (folder / path).chmod(mode)
    given = {"input": odd.given, "stdin": None} if odd.given else {}
    trial.tells(odd.name, odd.words, folder, odd.want(), **given, **(how if odd.shut else {}))
    for path in odd.shut:
        (folder / path).chmod(0o755)
    hold_left(trial, odd, folder, before)
    trial.counts["odd folders"] += 1
    shutil.rmtree(folder)


def everyone(folder):
    """Anyone may write there, so that only what is shut is in the way."""
    folder.chmod(0o777)
    for inner, folders, _names in os.walk(folder):
        for name in folders:
            if not Path(inner, name).is_symlink():
                Path(inner, name).chmod(0o777)


def as_nobody(trial, folder):
    """How a run is made for which something is shut: by nobody, where this process is root, with a program that nobody may read."""
    if os.geteuid():
        return {}
    program = folder / "isofarm"
    shutil.copy(trial.program, program)
    program.chmod(0o755)
    for above in (folder, *folder.parents[:-2]):
        above.chmod(above.stat().st_mode | 0o111)
    return {"program": str(program), "user": NOBODY, "group": NOBODY, "extra_groups": []}


def odd_files(trial, folder):
    folder.mkdir()
    how = as_nobody(trial, folder)
    for odds in (of_folders, of_links, of_texts, of_numbers, of_parts, of_reports):
        for number, odd in enumerate(odds()):
            look(trial, odd, folder / f"{odds.__name__}{number}", how)
    for words in (["-", "-"], ["a.spec", "-", "--update", "-"], ["a.spec"] * (MOST_SPECS + 1), ["a\udcff.spec"]):
        status, out, error = trial.run(words, folder)
        trial.hold(f"test {' '.join(words)[:40]}", (status, out, error[:7]), (2, b"", b"error: "))
    report_of_link(trial, folder / "link")
    return []


def report_of_link(trial, folder):
    """A report takes the place of a link, and not of the file to which that leads."""
    folder.mkdir()
    for path, what in {**A, "report.xml": Link("kept"), "kept": OLD}.items():
        put(folder, path, what)
    trial.tells("a report in the place of a link", ["--junit", "report.xml", "a.spec"], folder, (0, b"a.spec: as accepted\n"))
    hold_report(trial, "a report in the place of a link", folder / "report.xml", [Case("a.spec", "passed", "", "")])
    trial.hold("the file of the link", ((folder / "kept").read_bytes(), (folder / "report.xml").is_symlink()), (OLD, False))
