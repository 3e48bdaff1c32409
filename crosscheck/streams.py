"""Looks at the program's exit statuses and streams where files, outputs and words are not as they should be.

usage: python3 crosscheck/streams.py

Each answer is written out here, or is the one of this second implementation. It needs /dev/full and /proc, as Linux has them.
"""

import os
import subprocess
import sys
import time
from pathlib import Path
from tempfile import TemporaryDirectory

from book_classes import BookClasses, BookPage
from books import book_text, facts_of
from class_request import OLD_WORDS, Request
from compare import PROGRAM, PROGRESS, STATES, difference, ended, expected, told
from compare_files import answer, order, run
from damage import text_of
from spec_tests import Side
from worked import INSERT_AND_READ, LARGE, worlds_of

U32, U64 = 2**32, 2**64
MARK = b"\xef\xbb\xbf"
SPEC = INSERT_AND_READ.encode()
WORLDS = worlds_of(INSERT_AND_READ)
FACTS = facts_of(WORLDS, 0, 2, True)
BOOK = book_text(SPEC, FACTS).encode()
BOOK_OF_ONE = book_text(SPEC, {fact for fact in FACTS if fact[0] == 1}).encode()
# Two books with as many facts as are read, which are over the limit of a book together.
MANY = 20_000_000
FAR_BOOKS = [text_of({"facts": [[first, MANY, "ran", 0]], "format": 2, "outcomes": [[[]] * 8], "spec": LARGE}) for first in (0, MANY)]
FAR_TEXT = b"""2 books: 40,000,000 of 9,116,650,868,204,880,000 orders in 1 class; 9,116,650,868,164,880,000 orders are missing, the first of rank 40000000
Books have no final rows: S and R are not known.

      orders  share  classes
  W        0   0.0%        0  a session waits
  D        0   0.0%        0  a session is the victim of a deadlock
  E        0   0.0%        0  another error
  N        0   0.0%        0  a step is not sent: its session waits
"""
FILES = {
    "far.book": FAR_BOOKS[0],
    "farther.book": FAR_BOOKS[1],
    "first.spec": SPEC,
    "large.spec": LARGE.encode(),
    "long.spec": LARGE.encode() + b" #" + b"x" * 20_000,
    # 1,680 orders, so that a run of all has two shards.
    "many.spec": "".join(f"session {name} {' '.join(f'step {name}{number} {{}}' for number in (1, 2, 3))}\n" for name in "abc").encode(),
    "mark.spec": MARK + SPEC,
    "two words.spec": SPEC,
    "first.accepted": Side("first.spec", SPEC).text,
    "folder.accepted/a.spec": SPEC,
    "folder.spec": SPEC,
    "all.book": BOOK,
    "one.book": BOOK_OF_ONE,
    # Another outcome of rank 1 than the true one.
    "clash.book": book_text(SPEC, {(1, "ran", outcome) for rank, _word, outcome in FACTS if rank == 0}).encode(),
    # The same outcome of rank 1, and so of all.
    "same.book": book_text(SPEC, {(rank, "ran", outcome) for one, _word, outcome in FACTS if one == 0 for rank in (0, 1)}).encode(),
    "mark.book": MARK + BOOK,
    "half.book": BOOK[: len(BOOK) // 2],
    "empty": b"",
}
GOOD = ["one first.spec 0", "check first.spec", "count first.spec", "rank first.spec a1 b1", "order first.spec 1", "show first.spec 1", "run first.spec 0 2", "join all.book", "report all.book"]
GOOD += ["show first.spec a1 b1 --json", "classes first.spec", "classes first.spec --by-result --brief", "classes first.spec --waits --anomaly --outcomes --final-rows", "classes first.spec --json", "classes first.spec --html", "classes --by-result --html first.spec", "classes first.spec --all-orders --not-sent --memory 500", "holds all.book first.spec 0 2", "run first.spec 0 2 --workers 16", "audit all.book", "judge all.book all.book", "judge all.book all.book --show"]
GOOD += ["classes first.spec --levels", "classes --levels --brief first.spec", "show first.spec 1 --level read-committed", "classes --level serializable first.spec", "test first.spec --level read-committed"]
GOOD += ["run first.spec", "missing one.book", "missing one.book --lines"]
GOOD += ["test first.spec", "test first.spec many.spec --workers 16", "test --update first.spec", "test --junit report.xml first.spec folder.accepted"]
GOOD += ["classes --book all.book", "classes --book one.book all.book --json --ranks", "classes --outcomes --book clash.book --ranks"]
HELP = ["help", "--help", "--version", *(f"{line} --help" for line in ("one", "check", "count", "rank", "order", "show", "classes", "run", "join", "missing", "holds", "report", "audit", "judge", "test"))]
FAULTS = {"one first.spec 2": 3, "classes first.spec --deadlock=c": 3, "classes --json first.spec --deadlock=c": 3, "classes --html first.spec --deadlock=c": 3, "classes first.spec --query SELECT": 3, "report one.book": 1, "classes --book all.book clash.book": 1, "missing all.book clash.book": 1, "missing nothing": 5, "run large.spec": 3, "classes --book one.book half.book": 3, "classes --book nothing": 5, "count nothing": 5, "two first.spec 0": 2, "test first.spec folder": 3}
NO_COMMANDS = ["", "one", "one first.spec", "one first.spec x", "one first.spec -1", f"one first.spec {U64}", "two first.spec 0"]
NO_COMMANDS += ["check", "check first.spec 0", "count", "count first.spec 0", "run first.spec 0", f"run first.spec 0 {U64}", "run first.spec 0 1 --all", "join"]
NO_COMMANDS += [f"join{' all.book' * 1001}", "report", "report all.book all.book", "report --every all.book"]
NO_COMMANDS += [f"run first.spec 0 1 --workers{number}" for number in ("", " 0", " 17", " x", " -1", " 4294967297")]
NO_COMMANDS += ["rank", "rank first.spec", f"rank first.spec{' a1' * 1001}", "order", "order first.spec", "order first.spec x", "order first.spec 0 1"]
NO_COMMANDS += ["show", "show first.spec", "show first.spec --json", f"show first.spec{' a1' * 1001}", "show first.spec 0 --text"]
NO_COMMANDS += ["classes", "classes first.spec 0", "classes first.spec --workers 1", "classes first.spec --ranks", "classes --ranks --json first.spec", "classes --ranks", "classes first.spec --json --json", "classes first.spec --json=1"]
NO_COMMANDS += ["classes first.spec --html --json", "classes --json first.spec --html", "classes --brief --html first.spec", "classes first.spec --html --html", "classes first.spec --html=1", "classes --html", "show first.spec 0 --html"]
NO_COMMANDS += ["classes --book", "classes --book --json", "classes --book all.book --json --json", "classes first.spec --book all.book", "classes --json first.spec --book all.book", f"classes --book{' all.book' * 1001}"]
NO_COMMANDS += [f"classes --book all.book {flag}" for flag in ("--final-rows", "--by-result", "--all-orders", "--waits", "--no-deadlock", "--query SELECT", "--workers 2", "--progress", "--memory 500", "--html", "--every")]
NO_COMMANDS += [f"classes first.spec {word}{' SELECT' * (word == '--look')}" for word in OLD_WORDS]
NO_COMMANDS += ["classes first.spec --not-sent", "classes first.spec --no-not-sent", *(f"classes first.spec --memory {number}" for number in ("", "0", "1000001", "x"))]
NO_COMMANDS += [f"{line} --level{level}" for line in ("show first.spec 0", "classes first.spec", "test first.spec") for level in ("", " snapshot", " SERIALIZABLE")]
NO_COMMANDS += [f"{line}{' --level serializable' * 2}" for line in ("show first.spec 0", "classes first.spec", "test first.spec")]
NO_COMMANDS += [f"{line} --level serializable" for line in ("one first.spec 0", "check first.spec", "count first.spec", "order first.spec 0", "run first.spec")]
NO_COMMANDS += [f"classes first.spec --levels {flag}" for flag in ("--levels", "--level serializable", "--json", "--html", "--all-orders", "--by-result", "--waits", "--query SELECT", "--sample 7")]
NO_COMMANDS += ["classes --book all.book --levels", "show first.spec 0 --levels"]
NO_COMMANDS += [f"{line} all.book --level serializable" for line in ("classes --book", "join", "missing", "report", "audit", "judge all.book")]
NO_COMMANDS += ["classes first.spec --query", "classes first.spec --expect", "classes first.spec --filter", "classes first.spec --expect SELECT"]
NO_COMMANDS += ["classes first.spec --expect SELECT --brief", "classes first.spec --expect SELECT -x"]
NO_COMMANDS += ["holds", "holds all.book first.spec 0", "holds all.book first.spec 0 x", "holds all.book first.spec 0 1 2"]
NO_COMMANDS += ["missing", "missing --lines", "missing all.book --ranks", "missing --lines all.book --lines", f"missing{' all.book' * 1001}"]
# Standard input is read once.
NO_COMMANDS += ["join - -", "join - all.book -", "missing - one.book -", "missing --lines - -", "classes --book - -", "classes --brief --book all.book - one.book -"]
NO_COMMANDS += ["test", "test --update", "test first.spec --junit", "test --junit a.xml first.spec --junit b.xml", "test first.spec --update --update"]
NO_COMMANDS += ["test first.spec --workers 0", "test --workers 17 first.spec", "test first.spec --progress", "test first.spec --update=1", f"test{' first.spec' * 1001}"]
NO_COMMANDS += ["test - -", "test - first.spec --update -"]
NO_COMMANDS += ["holds - - 0 1", "judge - -", "judge --show - -", "judge all.book - one.book -", "join -- - -"]
NO_COMMANDS += ["audit", "audit all.book all.book", "judge", "judge all.book", "judge all.book --show", "judge --show all.book all.book --show", f"judge{' all.book' * 1002}"]
WRITE_FAULT = b"isofarm: write fault\n"
TRY_HELP = b"\nFor more information, try '--help'.\n"
# What the program is called in its texts, however it was started.
NAME = b"isofarm"
USAGES = {
    "run first.spec 0 1 --workers 17": b"error: invalid value '17' for '--workers <N>': 17 is not in 1..=16\n" + TRY_HELP,
    "": b"error: '" + NAME + b"' requires a subcommand but one was not provided\n"
    b"  [subcommands: check, one, count, rank, order, show, classes, run, join, missing, holds, report, audit, judge, test, help]\n\nUsage: " + NAME + b" <COMMAND>\n" + TRY_HELP,
}
HELP_OF_MISSING = b"Usage: isofarm missing [OPTIONS] <BOOK>...\n"
CLASSES = BookClasses(WORLDS.spec, {rank: outcome for rank, _word, outcome in FACTS})
SAME_DIFFERS = b"0 differs at rank 1 session 1\n"
SAME_SHOWN = b"""nearest is 0
accepted: b1 a1
session b
  step b1
  row 30
  rows 1
  done
here: b1 a1
session b
  step b1
  rows 0
  done
"""
SHARD = 1_000
# The read may come before the insert or behind it: two orders that lead to two states, by one each between; and the steps to them.
STATES_OF_FIRST = 5, 4
# Seconds that a run here takes at most.
LONGEST = 60


def line(status, text):
    return status, b"", f"isofarm: {text}\n".encode()


def unread():
    """Files that are not opened or not read."""
    # Whoever is root reads a file that nobody may read.
    shut = ["shut"] if os.geteuid() else []
    for path in ["nothing", "folder", "first.spec/x", "/proc/self/mem", *shut]:
        commands = [["one", path, "0"], ["check", path], ["count", path], ["run", path, "0", "1"], ["join", path], ["join", "all.book", path]]
        commands += [["rank", path, "a1", "b1"], ["order", path, "0"], ["show", path, "0"], ["show", path, "a1", "b1"], ["classes", path], ["classes", path, "--waits"], ["classes", path, "--json"], ["classes", path, "--html"], ["holds", path, "first.spec", "0", "1"], ["holds", "all.book", path, "0", "1"]]
        commands += [["classes", "--book", path], ["classes", "--book", "all.book", path, "--json"]]
        commands += [["run", path], ["missing", path], ["missing", "all.book", path, "--lines"]]
        commands += [["judge", path, "all.book"], ["judge", "all.book", path], ["audit", path]]
        for words in [*commands, ["report", path]]:
            yield words, line(5, f"{path}: read fault")
        if path != "folder":
            yield ["test", path, "first.spec"], (5, f"{path}: read fault\nfirst.spec: as accepted\n".encode(), b"")


def marked():
    """Files that are empty, cut off, or begin with the mark of their byte order."""
    for words in (["one", "mark.spec", "0"], ["count", "mark.spec"], ["order", "mark.spec", "0"], ["show", "mark.spec", "0"], ["classes", "mark.spec", "--deadlock=c"], ["run", "mark.spec", "0", "1"], ["run", "mark.spec"]):
        yield words, line(3, "mark.spec: spec error 4 at 0")
    yield ["one", "empty", "0"], line(3, "empty: spec error 5 at 0")
    yield ["test", "empty", "mark.spec"], (3, b"empty: spec error 5 at 0\nmark.spec: spec error 4 at 0\n", b"")
    for path in ("mark.book", "empty", "half.book"):
        for words in (["missing", path], ["missing", "--lines", "all.book", path], ["classes", "--book", path], ["classes", "--brief", "--book", "all.book", path], ["report", path], ["join", path], ["join", "all.book", path], ["audit", path], ["judge", path, path], ["judge", "all.book", path]):
            yield words, line(3, f"{path}: book error 1")


def far():
    """Ranks past 32 bits, the last one and those behind it."""
    last = worlds_of(LARGE).spec.ranks() - 1
    yield ["count", "large.spec"], (0, b"%d\n" % (last + 1), b"")
    for rank in (U32, U32 + 1, U64 - 1):
        yield ["one", "first.spec", str(rank)], line(3, "first.spec: rank out of range")
        yield ["show", "first.spec", str(rank)], line(3, "first.spec: rank out of range")
    for rank in (U32 - 1, U32, U32 + 1, last, last + 1, U64 - 1):
        yield ["one", "large.spec", str(rank)], expected(LARGE.encode(), rank, "large.spec")
        yield ["order", "large.spec", str(rank)], answer(order, LARGE.encode(), "large.spec", rank)
    for first, end in [(U32, U32 + 2), (last, last + 1), (last + 1, last + 1), (last, last + 2), (U32, U64 - 1)]:
        words = ["run", "large.spec", str(first), str(end)]
        yield words, answer(run, LARGE.encode(), "large.spec", first, end, "reduce")


def answers():
    """Words, and the status and outputs that belong to them."""
    yield from unread()
    yield from marked()
    yield from far()
    yield ["count", "two words.spec"], (0, b"2\n", b"")
    yield ["one", "two words.spec", "2"], line(3, "two words.spec: rank out of range")
    yield ["count", "no file"], line(5, "no file: read fault")
    yield from ((text.split(), (2, b"", usage)) for text, usage in USAGES.items())
    yield ["join", "one.book", "all.book"], (0, BOOK, b"")
    yield ["report", "one.book"], line(1, "one.book: missing rank 0")
    for name, books in (("all.book", 1), ("1000 books", 1000)):
        yield ["classes", "--book", *["all.book"] * books], (0, BookPage(CLASSES, name, Request()).text().encode(), b"")
    # What is not written has no limit.
    yield ["classes", "--book", "far.book", "farther.book", "--brief"], (0, FAR_TEXT, b"")
    yield ["join", "far.book", "farther.book"], line(3, "book error 8")
    yield ["classes", "--book", "all.book", "one.book", "clash.book", "all.book"], line(1, "all.book: clash at rank 1")
    yield ["classes", "--book", "clash.book", "one.book", "--json"], line(1, "clash.book: clash at rank 1")
    yield ["missing", "all.book"], (0, b"", b"")
    yield ["missing", "all.book", "one.book", "--lines"], (0, b"", b"")
    yield ["missing", "one.book"], (1, b"0\n", b"")
    yield ["missing", "--lines", "one.book"], (1, b"0 1\n", b"")
    yield ["missing", "farther.book", "far.book"], (1, b"40000000-9116650868204879999\n", b"")
    yield ["missing", "farther.book"], (1, b"0-19999999\n40000000-9116650868204879999\n", b"")
    yield ["missing", "farther.book", "--lines"], (1, b"0 20000000\n40000000 9116650868204880000\n", b"")
    yield ["missing", "all.book", "clash.book"], line(1, "all.book: clash at rank 1")
    yield ["missing", "--lines", "clash.book", "one.book"], line(1, "clash.book: clash at rank 1")
    yield ["missing", "all.book", "far.book"], line(3, "far.book: books of different specs")
    yield ["run", "first.spec"], (0, BOOK, b"")
    yield ["run", "first.spec", "--workers", "1"], (0, BOOK, b"")
    yield ["run", "large.spec"], line(3, "large.spec: shard error 2")
    yield ["judge", "all.book", "one.book"], line(1, "one.book: missing rank 0")
    yield ["judge", "one.book", "nothing"], line(1, "one.book: missing rank 0")
    yield ["judge", "all.book", "all.book", "all.book"], (0, b"matches 0\n", b"")
    yield ["judge", "all.book", "--show", "same.book", "all.book"], (0, b"matches 1\n", b"")
    yield ["judge", "all.book", "same.book"], (1, SAME_DIFFERS, b"")
    yield ["judge", "--show", "all.book", "same.book"], (1, SAME_DIFFERS + SAME_SHOWN, b"")
    yield ["judge", "all.book", "one.book", "--show"], line(1, "one.book: missing rank 0")
    yield ["audit", "one.book"], (0, b"true\n", b"")
    yield ["test", "first.spec"], (0, b"first.spec: as accepted\n", b"")
    yield ["test", "two words.spec", "./first.spec"], (1, b"two words.spec: no accepted text\n./first.spec: as accepted\n", b"")
    yield ["test", "--update", "first.spec", "folder.spec"], (5, b"first.spec: as accepted\nfolder.spec: folder.accepted: read fault\n", b"")
    yield ["test", "first.spec", "folder"], line(3, "folder: no specs")


def told_of(words, folder, given, name="isofarm"):
    """What words tell where this stands on standard input, and the program was started by this name."""
    ran = subprocess.run([name, *words], executable=PROGRAM, cwd=folder, capture_output=True, check=False, input=given)
    return ran.returncode, ran.stdout, ran.stderr


def inputs(folder):
    """Words that read standard input, what stands there, and the status and outputs that belong to them."""
    for text in ("count FILE", "check FILE", "one FILE 0", "run FILE 0 2", "run FILE", "rank FILE a1 b1", "order FILE 1", "report FILE", "audit FILE"):
        name = "all.book" if text.split()[0] in ("report", "audit") else "first.spec"
        want = told(PROGRAM, text.replace("FILE", name).split(), folder, {})
        yield text.replace("FILE", "-").split(), FILES[name], want
    yield ["join", "-", "all.book"], BOOK_OF_ONE, (0, BOOK, b"")
    yield ["join", "one.book", "-"], BOOK, (0, BOOK, b"")
    yield ["missing", "-"], BOOK_OF_ONE, (1, b"0\n", b"")
    yield ["missing", "--lines", "-"], BOOK_OF_ONE, (1, b"0 1\n", b"")
    yield ["holds", "-", "first.spec", "0", "2"], BOOK, (0, b"true\n", b"")
    yield ["holds", "all.book", "-", "0", "2"], SPEC, (0, b"true\n", b"")
    yield ["judge", "all.book", "one.book", "-"], BOOK, line(1, "one.book: missing rank 0")
    yield ["judge", "-", "all.book"], BOOK, (0, b"matches 0\n", b"")
    yield ["test", "-"], SPEC, (1, b"-: no accepted text\n", b"")
    yield ["test", "-", "first.spec"], SPEC[:9], (3, b"-: spec error 3 at 6\nfirst.spec: as accepted\n", b"")
    yield ["test", "./-"], SPEC, (5, b"./-: read fault\n", b"")
    yield ["classes", "--book", "-"], BOOK, (0, BookPage(CLASSES, "-", Request()).text().encode(), b"")
    yield ["one", "-", "2"], SPEC, line(3, "-: rank out of range")
    yield ["count", "-"], b"", line(3, "-: spec error 5 at 0")
    yield ["report", "-"], BOOK_OF_ONE, line(1, "-: missing rank 0")
    yield ["join", "all.book", "-"], BOOK[:-9], line(3, "-: book error 1")
    # A path of a file with that name has a folder before it.
    yield ["count", "./-"], SPEC, line(5, "./-: read fault")
    # Names of steps are no files.
    yield ["rank", "first.spec", "-", "-"], b"", line(3, 'first.spec: no step "-"')


def standings(error):
    """What lines of a run tell: shards, ranks, and tenths of a second. None where there is anything else."""
    if PROGRESS.sub(b"", error):
        return None
    rows = [[int(number) for number in row] for row in PROGRESS.findall(error)]
    return [(row[:2], row[2:4], row[4] * 10 + row[5]) for row in rows]


def progress_fault(error, first, end, seconds):
    """What is wrong with the lines of a run that took at most so many seconds, or nothing."""
    rows, ranks = standings(error), end - first
    if not rows:
        return "other lines, or none"
    shards = -(-ranks // SHARD)
    if rows[-1][:2] != ([shards, shards], [ranks, ranks]):
        return "the last line has other numbers"
    for (done, of), (ranks_done, of_ranks), tenths in rows:
        if (of, of_ranks) != (shards, ranks) or done != -(-ranks_done // SHARD) or tenths > seconds * 10:
            return "a line has other numbers"
    if rows != sorted(rows) or len(rows) - 1 > seconds * 8:
        return "lines go back or are too many"
    return None


def states_fault(error, states, steps, seconds):
    """What is wrong with the lines of classes that took at most so many seconds, of a spec with so many states and steps between them, or nothing."""
    rows = [[int(number) for number in row] for row in STATES.findall(error)]
    if STATES.sub(b"", error) or not rows:
        return "other lines, or none"
    if rows[-1][:2] != [states, steps]:
        return f"the last line tells of {rows[-1][0]} states and {rows[-1][1]} steps"
    for earlier, later in zip(rows, rows[1:]):
        if any(one > other for one, other in zip([*earlier[:2], earlier[2:]], [*later[:2], later[2:]])):
            return "lines go back"
    if rows[-1][2] * 10 + rows[-1][3] > seconds * 10 or len(rows) - 1 > seconds * 8:
        return "a line has more seconds, or lines are too many"
    return None


def wrong_progress(folder, words, fault_of):
    """What is wrong with words that tell how far they are, or nothing."""
    plain = told(PROGRAM, words, folder, {})
    begun = time.monotonic()
    status, out, error = told(PROGRAM, [*words, "--progress"], folder, {})
    fault = fault_of(error, time.monotonic() - begun)
    if (status, out, b"") != plain:
        fault = "another answer or status"
    return f"{' '.join(words)} --progress: {fault}" if fault else None


def progress_in(folder):
    """For words that tell how far they are: what is wrong, or nothing."""
    # Of sessions without statements a state is how many steps each has sent. From each of them a step leads on for each session that has one left.
    for spec, states, steps in [("first.spec", *STATES_OF_FIRST), ("many.spec", 64, 144)]:
        for flags in ("", "--by-result", "--no-waits --brief", "--json", "--html"):
            yield wrong_progress(folder, ["classes", spec, *flags.split()], lambda error, seconds: states_fault(error, states, steps, seconds))
    for spec, first, end in [("first.spec", 0, 2), ("first.spec", 1, 1), ("large.spec", 7, 3_007), ("large.spec", U32, U32 + 60_020)]:
        for flags in ("", "--workers 1", "--workers 16", "--every", "--every --workers 1"):
            yield wrong_progress(folder, ["run", spec, str(first), str(end), *flags.split()], lambda error, seconds: progress_fault(error, first, end, seconds))
    for redirections in ("2> /dev/full", "2>&-"):
        got = told_into("run first.spec 0 2 --progress", folder, f"{redirections} > progress.book")
        is_right = got == (0, b"") and Path(folder, "progress.book").read_bytes() == BOOK
        yield None if is_right else f"progress {redirections}: was told {got}"
    status, error = told_into("run first.spec 0 2 --progress", folder, "> /dev/full")
    is_right = (status, PROGRESS.sub(b"", error, count=1)) == (5, WRITE_FAULT) and error != WRITE_FAULT
    yield None if is_right else f"progress beside a write fault: was told {status} {error}"
    # This book is longer than what is held back of it, so that its first write fails before the last line of progress.
    status, error = told_into(f"run long.spec 0 {3 * SHARD} --progress", folder, "> /dev/full")
    is_right = status == 5 and error.endswith(WRITE_FAULT) and not progress_fault(error[: -len(WRITE_FAULT)], 0, 3 * SHARD, LONGEST)
    yield None if is_right else f"progress of a long book beside a write fault: was told {status} {error}"
    got = told(PROGRAM, ["run", "first.spec", "0", "3", "--progress"], folder, {})
    want = line(3, "first.spec: shard error 1")
    yield f"progress of a refused range: {difference(want, got)}" if got != want else None


def told_into(text, folder, redirections):
    """What words tell where a shell makes their outputs: the status, and what is left of standard error."""
    words = ["sh", "-c", f'"$@" {redirections}', "sh", PROGRAM, *text.split()]
    ran = subprocess.run(words, cwd=folder, capture_output=True, check=False)
    return ran.returncode, ran.stderr


def outputs():
    """Words, outputs that take nothing, and the status and standard error that belong to them."""
    for text in GOOD + HELP:
        yield text, "> /dev/full", (5, WRITE_FAULT)
        yield text, ">&-", (5, WRITE_FAULT)
        yield text, "> /dev/full 2> /dev/full", (5, b"")
        yield text, ">&- 2>&-", (5, b"")
        yield text, "<&- >&- 2>&-", (5, b"")
    for text, status in FAULTS.items():
        for closed in ("2> /dev/full", "2>&-", ">&- 2>&-", "<&- >&- 2>&-"):
            yield text, closed, (status, b"")


def wrong_in(folder):
    """For each run whether it tells something else: the difference, or nothing."""
    for words, want in answers():
        got = told(PROGRAM, words, folder, {})
        yield f"{' '.join(words)}: {difference(want, got)}" if got != want else None
    for text in NO_COMMANDS:
        status, out, error = told(PROGRAM, text.split(), folder, {})
        is_right = (status, out, error[:7]) == (2, b"", b"error: ")
        yield None if is_right else f"{text[:60]}: expected 2 and an error, but was told {status} {out} {error}"
    for words, given, want in inputs(folder):
        got = told_of(words, folder, given)
        yield f"{' '.join(words)}, of standard input: {difference(want, got)}" if got != want else None
    for words in (["count", "-"], ["join", "all.book", "-"]):
        status, error = told_into(" ".join(words), folder, "<&-")
        yield None if (status, error) == (5, b"isofarm: -: read fault\n") else f"{' '.join(words)} <&-: was told {status} {error}"
    for name in ("isofarm", "other", "/somewhere/else/farm", ""):
        for text, usage in USAGES.items():
            got = told_of(text.split(), folder, b"", name)
            yield f"{text}, started as {name}: was told {got}" if got != (2, b"", usage) else None
        status, out, error = told_of(["missing", "--help"], folder, b"", name)
        yield None if (status, error) == (0, b"") and HELP_OF_MISSING in out else f"missing --help, started as {name}: was told {status} {out} {error}"
    for text, redirections, want in outputs():
        got = told_into(text, folder, redirections)
        yield f"{text} {redirections}: expected {want}, but was told {got}" if got != want else None
    yield from progress_in(folder)
    for name, text in FILES.items():
        yield f"{name} was changed" if Path(folder, name).read_bytes() != text else None


def main():
    with TemporaryDirectory() as folder:
        for name, text in FILES.items():
            Path(folder, name).parent.mkdir(exist_ok=True)
            Path(folder, name).write_bytes(text)
        Path(folder, "folder").mkdir()
        Path(folder, "shut").write_bytes(SPEC)
        Path(folder, "shut").chmod(0)
        wrong = list(wrong_in(folder))
    found = [difference for difference in wrong if difference]
    print("".join(f"{difference}\n" for difference in found), end="")
    print(f"{len(wrong)} runs, {len(found)} differences")
    return 1 if found else 0


if __name__ == "__main__":
    sys.exit(ended(main))
