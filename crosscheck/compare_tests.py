"""Compares what `isofarm test` tells of specs that were edited with what this second implementation tells.

usage: python3 crosscheck/compare_tests.py PROGRAM FIRST_SEED SEEDS

Each spec of a seed is accepted by `isofarm test --update`, whose file has to be its record; then one thing in it is edited, or
nothing, and it is tested. Half of them are accepted at no level, the others at one or the other, and mostly tested at the same. Before them come edits that were worked out by hand. The last lines count what was told.
"""

import re
import sys
from collections import Counter
from pathlib import Path
from random import Random
from subprocess import run
from tempfile import TemporaryDirectory

from compare_classes import level_of, texts_of
from generate import LEVEL_LINES, WRONG_LEVEL_LINES
from machine import LEVELS
from refusal import Refusal
from spec_tests import Side, told

KINDS = ("leaving", "hindering", "few", "levels", "crowd")
NAME = "a.spec"
MOST_ORDERS = 3_000


# A spec that was accepted, that of today, the status, and what is told behind the path.
ADDED = "setup { CREATE TABLE t (v int); INSERT INTO t VALUES (0); } session a step s { UPDATE t SET v = v + 1; } session b"
ONE, KEYED = "session a step s {}", "setup { CREATE TABLE t (id int PRIMARY KEY); } session a step s { INSERT INTO t VALUES (1); }"
READ = """A

  error: deadlock
result 2: 1 of 1 order
  first: s

and 1 more result, which are left out
''BB"""
# The same on one line.
SHOWN = (
    r"A\u{a}\u{a}  error: deadlock\u{a}result 2: 1 of 1 order\u{a}  first: s\u{a}\u{a}and 1 more result, which are left out\u{a}''BB"
)
READS = f"setup {{ CREATE TABLE t (v text); INSERT INTO t VALUES ('{READ}'); }} session a step s {{ SELECT v FROM t; }}"
WORKED = [
    (ONE, ONE, 0, "as accepted"),
    (ONE, f"# one\n{ONE}", 0, "as accepted"),
    (
        ONE,
        "session a step r {}",
        1,
        """differs: results gone 0, new 0, with other numbers 1
  other numbers
    was: 1 of 1 order, first: s
    is: 1 of 1 order, first: r""",
    ),
    (
        ONE,
        f"{ONE} session b step t {{}}",
        1,
        """differs: results gone 1, new 1, with other numbers 0
  orders
    was: 1
    is: 2
  gone
    1 of 1 order
      first: s
      a: nothing
  new
    2 of 2 orders
      first: s t
      a: nothing
      b: nothing""",
    ),
    (
        KEYED,
        f"{KEYED} session b step t {{ INSERT INTO t VALUES (1); }}",
        1,
        """differs: results gone 1, new 2, with other numbers 0
  orders
    was: 1
    is: 2
  letters
    was: W 0  D 0  E 0  S 0  R 0
    is: W 0  D 0  E 2  S 0  R 0
  gone
    1 of 1 order
      first: s
      a: inserted 1
      t: 1
  new
    1 of 2 orders
      first: s t!
      a: inserted 1
      b: error: duplicate key
      t: 1
    1 of 2 orders
      first: t s!
      a: error: duplicate key
      b: inserted 1
      t: 1""",
    ),
    (
        KEYED,
        KEYED.replace("VALUES (1)", "VALUES (2)"),
        1,
        """differs: results gone 1, new 1, with other numbers 0
  gone
    1 of 1 order
      first: s
      a: inserted 1
      t: 1
  new
    1 of 1 order
      first: s
      a: inserted 1
      t: 2""",
    ),
    (ONE, "session a step", 3, "spec error 4 at 14"),
    # Both orders left 3, and now the first one leaves 2.
    (
        f"{ADDED} step t {{ UPDATE t SET v = v + 2; }}",
        f"{ADDED} step t {{ UPDATE t SET v = 2; }}",
        1,
        """differs: results gone 0, new 1, with other numbers 1
  new
    1 of 2 orders
      first: s t
      a: updated 1
      b: updated 1
      t: 2
  other numbers
    was: 2 of 2 orders, first: s t
    is: 1 of 2 orders, first: t s""",
    ),
    # An isolation level without effect stands in the head alone, and so does a file's name.
    ("session a step s { BEGIN; }", "session a step s { BEGIN ISOLATION LEVEL READ COMMITTED; }", 1, "only the head of the record differs"),
    ("session a step s {}", "# level: serializable\nsession a step s {}", 1, "only the head of the record differs"),
    ("session a step s {}\n\t# level:read-committed", "session a step s { BEGIN; }", 1, "only the head of the record differs"),
    (ONE, f"# level: snapshot\n{ONE}", 3, "no such level (line 1)"),
    (ONE, f"# level: serializable\n{ONE}\n# level: serializable", 3, "a second level (line 3)"),
    (ONE, "# level: serializable\nsession a step s {\nSTART TRANSACTION ISOLATION LEVEL REPEATABLE READ; }", 3, "REPEATABLE READ is not modelled (line 3)"),
    # Texts that are read have line feeds, an empty line, and what looks like an error and a result.
    (
        READS,
        READS.replace("BB", "BC"),
        1,
        f"""differs: results gone 1, new 1, with other numbers 0
  gone
    1 of 1 order
      first: s
      a: row '{SHOWN}', rows 1
      t: '{SHOWN}'
  new
    1 of 1 order
      first: s
      a: row '{SHOWN.replace("BB", "BC")}', rows 1
      t: '{SHOWN.replace("BB", "BC")}'""",
    ),
    (
        READS,
        f"{READS} session b step t {{}}",
        1,
        f"""differs: results gone 1, new 1, with other numbers 0
  orders
    was: 1
    is: 2
  gone
    1 of 1 order
      first: s
      a: row '{SHOWN}', rows 1
      t: '{SHOWN}'
  new
    2 of 2 orders
      first: s t
      a: row '{SHOWN}', rows 1
      b: nothing
      t: '{SHOWN}'""",
    ),
]


def edited(text, random):
    """The text with one thing in it changed, if there is such a thing."""
    whole = text.decode()
    edit = random.choice([one_number, one_step_less, one_step_more, one_name, one_session_less, one_level, nothing, nothing_told])
    return edit(whole, random).encode()


def one_of(pattern, whole, random):
    found = [*re.finditer(pattern, whole)]
    return random.choice(found) if found else None


def put(whole, found, text):
    return whole[: found.start()] + text + whole[found.end() :] if found else whole


def one_number(whole, random):
    return put(whole, one_of(r"(?<=[ =(+-])\d+(?=[ ,;)])", whole, random), str(random.randint(0, 40)))


def one_step_less(whole, random):
    if "permutation" in whole:
        return whole
    return put(whole, one_of(r"\bstep \w+ \{[^}]*\}", whole, random), "")


def one_step_more(whole, random):
    found = one_of(r"\bstep \w+ \{[^}]*\}", whole, random)
    return put(whole, found, f"{found[0]} step more {{ {random.choice(['COMMIT;', 'UPDATE t SET v = 5 WHERE id = 1;', 'SELECT * FROM t;'])} }}" if found else "")


def one_name(whole, random):
    found = one_of(r"(?<=\bstep )\w+", whole, random)
    return re.sub(rf"\b{found[0]}\b", "renamed", whole) if found else whole


def one_session_less(whole, random):
    if "permutation" in whole:
        return whole
    return put(whole, one_of(r"\bsession \w+[^}]*\}(?:(?!session)[\s\S])*", whole, random), "")


def one_level(whole, random):
    return f"{random.choice(LEVEL_LINES * 4 + WRONG_LEVEL_LINES)}\n{whole}"


def nothing(whole, random):
    return whole


def nothing_told(whole, random):
    return f"# a comment\n{whole}"


class Tests:
    """Runs `isofarm test`, and counts."""

    def __init__(self, program, folder):
        self.program, self.folder, self.counts, self.differences = program, Path(folder), Counter(), 0

    def run(self, *words):
        ended = run([self.program, "test", *words], cwd=self.folder, capture_output=True, check=False)
        return ended.returncode, ended.stdout, ended.stderr

    def differ(self, name, got, want):
        self.differences += 1
        print(f"{name}: {got} in the place of {want}", flush=True)

    def compare(self, name, accepted, text, by_hand=None, levels=(None, None)):
        """Accepts a text, and tests the other one, each at its level. What is told may be known by hand."""
        accepting, testing = ([NAME, *(["--level", level] if level else [])] for level in levels)
        try:
            was = Side(NAME, accepted, levels[0])
            page = was.text
        except Refusal:
            self.counts["none accepted"] += 1
            return
        if was.orders > MOST_ORDERS:
            return
        (self.folder / NAME).write_bytes(accepted)
        (self.folder / "a.accepted").unlink(missing_ok=True)
        if (got := self.run("--update", *accepting)) != (0, f"{NAME}: accepted\n".encode(), b""):
            self.differ(name, got, "accepted")
        if (self.folder / "a.accepted").read_bytes() != page:
            self.differ(name, "another text", "the record")
        (self.folder / NAME).write_bytes(text)
        status, out = told(NAME, accepted, text, *levels)
        if by_hand and (status, out) != by_hand:
            self.differ(f"{name}, here", (status, out), by_hand)
        if (got := self.run(*testing)) != (status, out, b""):
            self.differ(name, got, (status, out))
        self.counts[kind_of(out)] += 1


def kind_of(out):
    line = out.decode().split("\n")[0].removeprefix(f"{NAME}: ")
    return re.sub(r"\d+", "N", line)


def main(program, first, seeds):
    with TemporaryDirectory() as folder:
        tests = Tests(str(Path(program).resolve()), folder)
        for accepted, text, status, out in WORKED:
            tests.compare("by hand", accepted.encode(), text.encode(), (status, f"{NAME}: {out}\n".encode()))
        for kind in KINDS:
            for name, seed, text in texts_of(kind, int(first), int(seeds)):
                random, level = Random(f"{kind} {seed}"), level_of(f"{kind} {seed}")
                levels = level, random.choice([level] * 9 + [None, *LEVELS])
                tests.compare(f"{kind}, {name}", text, edited(text, random), levels=levels)
    for told_so, count in sorted(tests.counts.items()):
        print(f"{count:6} {told_so}")
    print(f"{sum(tests.counts.values())} specs, {tests.differences} differences")
    sys.exit(bool(tests.differences))


if __name__ == "__main__":
    if len(sys.argv) != 4:
        sys.exit(__doc__)
    main(*sys.argv[1:])
