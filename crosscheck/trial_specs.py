"""The repository of specs of the trial: what lies in it, how its specs are edited, and what is told of them then."""

import os
from dataclasses import dataclass
from functools import lru_cache
from pathlib import Path
from random import Random

from compare_classes import texts_of
from compare_shown import bound
from compare_tests import edited
from refusal import Refusal
from spec_tests import Side, told

TOP = Path(__file__).resolve().parent.parent
FOLDER = "specs"
EXAMPLES = ["deadlock", "first", "key_again", "lines", "lost_update", "phantom", "write_skew"]
KINDS = ["leaving", "hindering", "few", "crowd"]
MOST_ORDERS, OF_A_KIND, SPECS = 150, 2, 20

TABLE = "setup { CREATE TABLE t (id int PRIMARY KEY, v int); INSERT INTO t VALUES (1, 0); }\n"
ADDS = "UPDATE t SET v = v + 1 WHERE id = 1"
GUARD = " AND v < 1"
GUARDED = f"{TABLE}session a\nstep a1 {{ {ADDS}{GUARD}; }}\nsession b\nstep b1 {{ {ADDS}{GUARD}; }}\n"
LOCK = "LOCK TABLE t IN EXCLUSIVE MODE; "
LOCKED = f"{TABLE}session a\nstep a1 {{ BEGIN; {LOCK}SELECT v FROM t; }}\nstep a2 {{ {ADDS}; COMMIT; }}\n"
LOCKED += f"session b\nstep b1 {{ BEGIN; {LOCK}SELECT v FROM t; }}\nstep b2 {{ {ADDS}; COMMIT; }}\n"
KEYED = "setup { CREATE TABLE t (id int PRIMARY KEY); }\nsession a\nstep s { INSERT INTO t VALUES (1); }\n"
KEYED += "session b\nstep r { INSERT INTO t VALUES (2); }\n"
MORE = "session b"
ONE = "session a step s {}\n"
MARKUP = "session \"<a & b>\"\nstep \"]]> \"\"it's\"\"\" {}\n"
# What is written by hand: the path in the folder of specs, and the text.
BY_HAND = {
    "guarded.spec": GUARDED,
    "one two.spec": LOCKED,
    "<&\"'>.spec": MARKUP,
    "größe 日本\u2028é.spec": KEYED,
    "deep/x.spec/deeper/broken.spec": ONE,
    # A bell, the front of a colour, a tab, a line feed, a carriage return, and what is no character.
    "deep/\a\x1b[31m\t\n\r\ufffe\x7f\x85.spec": ONE,
    "moved.spec": KEYED,
}
# What is edited: the path, what is cut out of the text and what is put there, and what is told by hand behind the path.
EDITS = [
    (
        "guarded.spec",
        (f"{GUARD}; }}\nsession b\nstep b1 {{ {ADDS}{GUARD}", f"{GUARD}; }}\nsession b\nstep b1 {{ {ADDS}"),
        (
            1,
            """differs: results gone 1, new 1, with other numbers 0
  gone
    1 of 2 orders
      first: a1 b1
      a: updated 1
      b: updated 0
      t: 1|1
  new
    1 of 2 orders
      first: a1 b1
      a: updated 1
      b: updated 1
      t: 1|2
""",
        ),
    ),
    ("one two.spec", (f"b1 {{ BEGIN; {LOCK}", "b1 { BEGIN; "), None),
    (
        "<&\"'>.spec",
        ("]]> \"\"it's\"\"", "--> &amp;"),
        (
            1,
            """differs: results gone 0, new 0, with other numbers 1
  other numbers
    was: 1 of 1 order, first: "]]> ""it's\"""
    is: 1 of 1 order, first: "--> &amp;"
""",
        ),
    ),
    (
        "größe 日本\u2028é.spec",
        (MORE, f"step more {{ INSERT INTO t VALUES (1); }}\n{MORE}"),
        (
            1,
            """differs: results gone 1, new 1, with other numbers 0
  orders
    was: 2
    is: 3
  letters
    was: W 0  D 0  E 0  S 0  R 0
    is: W 0  D 0  E 3  S 0  R 0
  gone
    2 of 2 orders
      first: s r
      a: inserted 1
      b: inserted 1
      t: 1, 2
  new
    3 of 3 orders
      first: s more! r
      a: inserted 1, error: duplicate key
      b: inserted 1
      t: 1, 2
""",
        ),
    ),
    ("deep/x.spec/deeper/broken.spec", (ONE, "session a\nstep s {"), (3, "spec error 3 at 17\n")),
    (
        "deep/\a\x1b[31m\t\n\r\ufffe\x7f\x85.spec",
        ("step s", "step r"),
        (
            1,
            """differs: results gone 0, new 0, with other numbers 1
  other numbers
    was: 1 of 1 order, first: s
    is: 1 of 1 order, first: r
""",
        ),
    ),
]
# Where the accepted record is taken away, and where it goes along to another name, which stands in its head.
WITHOUT = "from examples/first.spec"
MOVED = "moved.spec", "moved on.spec"
# What lies there and is no spec.
PASSED_OVER = [".hidden.spec", ".git/kept.spec", "notes.md", "deep/old.spec.bak", "deep/spec"]


def accepted_path(path):
    return f"{path.removesuffix('.spec')}.accepted"


@lru_cache(maxsize=None)
def side_of(name, text):
    """The record of a spec. Raises a Refusal where there is none."""
    return Side(name, text)


@dataclass(frozen=True)
class Accepted:
    """A spec that was accepted: the name of its file then, and its text."""

    name: str
    text: bytes

    @property
    def page(self):
        return side_of(self.name, self.text).text


def name_of(path):
    return path.rpartition("/")[2]


@lru_cache(maxsize=None)
def told_of(path, accepted, text):
    """The status, and what is told of a spec at a path that was accepted so, or not at all."""
    name = name_of(path)
    status, out = told(name, accepted.text if accepted else ONE.encode(), text)
    if status != 3 and accepted is None:
        return 1, f"{path}: no accepted text\n".encode()
    if status == 0 and accepted.name != name:
        return 1, f"{path}: only the head of the record differs\n".encode()
    return status, path.encode() + out.removeprefix(name.encode())


def has_few_orders(text):
    """Whether a text is a spec that has a record and few orders."""
    spec = bound(text)
    if not spec or spec.ranks() > MOST_ORDERS:
        return False
    try:
        return bool(side_of("any.spec", text).text)
    except Refusal:
        return False


def specs_made(first):
    """Specs of some kinds from a seed on: of each kind some."""
    for kind in KINDS:
        texts = (text for _name, _seed, text in texts_of(kind, first, 1_000) if has_few_orders(text))
        yield from ((f"made/{kind}{number}.spec", text) for number, text in zip(range(OF_A_KIND), texts))


class Repository:
    """Specs in folders under one: the text of each today, and the one that was accepted of it, if one was."""

    def __init__(self, top, seed):
        self.top, self.random = Path(top), Random(seed)
        made = [*specs_made(seed)]
        texts = {f"from examples/{name}.spec": (TOP / f"examples/{name}.spec").read_bytes() for name in EXAMPLES}
        texts |= {path: text.encode() for path, text in BY_HAND.items()}
        texts |= dict(made[: SPECS - len(texts)])
        self.now = {f"{FOLDER}/{path}": text for path, text in texts.items()}
        self.accepted = dict.fromkeys(self.now)

    def put(self, path, text):
        file = self.top / path
        file.parent.mkdir(parents=True, exist_ok=True)
        file.write_bytes(text)

    def make(self):
        """Puts the specs there, and what is none."""
        for path, text in self.now.items():
            self.put(path, text)
        for path in PASSED_OVER:
            self.put(f"{FOLDER}/{path}", b"session")
        (self.top / FOLDER / "linked").symlink_to("made", target_is_directory=True)

    def paths(self):
        """The specs in the order in which they are told: by the bytes of the names, folder by folder."""
        return sorted(self.now, key=lambda path: [part.encode() for part in path.split("/")])

    def edit(self):
        """Edits some specs: one guard less, one lock less, a step renamed, one more, one broken, and what the seed makes of the made ones."""
        for path, (cut, put), _told in EDITS:
            path = f"{FOLDER}/{path}"
            assert cut.encode() in self.now[path]
            self.change(path, self.now[path].replace(cut.encode(), put.encode()))
        for path in [path for path in self.now if path.startswith(f"{FOLDER}/made/")]:
            self.change(path, edited(self.now[path], self.random))
        without, (old, new) = f"{FOLDER}/{WITHOUT}", (f"{FOLDER}/{path}" for path in MOVED)
        (self.top / accepted_path(without)).unlink()
        self.accepted[without] = None
        for name in (lambda path: path, accepted_path):
            (self.top / name(old)).rename(self.top / name(new))
        self.now[new], self.accepted[new] = self.now.pop(old), self.accepted.pop(old)

    def change(self, path, text):
        self.now[path] = text
        self.put(path, text)

    def told(self, path):
        """The status and the lines of a spec."""
        return told_of(path, self.accepted[path], self.now[path])

    def updated(self, path):
        """The status and the line of a spec with `--update`, and whether a record is written."""
        status, out = self.told(path)
        return (0, f"{path}: accepted\n".encode(), True) if status == 1 else (status, out, False)

    def accept(self):
        """What is known once records were written."""
        for path, text in self.now.items():
            if self.updated(path)[2]:
                self.accepted[path] = Accepted(name_of(path), text)

    def pages(self):
        """The accepted record of each spec that has one, by its path."""
        return {accepted_path(path): accepted.page for path, accepted in self.accepted.items() if accepted}

    def files(self):
        """All files, each with its bytes, when it was written, and which one it is."""
        files = {}
        for folder, _folders, names in os.walk(self.top):
            for name in names:
                file = Path(folder, name)
                about = file.lstat()
                files[str(file.relative_to(self.top))] = (file.read_bytes(), about.st_mtime_ns, about.st_ino) if file.is_file() else None
        return files
