"""Compares what `isofarm show` prints with what this second implementation prints, on specs made from seeds.

usage: python3 crosscheck/compare_shown.py PROGRAM|--alone KIND FIRST_SEED SEEDS

Some orders of each spec are shown, by their ranks and by the names of their steps, as text and as JSON; some have no rank. Half of them are asked
for at no level, and the others at one or the other. Before them come
the specs of `shown/`, whose texts and JSON were worked out by hand. With `--alone` no program is run: the moments, texts and JSON of these
orders are held against what has to hold of each (`moment_laws.py`), as they are and at READ COMMITTED. KIND is one of those below, or `all`:
`named` has names and texts that are long, alike or steer a terminal, `many` has five to eight sessions, `stale` has sessions that read without locks
what others write, and each of the other kinds is that of `generate.py`. The last lines count what was told.
"""

import json
import re
import sys
from collections import Counter
from itertools import product
from pathlib import Path
from random import Random
from tempfile import TemporaryDirectory
from unicodedata import category

from binding import bind
from compare import WORDS, Comparison, ended, texts_of
from generate import KINDS, Maker
from machine import LEVELS, READ_COMMITTED
from moment_laws import wrong_in
from orders import orders
from refusal import Refusal
from shown import HIDDEN_RUNS, WIDTH, Order, answer, broken, shortened
from spec_file import read_spec

ALONE, ALL = "--alone", "all"
WORKED = Path(__file__).resolve().parent / "shown"
RANKS_A_SPEC = 3
FILES = ["made.spec", "made.spec", "made.spec", "<a>&'b' \u200b\"c\".spec", f"{'long ' * 20}.spec", f"{'x' * 100}.spec"]
# What a lane says besides the words of an outcome.
NOTES = [" holds ", " is ahead, for ", ", has ", " and asks ", "  ring ", "  now ", "still wants", "still waits at the end", "columns wide", "~#"]
NOTES += [f"in a {where}\n" for where in ("transaction", "failed block")] + [" waits\n", "  nothing", "\\u{"]
# Widths of tables' names, round those with which `left in` is broken, and with which they are.
LONG_TABLES = [*range(71, 74), *range(77, 80), 155, 156, 157]
MEMBERS = ["want", "ring", "lacks", "has", "stale"]
HOSTILE = ["<b>", "</script>", "&amp;", "\u2028", "\u202e", "\x1b[31m", "\\u003c", "\\", '"', "'", "~", "#0", "#", "\t", "\x7f", "é", "字"]
HOSTILE += ["\U0001f600", "\u00ad", " ", "  ", "-", "\x0b", "\r"]


# ---- specs with names of all sorts


class Namer(Maker):
    """Gives the sessions, steps and texts of a spec other names."""

    def near_hidden(self):
        """A character in a run of those that are not seen, or just outside of it; no zero and no line feed."""
        first, last = self.one(HIDDEN_RUNS)
        number = self.one([first - 1, first, last, last + 1, self.random.randint(first, last)])
        return chr(number) if number not in (-1, 0, 10) else "\x01"

    def hostile(self):
        forms = [lambda: self.one(HOSTILE), self.near_hidden, lambda: self.one(["a", "take", "b c"])]
        return "".join(self.many(6, lambda: self.one(forms)()))

    def alike(self):
        """Names that are the same when they are cut, or are what another one is then."""
        front = self.one(["take_from_account_number_one_and_give", "x" * 30, "take money from a"])
        most = self.one([7, 9, 12, 14, 15, 17, 19, 24, 35])
        return front[: most - self.one([0, 1, 2, 3])] + self.one(["", "~", "~#0", "~#1", "#0", "#1", "and", "or", "d", "da", "daa"])

    def name(self, given):
        for _ in range(100):
            name = self.one([self.hostile, self.alike, self.alike, lambda: self.one("abcdefgh") + self.one(["", "1", "23"])])()
            if name not in given:
                given.add(name)
                return '"' + name.replace('"', '""') + '"'
        raise AssertionError("no more names")

    def named(self, made):
        """The spec with other names, and sometimes with permutation lines."""
        sessions, steps = set(), set()
        if self.some(0.3):
            made = re.sub(r"\bt\b", "t" * self.one(LONG_TABLES), made)
        for word in re.findall(r"(?<=session )s\d", made):
            made = made.replace(f"session {word}\n", f"session {self.name(sessions)}\n")
        for word in re.findall(r"(?<=step )s\d_\d", made):
            made = made.replace(f"step {word} ", f"step {self.name(steps)} ")
        if self.some(0.5):
            for letter in "ab":
                text = self.hostile().replace("'", "''")
                made = made.replace(f"'{letter}'", f"'{letter}{text}'")
        if self.some(0.3):
            quoted = ['"' + name.replace('"', '""') + '"' for name in sorted(steps)]
            made += "".join(f"permutation {' '.join(self.random.choices(quoted, k=self.random.randint(1, 12)))}\n" for _ in range(self.random.randint(1, 4)))
        return made.encode()


def named_spec(maker):
    namer = Namer(maker.random.randrange(10**9))
    return namer.named(namer.hindering_spec(setups_lock=namer.some(0.4)).decode())


def many_spec(maker):
    """Five to eight sessions."""
    namer = Namer(maker.random.randrange(10**9))
    steps = {5: [2, 3, 4], 6: [2, 3], 7: [2, 2, 3], 8: [1, 2]}
    made = namer.hindering_spec((5, 6, 7, 8), steps=steps, setups_lock=namer.some(0.2))
    return namer.named(made.decode()) if namer.some(0.4) else made


# What sessions of the kind `stale` read of a few rows, what they write there, and how they end.
STALE_READS = ["SELECT v FROM t WHERE id = {key}", "SELECT * FROM t", "SELECT w, id FROM t WHERE v > 15", "SELECT count(*), sum(v) FROM t"]
STALE_READS += ["SELECT count(*) FROM t WHERE v < 25", "SELECT a FROM n ORDER BY a", "SELECT id FROM t WHERE id = {key} FOR SHARE"]
STALE_WRITES = ["UPDATE t SET v = v + 10 WHERE id = {key}", "UPDATE t SET v = 10, w = w WHERE id = {key}", "DELETE FROM t WHERE id = {key}"]
STALE_WRITES += ["UPDATE t SET v = 9223372036854775807 WHERE id = {key}", "UPDATE t SET w = 'b|''c\u0007', v = v - 1 WHERE id = {key}"]
STALE_WRITES += ["INSERT INTO t VALUES ({key}0, 0, 'new')", "INSERT INTO n VALUES ({key})", "UPDATE n SET a = a + 1 WHERE a = {key}"]
STALE_ENDS = ["COMMIT"] * 4 + ["COMMIT; BEGIN"] * 2 + ["ROLLBACK", "BEGIN", "BEGIN ISOLATION LEVEL SERIALIZABLE"]


def stale_step(namer):
    """What some sessions read of the same few rows, and what they and others write."""
    reads, writes, ends = STALE_READS, STALE_WRITES, STALE_ENDS
    parts = namer.one([[reads], [reads, reads], [reads, writes], [reads, ends], [writes], [writes, ends], [writes, ends], [ends]])
    return namer.block([namer.one(part).format(key=namer.one("1123")) for part in parts])


def stale_spec(maker):
    """Sessions that read without locks what others write, most of them in blocks."""
    namer = Namer(maker.random.randrange(10**9))
    made = "# level: read-committed\nsetup { CREATE TABLE t (id int PRIMARY KEY, v int, w text); CREATE TABLE n (a int);\n"
    made += "  INSERT INTO t VALUES (1, 10, 'a'), (2, 20, 'b'); INSERT INTO n VALUES (1); }\n"
    sessions = namer.one([2, 2, 3])
    for session in range(sessions):
        made += f"session s{session}\n{namer.one(['', 'setup { BEGIN; }', 'setup { BEGIN; }', 'setup { BEGIN; SELECT v FROM t; }'])}\n"
        made += "".join(f"step s{session}_{number} {stale_step(namer)}\n" for number in range(5 - sessions + namer.one([1, 2])))
    return namer.named(made) if namer.some(0.3) else made.encode()


MORE = {"named": named_spec, "many": many_spec, "stale": stale_spec}
ALL_KINDS = {**KINDS, **MORE}


def specs_of(kind, first, seeds):
    """Specs, each with a name and a seed."""
    if kind in KINDS:
        yield from texts_of(kind, first, seeds)
        return
    for seed in range(first, first + seeds):
        yield f"seed {seed}", seed, MORE[kind](Maker(seed))


# ---- orders


def bound(text):
    try:
        return bind(read_spec(text))
    except Refusal:
        return None


def ranks_of(spec, random):
    number = spec.ranks()
    return sorted({random.choice([0, number - 1, random.randrange(number)])} | {random.randrange(number) for _ in range(RANKS_A_SPEC - 1)})


def is_told_alike(name):
    """Whether the fault lines of both spell a name alike: of marks, and of what is no character yet, they know by other tables."""
    return all(category(one) not in ("Mn", "Mc", "Me", "Cn") for one in name)


def words_of(spec, random):
    """The words of some orders: ranks, the names of their steps, and what is no order."""
    yield from ([str(rank)] for rank in ranks_of(spec, random))
    line = spec.line(random.randrange(spec.ranks()))
    lists = [[spec.step_names[step] for step in line]]
    if all(map(is_told_alike, spec.step_names)):
        lists += [random.choice([*orders(random, spec)])] * (random.random() < 0.3)
    # One name that is a number is a rank.
    yield from (names for names in lists if not (len(names) == 1 and names[0].isdigit()))
    if random.random() < 0.1:
        yield [str(spec.ranks() + random.choice([0, 1, 2**64 - 1 - spec.ranks()]))]


def runs(text, seed, path):
    """The words of some runs of a spec, and what each tells."""
    random, spec = Random(seed), bound(text)
    if not spec:
        asked = [random.choice([["0"], ["s"], ["s0_0", "s1_0"]])]
    else:
        asked = list(words_of(spec, random))
    for words in asked:
        level = random.choice([None, None, *LEVELS])
        at = ["--level", level] if level else []
        behind = words if len(words) == 1 and words[0].isdigit() else ["--", *words]
        places = [["show", *at, path, *behind], ["show", path, *at, *behind]] + [["show", path, *behind, *at]] * (behind is words)
        yield random.choice(places), answer(text, path, words, False, level)
        places = [["show", "--json", *at, path, *behind], ["show", path, *at, "--json", *behind]]
        places += [["show", path, *behind, "--json", *at]] * (behind is words)
        yield random.choice(places), answer(text, path, words, True, level)


# ---- worked out by hand


def worked():
    """For each text and JSON of `shown/` the spec's path and text, the words of its run, and what it tells."""
    for path in sorted(WORKED.glob("*.spec")):
        for ending, flags in ((".txt", []), (".json", ["--json"])):
            if path.with_suffix(ending).exists():
                yield path.name, path.read_bytes(), ["show", path.name, "0", *flags], (0, path.with_suffix(ending).read_bytes(), b"")


# Names that are cut, with their limit, and texts that are broken, with the width and the blanks in front.
SHORTENED = [
    (["b", "abcdefg", "abcdefgh"], 7, ["b", "abcdefg", "abcdef~"]),
    (["abcdefgh", "x", "abcdefgi"], 7, ["abcd~#0", "x", "abcd~#2"]),
    # A name that is what another one is with its number: all have theirs.
    (["aaaaaaaaaaaaab", "aaaaaaaaaaaaac", "aaaaaaaaa~#0", "b"], 12, ["aaaaaaaaa~#0", "aaaaaaaaa~#1", "aaaaaaaaa~#2", "b#3"]),
    # Where there are more than ten, two digits take one more character.
    ([*"abcdefghij", "xxxxxxxxx", "xxxxxxxxy"], 7, [*"abcdefghij", "xxx~#10", "xxx~#11"]),
]
BROKEN = [
    ("wants X on t[1], has S", (16, 2, 4), ["  wants X on", "    t[1], has S"]),
    # A long word is cut behind so many characters as a further line has, and its pieces go on a line whole.
    ("row 'abcdefghijklmnop'|1", (15, 0, 2), ["row", "  'abcdefghijkl", "  mnop'|1"]),
    # Of two blanks behind a full line one goes on it.
    ("abcdefghij  kl", (10, 0, 0), ["abcdefghij", " kl"]),
    ("a  b", (3, 0, 0), ["a", "b"]),
]


def wrong_by_hand():
    """What is told otherwise than was worked out by hand."""
    for name, text, (_show, path, *words), want in worked():
        if answer(text, path, words[:1], "--json" in words) != want:
            yield f"{name} {' '.join(words)}"
    yield from (f"{names} are cut to {shortened(names, most)}" for names, most, short in SHORTENED if shortened(names, most) != short)
    yield from (f"{text} is broken as {broken(text, *at)}" for text, at, lines in BROKEN if broken(text, *at) != lines)


# ---- what is told


def kind_of(out):
    """What an order shows, in words to be counted."""
    told = out.decode()
    if told.startswith("{"):
        return ["JSON"] + [f"told: {word}" for word in WORDS if f'"{word}' in told] + [f"JSON: {member}" for member in MEMBERS if f'"{member}":' in told]
    return ["a text"] + [f"a note:{word.rstrip()}" for word in NOTES if word in told]


def wrong_form(words, out):
    """What is wrong with an output, whatever is shown: no line ends with a blank, JSON is read back, and it ends no script."""
    if "--json" in words:
        if {*out.decode()} & {*"<>&\u2028\u2029"}:
            return "has a character that may end a script"
        value = json.loads(out)
        return None if isinstance(value, dict) and value["format"] == 1 else "is no such object"
    lines = out.decode().split("\n")
    is_wide = "columns wide" in " ".join(lines[: lines.index("")])
    if any(line.endswith(" ") for line in lines) or (not is_wide and any(len(line) > WIDTH for line in lines)):
        return "a line is too long or ends with a blank"
    return None


class ShowComparison(Comparison):
    """Compares, and looks at the form of what was told."""

    def look(self, name, words, want):
        status, out, _error = got = super().look(name, words, want)
        wrong = wrong_form(words, out) if status == 0 else None
        if wrong:
            self.differences += 1
            print(f"{name}, {' '.join(words)}: {wrong}", flush=True)
        return got


def compare_with(program, kinds, first, seeds):
    with TemporaryDirectory() as folder:
        comparison = ShowComparison(program, folder, kind_of)
        for path, text, words, want in worked():
            Path(folder, path).write_bytes(text)
            comparison.look("by hand", words, want)
        for kind in kinds:
            for name, seed, text in specs_of(kind, first, seeds):
                path = Random(seed).choice(FILES)
                Path(folder, path).write_bytes(text)
                for words, want in runs(text, seed, path):
                    comparison.look(f"{kind}, {name}", words, want)
    return comparison.end()


def wrong_alone(text, path, words, level, counts):
    """What is wrong with an order, by the laws; where it has none, with what is told of that."""
    status, out, error = answer(text, path, words, False, level)
    if status:
        counts.update(["refused"])
        if (status, out) != (3, b"") or answer(text, path, words, True, level) != (status, out, error):
            yield "a refusal has an answer, or is another one for JSON"
        return
    line = answer(text, path, words, True, level)[1]
    counts.update(["orders", *kind_of(out), *kind_of(line)])
    yield from wrong_in(Order(text, path, json.loads(line)["rank"], level), out.decode(), line.decode())


def alone(kinds, first, seeds):
    counts, wrong_texts = Counter(), [*wrong_by_hand()]
    print("".join(f"by hand: {wrong}\n" for wrong in wrong_texts), end="")
    found = len(wrong_texts)
    for kind in kinds:
        for name, seed, text in specs_of(kind, first, seeds):
            random, spec = Random(seed), bound(text)
            path = Random(seed).choice(FILES)
            asked = [*words_of(spec, random)] if spec else [["0"]]
            for words, level in product(asked, (None, READ_COMMITTED)):
                for wrong in wrong_alone(text, path, words, level, counts):
                    found += 1
                    print(f"{kind}, {name}, {' '.join(words)}, {level}: {wrong}")
    print(f"{counts['orders']} orders, {found} faults of the laws; in what was told:")
    for word, count in counts.most_common():
        print(f"  {count:6} {word}")
    return 1 if found else 0


def main(program, kind, first, seeds):
    kinds = [*ALL_KINDS] if kind == ALL else [kind]
    if program == ALONE:
        return alone(kinds, first, seeds)
    return compare_with(Path(program).resolve(), kinds, first, seeds)


if __name__ == "__main__":
    if len(sys.argv) != 5 or sys.argv[2] not in {ALL, *ALL_KINDS}:
        sys.exit(f"{__doc__}\nKIND is one of {', '.join([ALL, *ALL_KINDS])}.")
    sys.exit(ended(main, sys.argv[1], sys.argv[2], int(sys.argv[3]), int(sys.argv[4])))
