"""Compares what `isofarm classes` prints with what this second implementation prints, on specs made from seeds.

usage: python3 crosscheck/compare_classes.py PROGRAM|--alone KIND FIRST_SEED SEEDS

Of each spec are asked for: all classes and results, brief or not, of the orders that clients can send and of all permutations, as text, as JSON and
as a page that a browser opens, both levels side by side, and then some mix of filters, flags, queries and expectations (`class_asking.py`). By its seed half of the specs are asked for
at no level, a third at READ COMMITTED and the others at SERIALIZABLE. What the command line refuses has
to have the same status, and all else the same bytes. Of a spec with many orders some are made permutation lines. Before them come the pages of
`classes/`, which were worked out by hand. With `--alone` no program is run: orders are counted by layers of states and one by one, and classes, texts
and JSON are held against what has to hold of each (`class_laws.py`, `class_pages.py`), as they are and at READ COMMITTED. KIND is one of those below, or
`all`: `crowd` has five to seven sessions with so few steps that all orders are run, `leaving` has sessions that leave other rows in each order, and the
others are those of `compare_shown.py`. The last lines count what was told.
"""

import re
import sys
from collections import Counter
from pathlib import Path
from random import Random
from shlex import split
from subprocess import run
from tempfile import TemporaryDirectory

from class_asking import Asker
from class_laws import MOST_ONE_BY_ONE, MOST_SESSIONS, wrong_anomalies, wrong_filters, wrong_first_orders, wrong_numbers, wrong_orders, wrong_pages
from class_laws import wrong_of_levels, wrong_queries, wrong_ways
from class_pages import kinds_of, read_back
from class_request import ALL_ORDERS, BOTH_LEVELS, BRIEF, BY_RESULT, FINAL_ROWS, HTML, JSON, LEVEL, OUTCOMES, request_of
from classes import Asking, share, table_lines
from compare import Comparison, ended, fault_of, told
from compare_shown import ALL, ALL_KINDS, ALONE, FILES, bound, specs_of
from generate import Maker
from machine import LEVELS, READ_COMMITTED, SERIALIZABLE
from orders import order_text
from refusal import Refusal

WORKED = Path(__file__).resolve().parent / "classes"
MOST_ORDERS, MOST_LINES, NEAR_RANKS = 300_000, 60, 40
TOLD = [[], [BY_RESULT], [ALL_ORDERS], [ALL_ORDERS, BY_RESULT], [BRIEF], [JSON], [JSON, ALL_ORDERS], [JSON, BY_RESULT, BRIEF], [HTML]]
TOLD += [[BOTH_LEVELS], [BOTH_LEVELS, FINAL_ROWS, OUTCOMES]]
# So many runs of a spec ask for something by filters, queries and expectations.
RUNS_ASKED = 8
# At which level a spec is asked for by a word.
LEVELS_ASKED = [None, None, None, READ_COMMITTED, READ_COMMITTED, SERIALIZABLE]
CROWD = {5: [1, 1, 2], 6: [1, 1, 1, 2], 7: [1]}
MOST = 2**63 - 1


# ---- specs and their runs


def crowd_spec(maker):
    """Five to seven sessions at two tables. A step that would end a block alone does something before."""
    made = maker.hindering_spec((5, 5, 6, 7), "ttn", steps=CROWD).decode()
    return re.sub(r"(?<=\{ )(?=COMMIT|ROLLBACK)", lambda _found: f"{maker.hindering_statement('t')}; ", made).encode()


def leaving_statement(maker):
    """A write that leaves something else where it comes before another one, or, at times, a read."""
    key, letter, number = maker.random.randint(1, 3), maker.one("abc"), maker.random.randint(0, 9)
    change = maker.one(["v = v + 1", "v = v - 7", f"v = {number}", "w = v", "v = w + 1", "v = w, w = v"])
    forms = [f"UPDATE t SET {change}{maker.one([f' WHERE id = {key}', '', ' WHERE v > 9'])}"] * 5
    forms += [f"INSERT INTO t VALUES ({key + 2}, {number}, 0)", f"DELETE FROM t WHERE id = {key}"]
    forms += [f"INSERT INTO n VALUES ({number}, '{letter}')", f"DELETE FROM n WHERE b = '{letter}'", f"UPDATE n SET a = a * 2 WHERE a < {number}"]
    return maker.one([*forms, f"SELECT v FROM t WHERE id = {key}", "SELECT * FROM n ORDER BY b, a"])


def leaving_spec(maker):
    """Sessions mostly outside of blocks, so that each order leaves other rows; sums are near the end of 64 bits in half of the specs."""
    first = maker.random.randint(MOST // 2, MOST - 100)
    second = MOST - first - maker.random.randint(20, 40) if maker.some(0.5) else 20
    made = "setup { CREATE TABLE t (id int PRIMARY KEY, v bigint, w int); CREATE TABLE n (a int, b text);\n"
    made += f"  INSERT INTO t VALUES (1, {first if second != 20 else 10}, 0), (2, {second}, 0), (3, 30, 0); INSERT INTO n VALUES (4, 'a'); }}\n"
    for session, steps in enumerate(maker.one([[1, 2], [2, 2], [2, 3], [1, 1, 2], [1, 2, 2]])):
        made += f"session s{session}{' setup { BEGIN; }' * maker.some(0.15)}\n"
        for step in range(steps):
            statements = maker.many(2, lambda: leaving_statement(maker))
            ends = ["COMMIT"] * (step + 1 == steps and maker.some(0.3))
            made += f"step s{session}_{step} {maker.block(statements + ends)}\n"
    return made.encode()


MORE_KINDS = {"crowd": crowd_spec, "leaving": leaving_spec}
CLASS_KINDS = {**ALL_KINDS, **MORE_KINDS}


def lined(text, spec, random):
    """The text with some of its orders, of which some are neighbours and some the same, as permutation lines."""
    number, ranks = spec.ranks(), []
    while len(ranks) < MOST_LINES:
        near = random.randrange(number)
        ranks += [min(near + random.randrange(NEAR_RANKS), number - 1) for _ in range(random.randint(1, 8))]
    return text + b"\n" + "".join(f"permutation {order_text(spec, rank)}" for rank in ranks).encode()


def with_few_orders(text, seed, most=MOST_ORDERS):
    """The text, or some of its orders as permutation lines where it has more than so many."""
    spec = bound(text)
    return lined(text, spec, Random(seed)) if spec and spec.ranks() > most else text


def specs_made(kind, first, seeds):
    """Specs of all kinds, each with a name and a seed."""
    if kind in MORE_KINDS:
        return ((f"seed {seed}", seed, MORE_KINDS[kind](Maker(seed))) for seed in range(first, first + seeds))
    return specs_of(kind, first, seeds)


def texts_of(kind, first, seeds):
    """Specs that are classed, each with a name and a seed."""
    for name, seed, text in specs_made(kind, first, seeds):
        yield name, seed, with_few_orders(text, seed)


def asker_of(asking, seed):
    """Who asks for the classes of a spec, or of a text that has none."""
    spec, chosen_by = bound(asking.text), str(seed).encode() + asking.text
    try:
        return Asker(chosen_by, spec, asking.classes(False))
    except Refusal:
        return Asker(chosen_by, spec)


def level_of(seed):
    return Random(f"level {seed}").choice(LEVELS_ASKED)


def at_level(words, level):
    """The words with this level, where they have none."""
    return words if level is None or {LEVEL, BOTH_LEVELS}.intersection(words) else [*words, LEVEL, level]


def requests(asking, seed, level=None):
    """Words that ask for the classes of a spec, at this level or at that of the file."""
    yield from (at_level(words, level) for words in TOLD)
    asker = asker_of(asking, seed)
    yield from (at_level(asker.words(), level) for _ in range(RUNS_ASKED))


def runs(text, seed, path):
    """The words of some runs of a spec, and what each tells; those that the command line takes."""
    random, asking = Random(seed), Asking(text)
    for words in requests(asking, seed, level_of(seed)):
        want = asking.answer(path, words)
        is_told = [word for word in words if word not in (LEVEL, *LEVELS)] in TOLD
        if want[0] != 2:
            yield ["classes", *(random.choice([[path, *words], [*words, path]]) if is_told else [path, *words])], want


# ---- worked out by hand


# The words of each page of `classes/` that has some behind its spec's name, and the status. JSON has `--json` besides.
ASKED = {
    "alone.expected": ("--expect 'SELECT v, id FROM t' 1 10 --query 'SELECT id, v, id FROM t WHERE NOT v = 11'", 1),
    "alone.outcomes": ("--outcomes", 0),
    "bare.left": ("--final-rows --outcomes", 0),
    "bare.result": ("--final-rows --by-result", 0),
    "blind.none": ("--deadlock --expect 'SELECT v FROM t' 1", 0),
    "blind.result": (BY_RESULT, 0),
    "counter.expected": ("--expect 'SELECT n FROM counter' 2 --expect 'SELECT count(*) FROM counter' 1 --query 'SELECT n FROM counter'", 1),
    "deadlock.result": (BY_RESULT, 0),
    "deadlock.victim": ("--no-deadlock=b --deadlock=a --waits", 0),
    "deadlock.victims": ("--deadlock", 0),
    "lines": ("--query 'SELECT * FROM t WHERE v * 9223372036854775807 > 0' --query 'SELECT v, id FROM t ORDER BY id'", 0),
    "log.all": (f"{ALL_ORDERS} --query 'SELECT * FROM log'", 0),
    "log.expected": ("""--brief --expect 'SELECT w FROM log' "'a'" --expect "SELECT w FROM log WHERE w = 'a'" "'a'\"""", 1),
    "over.some": (
        f"--query 'SELECT sum(v) FROM big' --expect 'SELECT sum(v), count(*) FROM big' {MOST} 2 --final-rows --query 'SELECT v FROM big ORDER BY v'",
        1,
    ),
    "queue.result": ("--by-result --final-rows", 0),
    "queue.some": ("--by-result --final-rows --waits --expect 'SELECT v FROM t' 3 --query 'SELECT v, id FROM t'", 1),
    "sight.result": (BY_RESULT, 0),
    "sight.values": (
        "--by-result --brief --expect 'SELECT count(*), count(*) FROM t' 0 --expect 'SELECT count(*), count(*) FROM t' 0 0"
        " --expect 'SELECT count(*) FROM t' 0 0 --expect 'SELECT id FROM t' 1",
        1,
    ),
    "skew.both": ("--deadlock=a --deadlock=b --expect 'SELECT count(*) FROM doctor' 2", 0),
    "skew.levels": (BOTH_LEVELS, 0),
    "skew.queries": (
        """--deadlock=b --query ' ;SELECT count(*) FROM doctor; -- all' --query 'SELECT name FROM doctor\nWHERE on_call = 1'""",
        0,
    ),
    "stuck.all": (ALL_ORDERS, 0),
    "stuck.final": ("--final-rows", 0),
    "stuck.none": ("--no-stuck --waits --all-orders", 0),
    "transfer.all": (ALL_ORDERS, 0),
    "twice.result": (
        """--by-result --error --outcomes --final-rows --expect 'SELECT w FROM t' "'a'" --expect "SELECT w FROM t WHERE w > 'b'" "'a'\"""",
        1,
    ),
}
# A spec, words, and what the fault line tells.
REFUSED = [
    ("skew", "--deadlock=c", 'skew.spec: no session "c"'),
    ("skew", "--no-deadlock=a --no-deadlock=A --brief", 'skew.spec: no session "A"'),
    ("skew", """--deadlock='say "a\\"'""", r'skew.spec: no session "say \"a\\\""'),
    ("levels", "--level serializable", "levels.spec: REPEATABLE READ is not modelled (line 6)"),
    ("levels", "--level read-committed --deadlock=e --query ''", "levels.spec: REPEATABLE READ is not modelled (line 6)"),
    ("levels", BOTH_LEVELS, "levels.spec: REPEATABLE READ is not modelled (line 6)"),
    ("lines", "--no-anomaly", "lines.spec: no serial orders"),
    ("lines", "--by-result --anomaly --waits", "lines.spec: no serial orders"),
    # Queries that do not read, with the place of what cannot stand there, or of their end.
    ("skew", "--query 'SELECT name FROM doctor WHERE'", '"SELECT name FROM doctor WHERE": sql error 3 at 29'),
    ("skew", """--query "SELECT name FROM doctor WHERE name = 'bo\"""", """"SELECT name FROM doctor WHERE name = 'bo": sql error 2 at 37"""),
    ("skew", """--query 'SELECT "name" FROM doctor'""", r'"SELECT \"name\" FROM doctor": sql error 1 at 7'),
    ("skew", "--query 'SELECT * FROM doctor}'", '"SELECT * FROM doctor}": sql error 1 at 20'),
    ("skew", "--brief --query 'SHOW doctor'", '"SHOW doctor": sql error 4 at 0'),
    ("skew", "--query 'SELECT * FROM doctor; SHOW x'", '"SELECT * FROM doctor; SHOW x": sql error 4 at 22'),
    ("skew", f"--query 'SELECT name FROM doctor WHERE on_call < {MOST + 1}'", f'"SELECT name FROM doctor WHERE on_call < {MOST + 1}": sql error 5 at 40'),
    # Queries that are another statement than one SELECT.
    ("skew", "--query ''", '"": not one SELECT'),
    ("skew", "--query ' ; -- none'", '" ; -- none": not one SELECT'),
    ("skew", "--query 'UPDATE doctor SET on_call = 0'", '"UPDATE doctor SET on_call = 0": not one SELECT'),
    ("skew", "--query 'SELECT * FROM doctor; COMMIT'", '"SELECT * FROM doctor; COMMIT": not one SELECT'),
    ("skew", "--expect 'SELECT * FROM docter; SELECT * FROM doctor' 1", '"SELECT * FROM docter; SELECT * FROM doctor": not one SELECT'),
    # Queries that do not fit, with the place where the SELECT begins.
    ("skew", "--query 'SELECT * FROM docter'", '"SELECT * FROM docter": bind error 2 at 0'),
    ("skew", "--query ' SELECT name, on_cal FROM doctor;'", '" SELECT name, on_cal FROM doctor;": bind error 3 at 1'),
    ("skew", "--query ' -- é\n;SELECT sum(name) FROM doctor'", r'" -- é\n;SELECT sum(name) FROM doctor": bind error 4 at 8'),
    ("alone", "--expect 'SELECT id, w FROM t WHERE id = v + 1' 1", '"SELECT id, w FROM t WHERE id = v + 1": bind error 3 at 0'),
    ("skew", "--query 'SELECT nobody FROM doctor WHERE name = 1'", '"SELECT nobody FROM doctor WHERE name = 1": bind error 3 at 0'),
    # Values.
    ("skew", "--expect 'SELECT count(*) FROM doctor' 02", '"02": no value'),
    ("skew", "--expect 'SELECT count(*) FROM doctor' +2 --brief", '"+2": no value'),
    ("skew", "--expect 'SELECT count(*) FROM doctor' -0", '"-0": no value'),
    ("skew", f"--expect 'SELECT count(*) FROM doctor' {-MOST - 1} {MOST} {MOST + 1}", f'"{MOST + 1}": no value'),
    ("skew", f"--expect 'SELECT count(*) FROM doctor' 2 {-MOST - 2}", f'"{-MOST - 2}": no value'),
    ("skew", "--expect 'SELECT name FROM doctor' bo", '"bo": no value'),
    ("skew", """--expect 'SELECT name FROM doctor' "'it''s'" "'it's'\"""", """"'it's'": no value"""),
    ("skew", """--expect 'SELECT name FROM doctor' '"bo"'""", r'"\"bo\"": no value'),
    ("skew", "--expect 'SELECT name FROM doctor' NULL", '"NULL": no value'),
    # The first of several faults: filters in their order, each before its opposite, queries, expectations, and then the start.
    ("lines", "--deadlock=c --anomaly", 'lines.spec: no session "c"'),
    ("lines", "--no-anomaly --anomaly --no-deadlock=c", 'lines.spec: no session "c"'),
    ("lines", "--query '' --no-anomaly", "lines.spec: no serial orders"),
    ("skew", "--no-deadlock=c --deadlock=a --deadlock=d --deadlock=e", 'skew.spec: no session "d"'),
    ("skew", "--no-deadlock=c --no-deadlock=d --query ''", 'skew.spec: no session "c"'),
    ("skew", "--expect 'SELECT a' 01 --query 'SELECT b' --query ';'", '"SELECT b": sql error 3 at 8'),
    ("skew", "--expect 'SELECT name FROM doctor' 01 --query 'SELECT * FROM c'", '"SELECT * FROM c": bind error 2 at 0'),
    ("skew", "--query 'SELECT * FROM c' --query 'SELECT'", '"SELECT * FROM c": bind error 2 at 0'),
    ("skew", "--expect 'SELECT name FROM doctor' 1 01 +1 --expect '' 1", '"01": no value'),
    ("skew", "--expect 'SELECT * FROM c' 01", '"SELECT * FROM c": bind error 2 at 0'),
    ("unstarted", "--query 'SELECT id FROM t'", "unstarted.spec: start error 1 at 0"),
    ("unstarted", "--query 'SELECT id FROM u'", '"SELECT id FROM u": bind error 2 at 0'),
    ("unstarted", "--expect 'SELECT id FROM t' 1 a", '"a": no value'),
    ("unstarted", "--no-deadlock=c", 'unstarted.spec: no session "c"'),
]
# Words that the command line refuses.
NO_WORDS = ["--answers", "--brief --look 'SELECT v FROM t'", "--left", "--no-serial", "--serial", "--all-orders --unsent", "--no-unsent --all-orders"]
NO_WORDS += ["--not-sent", "--json --no-not-sent", "--ranks", "--stuck=a", "--expect 'SELECT v FROM t'", "--json --json", "--html --json", "--brief --html"]
NO_WORDS += [LEVEL, *(f"{LEVEL} {word}" for word in ("snapshot", "SERIALIZABLE", "repeatable-read", "''", "serializable --level serializable"))]
NO_WORDS += [f"{BOTH_LEVELS} {word}" for word in (BOTH_LEVELS, JSON, HTML, ALL_ORDERS, BY_RESULT, "--waits", "--sample 7", "--level serializable")]
NO_WORDS += [f"--memory {number}" for number in ("0", "1000001", "-1", "1e3", "''")]
# Words, and the front of the first line that `three.spec` has with them. A script of another hand counted these over what a book says of each order.
COUNTED = {
    "": "34,650 orders in 273 classes (all permutations; 23,652 contain a step that is not sent)",
    "--waits": "34,380 of 34,650 orders in ",
    "--deadlock": "25,812 of 34,650 orders in ",
    "--deadlock=a": "11,304 of 34,650 orders in ",
    "--deadlock=b": "11,304 of 34,650 orders in ",
    "--deadlock=d": "11,304 of 34,650 orders in ",
    "--not-sent": "23,652 of 34,650 orders in 141 classes",
    "--stuck": "11,196 of 34,650 orders in ",
    "--no-not-sent": "10,998 of 34,650 orders in 132 classes",
}
SHARES = [((0, 5), "0.0%"), ((1, 1), "100.0%"), ((2, 3), "66.7%"), ((1, 3), "33.3%"), ((0, 0), "0.0%"), ((1, 16), "6.3%"), ((1, 80), "1.3%")]
SHARES += [((1, 2000), "0.1%"), ((1, 2001), "<0.1%"), ((3, 2000), "0.2%"), ((1999, 2000), "100.0%"), ((1998, 2000), "99.9%")]
SHARES += [((1, 2**63), "<0.1%"), ((2**63 - 1, 2**63), "100.0%")]
COLUMNS = [
    ([["", "orders", ""], ["  W ", "7", "waits"], ["  D ", "1,000,000", ""]], {1}, ["         orders", "  W           7  waits", "  D   1,000,000"]),
    ([["a", "bb", "c"], ["aa", "b", "c c"]], set(), ["a   bb  c", "aa  b   c c"]),
]


def brief_text(text):
    """The parts of a text up to the letters: the head, what is expected, and the totals; of both levels also how many results one alone has."""
    parts = text.split(b"\n\n")
    totals = next(place for place, part in enumerate(parts) if part.startswith(b" " * 5))
    end = totals + 1 + any(part.startswith(b"only at ") for part in parts[totals + 1 : totals + 2])
    return b"\n\n".join(part.rstrip(b"\n") for part in parts[:end]) + b"\n"


def brief_json(text):
    """The members before the last one, that of the classes."""
    return text.partition(b',"classes":')[0] + b"}\n"


def pages_by_hand():
    """Each page of `classes/`: the spec's path, the words behind it, what is printed, and the status."""
    for path in sorted([*WORKED.glob("*.txt"), *WORKED.glob("*.json")]):
        words, status = ASKED.get(path.stem, ("", 0))
        flags = [JSON] * (path.suffix == ".json")
        yield path.with_name(f"{path.stem.partition('.')[0]}.spec"), [*split(words), *flags], path.read_bytes(), status


def worked():
    """For each page of `classes/` the spec's path, the words of its run, and what it tells; and so for what is refused."""
    for path, words, out, status in pages_by_hand():
        yield path, words, (status, out, b"")
        if BRIEF not in words:
            yield path, [*words, BRIEF], (status, (brief_json if JSON in words else brief_text)(out), b"")
    for name, words, line in REFUSED:
        for more in ([], [JSON] * (BOTH_LEVELS not in words)):
            yield WORKED / f"{name}.spec", [*split(words), *more], (3, b"", f"isofarm: {line}\n".encode())
    for words in NO_WORDS:
        yield WORKED / "stuck.spec", split(words), (2, b"", b"")


def wrong_by_hand():
    """What is told otherwise than was worked out by hand."""
    for path, words, want in worked():
        told_here = Asking(path.read_bytes()).answer(path.name, words)
        if told_here[0] != want[0] or (want[0] != 2 and told_here != want):
            yield f"{path.name} {' '.join(words)}: {told_here[0]}\n{(told_here[1] or told_here[2]).decode()}"
    asking = Asking((WORKED / "three.spec").read_bytes())
    yield from wrong_counts(lambda words: asking.answer("three.spec", words)[1])
    yield from (f"the share of {orders} is {share(*orders)}" for orders, text in SHARES if share(*orders) != text)
    yield from (f"{rows} stand as {[*table_lines(rows, right)]}" for rows, right, lines in COLUMNS if [*table_lines(rows, right)] != lines)


def wrong_counts(printed_of):
    """What is counted of three sessions otherwise than by another hand."""
    for words, front in COUNTED.items():
        out = printed_of([ALL_ORDERS, BRIEF, *split(words)]).decode()
        if not out.startswith(f"three.spec: {front}"):
            yield f"three.spec {words}: {out.partition(chr(10))[0]}"


# ---- with the program


class ClassComparison(Comparison):
    """Compares, and looks at the form of what was told. What the command line refuses is told in words of its own."""

    def look(self, name, words, want):
        if want[0] == 2:
            self.runs += 1
            self.counts["status 2"] += 1
            got = told(self.program, words, self.folder, {})
            wrong = [] if (got[0], got[1]) == (2, b"") and got[2] else [f"status {got[0]}, and not 2"]
        else:
            got = super().look(name, words, want)
            wrong = [*read_back(got[1]).wrong(got[0])] if got[1] and got == want else []
        for one in wrong:
            self.differences += 1
            print(f"{name}, {' '.join(words)}: {one}", flush=True)
        return got


def printed_by(program):
    return lambda words: run([program, "classes", "three.spec", *words], cwd=WORKED, capture_output=True, check=False).stdout


def compare_with(program, kinds, first, seeds):
    with TemporaryDirectory() as folder:
        comparison = ClassComparison(program, folder, kinds_of)
        for wrong in wrong_counts(printed_by(program)):
            comparison.differences += 1
            print(f"by hand, {wrong}", flush=True)
        for path, words, want in worked():
            Path(folder, path.name).write_bytes(path.read_bytes())
            comparison.look("by hand", ["classes", path.name, *words], want)
        for kind in kinds:
            for name, seed, text in texts_of(kind, first, seeds):
                path, asking = Random(seed).choice(FILES), Asking(text)
                Path(folder, path).write_bytes(text)
                for words in requests(asking, seed, level_of(seed)):
                    comparison.look(f"{kind}, {name}", ["classes", path, *words], asking.answer(path, words))
    return comparison.end()


# ---- without the program


def wrong_told(asking, seed, counts):
    """What is wrong with texts, JSON and pages of a spec, beside one another. What is told is counted."""
    random, path = Random(seed), Random(seed).choice(FILES)
    for words in requests(asking, seed):
        status, out, error = asking.answer(path, words)
        counts.update(kinds_of(out) if out else ["status 2"] if status == 2 else [f"refused: {fault_of(error)}"])
        wrong = [*read_back(out).wrong(status)] if out else []
        wrong += wrong_pages(asking.at(request_of(words).level), path, words, random) if status != 2 and BOTH_LEVELS not in words else []
        yield from (f"{' '.join(words)}: {one}" for one in wrong)
    yield from wrong_of_levels(asking, path)


def wrong_alone(asking, seed, counts):
    """What is wrong with the classes of a spec by the laws."""
    random, spec, sent, every = Random(seed), asking.spec, asking.classes(False), asking.classes(True)
    for classes in (sent, every):
        yield from wrong_filters(classes, random)
        yield from wrong_queries(classes, random)
    if spec.lines is not None:
        return
    counts["specs with fewer orders than permutations"] += sent.orders < every.orders
    counts["specs with an order behind which somebody waits"] += any("S" in one.letters for one in sent.all)
    counts["specs with an anomaly"] += any("R" in one.letters for one in sent.all)
    yield from wrong_numbers(sent, every)
    for classes in (sent, every):
        yield from wrong_first_orders(classes, random)
        if spec.ranks() <= MOST_ONE_BY_ONE:
            yield from wrong_ways(classes)
            yield from wrong_orders(classes, random)
        if len(spec.session_names) <= MOST_SESSIONS:
            yield from wrong_anomalies(classes)
    counts["specs gone through one by one"] += spec.ranks() <= MOST_ONE_BY_ONE


def is_classed(asking):
    try:
        return bool(asking.classes(False))
    except Refusal:
        return False


def alone(kinds, first, seeds):
    counts, by_hand = Counter(), [*wrong_by_hand()]
    print("".join(f"by hand: {wrong}\n" for wrong in by_hand), end="")
    found = len(by_hand)
    for kind in kinds:
        for name, seed, text in texts_of(kind, first, seeds):
            for asking in (Asking(text), Asking(text, READ_COMMITTED)):
                wrong = [*wrong_told(asking, seed, counts)]
                if is_classed(asking):
                    counts["specs"] += 1
                    wrong += wrong_alone(asking, seed, counts)
                found += len(wrong)
                print("".join(f"{kind}, {name}, {asking.level}: {one}\n" for one in wrong), end="", flush=True)
    print(f"{counts['specs']} specs, {found} faults of the laws; in what was told:")
    for word, count in counts.most_common():
        print(f"  {count:6} {word}")
    return 1 if found else 0


def main(program, kind, first, seeds):
    kinds = [*CLASS_KINDS] if kind == ALL else [kind]
    if program == ALONE:
        return alone(kinds, first, seeds)
    return compare_with(Path(program).resolve(), kinds, first, seeds)


if __name__ == "__main__":
    if len(sys.argv) != 5 or sys.argv[2] not in {ALL, *CLASS_KINDS}:
        sys.exit(f"{__doc__}\nKIND is one of {', '.join([ALL, *CLASS_KINDS])}.")
    sys.exit(ended(main, sys.argv[1], sys.argv[2], int(sys.argv[3]), int(sys.argv[4])))
