"""Compares what `isofarm classes --book` prints with what this second implementation prints, on specs made from seeds.

usage: python3 crosscheck/compare_book_classes.py PROGRAM|--alone KIND FIRST_SEED SEEDS

Of each spec PROGRAM runs some ranges, whose books it groups then: one to five of them, reduced and not, that overlap or leave gaps, in any order
and some of them twice, in both formats and any spelling, beside books with several facts of a rank, chains of swaps, swaps to ranks that are
missing, facts that are not true, books of another spec, damaged ones, and files that are not there; each with some of `--ranks`, `--outcomes`,
`--brief` and `--json`. Before them come the texts, the JSON and the clashes of `book_classes/`, which were worked out by hand. With `--alone` no
program is run: facts are those of `facts.py`, and classes, texts and JSON are held against what has to hold of each (`book_class_laws.py`).
KIND is one of those of `compare_classes.py`, `far`, specs with more than 1,000,000 orders of which books tell a few, or `all`. The last lines
count what was told.
"""

import json
import sys
from collections import Counter
from itertools import chain
from pathlib import Path
from random import Random
from shlex import split
from tempfile import TemporaryDirectory

from book_class_laws import MOST_RUN, wrong_beside_spec, wrong_fault, wrong_texts, wrong_true_classes
from book_classes import BookAsking, joined, ranges_text
from book_file import read_book
from books import book_text, compact, facts_of, leads_to, values
from class_pages import kinds_of, read_back
from class_request import BOOK_FLAGS, BRIEF, JSON, OUTCOMES
from compare import Comparison, ended, fault_of, told
from compare_classes import CLASS_KINDS, brief_json, brief_text, lined, specs_made
from compare_files import file_text, shards_of, some_of, worlds_of
from compare_hostile import untrue
from compare_shown import ALL, ALONE, bound
from damage import DAMAGES, text_of
from facts import MOST_RANKS
from generate import Maker, large_shapes
from refusal import Refusal
from untrue import UNTRUE, any_outcome, falling_places, with_one_more
from worked import EMPTY_BOOK, empty_steps

WORKED = Path(__file__).resolve().parent / "book_classes"
FAR = "far"
FAR_STEPS = {2: [12, 13, 14], 3: [6, 7], 4: [4, 5], 6: [2, 3], 8: [2]}
BOOK_KINDS = [*CLASS_KINDS, FAR]
# So many ranks of a spec books tell at most: those that the program runs, and those that this implementation runs.
MOST_TOLD, MOST_TOLD_ALONE, FEW = 400, 60, 12
MOST_BOOKS, RUNS_A_LIST, MORE_SWAPS = 5, 3, 12
NAMES = ["{}.book", "{}.book", "{}.book", "<a>&'{}' \u200b\"c\".book", "{} " + "long " * 16 + "book"]


# ---- specs


def far_spec(maker):
    """Sessions that hinder one another, or empty steps, with more orders than a report may have."""
    if maker.some(0.3):
        return empty_steps(maker.one(large_shapes()[0][-400:])).encode()
    return maker.hindering_spec((2, 3, 4, 6, 8), steps=FAR_STEPS)


def texts_of(kind, first, seeds):
    """Specs of which books are made, each with a name and a seed; some with some of their orders as permutation lines."""
    made = ((f"seed {seed}", seed, far_spec(Maker(seed))) for seed in range(first, first + seeds)) if kind == FAR else specs_made(kind, first, seeds)
    for name, seed, text in made:
        random, spec = Random(seed), bound(text)
        with_lines = lined(text, spec, random) if spec and spec.lines is None and random.random() < 0.15 else text
        yield name, seed, with_lines if bound(with_lines) else text


# ---- books


def is_far(text):
    return bound(text).ranks() > MOST_RANKS


def with_more_swaps(random, text, facts):
    """Facts with some swaps more of their ranks, to ranks of which they tell the same or nothing: chains, and several facts of a rank."""
    spec = bound(text)
    told, more = values(spec, facts), set()
    for rank in random.sample([*told], min(len(told), MORE_SWAPS)):
        for place in falling_places(spec, rank):
            outcomes = told[rank] | told.get(leads_to(spec, rank, place), set())
            if random.random() < 0.7 and len(outcomes) <= max(1, len(told[rank])):
                more.add((rank, "swap", place))
    return text, facts | more


def without_low_ranks(random, text, facts):
    """Facts of which some are lost, mostly what is recorded at low ranks, so that swaps lead to what is missing."""
    ranks = sorted({fact[0] for fact in facts})
    low = {*ranks[: random.randint(0, len(ranks) // 2)]}
    return text, {fact for fact in facts if fact[0] not in low and random.random() < 0.8}


def with_another_value(random, text, facts):
    """Facts with an outcome more of a rank that has a swap, or of any: one that some rank has."""
    outcomes = sorted({value for _rank, word, value in facts if word == "ran"})
    ranks = sorted({rank for rank, word, _value in facts if word == "swap"}) or sorted({fact[0] for fact in facts})
    return text, facts | {(random.choice(ranks), "ran", random.choice(outcomes))} if outcomes and ranks else facts


def with_a_chain(random, text, facts):
    """Facts with a chain of swaps from any rank down to the first one, which has some outcome; mostly no link is lost."""
    spec, chain_of = bound(text), []
    rank = random.randrange(spec.ranks())
    while places := falling_places(spec, rank):
        chain_of.append((rank, "swap", random.choice(places)))
        rank = leads_to(spec, *chain_of[-1][::2])
    outcomes = sorted({value for its_rank, word, value in facts if word == "ran" and its_rank == rank})
    chain_of.append((rank, "ran", random.choice([*outcomes[:1], compact(any_outcome(random, spec)).encode()])))
    lost = random.choice(chain_of) if random.random() < 0.3 else None
    return text, facts | {*chain_of} - {lost}


def with_an_outcome_twice(_random, text, facts):
    """The text of a book whose first outcome stands twice in the table, once for one rank: no book."""
    outcomes = sorted({value for _rank, word, value in facts if word == "ran"})
    ran = sorted(fact for fact in facts if fact[1] == "ran")
    numbers = [[rank, 1, "ran", outcomes.index(value) + (place > 0)] for place, (rank, _word, value) in enumerate(ran)]
    table = ",".join(one.decode() for one in [*outcomes[:1], *outcomes])
    return f'{{"facts":{compact(numbers)},"format":2,"outcomes":[{table}],"spec":{compact(text.decode())}}}'.encode()


LAWFUL = [with_more_swaps, without_low_ranks, with_another_value, with_a_chain]


class Shelf:
    """Files of books of one spec in a folder, and lists of them."""

    def __init__(self, seed, folder, text, run, most):
        self.random, self.folder, self.text, self.run, self.most, self.count = Random(seed), folder, text, run, most, 0

    def put(self, written):
        self.count += 1
        path = self.folder / self.random.choice(NAMES).format(self.count)
        path.write_bytes(written)
        return str(path)

    def written(self, text, facts):
        return self.put(file_text(self.random, text, facts))

    def parts(self):
        """The books of some ranges as they are run, each with its facts; none of a spec that does not start."""
        ranges = shards_of(self.random, bound(self.text).ranks(), FEW if is_far(self.text) else self.most)
        books = [self.run(self.text, *one) for one in ranges]
        return [(book, read_book(book)[1]) for book in books if book]

    def lists(self):
        """Lists of paths, each with whether all that the books say is true."""
        parts = self.parts()
        facts = set().union(*(facts for _book, facts in parts))
        whole = self.written(self.text, facts)
        true = [self.put(book) if self.random.random() < 0.7 else self.written(self.text, its_facts) for book, its_facts in parts] or [whole]
        yield [whole], True
        yield self.random.sample([*true, whole], min(len(true) + 1, self.random.randint(2, MOST_BOOKS))), True
        yield self.random.choices(true, k=self.random.randint(1, MOST_BOOKS)), True
        yield [self.written(self.text, some_of(self.random, facts, FEW))], True
        for change in LAWFUL:
            yield self.beside(self.written(*change(self.random, self.text, facts)), true), False
        for _ in range(2):
            yield self.beside(self.written(*untrue(self.random, self.random.choice(UNTRUE), self.text, facts)), true), False
        yield self.false(), False
        yield self.refused(facts, true), False

    def beside(self, path, others):
        """A book alone or among some others."""
        some = self.random.choices(others, k=self.random.choice([0, 0, 1, 2]))
        some.insert(self.random.randint(0, len(some)), path)
        return some

    def false(self):
        """Books of a few facts that are not true, or of none."""
        text, facts, paths = self.text, set(), []
        for _ in range(self.random.randint(1, 3)):
            paths.append(self.written(text, facts))
            for _ in range(self.random.randint(1, 4)):
                text, facts = with_one_more(self.random, text, facts)
        return paths

    def refused(self, facts, true):
        """Books of which one is mostly none, or of another spec, or not there."""
        few = some_of(self.random, facts, FEW)
        strange = [lambda: str(self.folder / "nothing"), lambda: str(self.folder), lambda: self.put(EMPTY_BOOK.encode())]
        strange += [lambda: self.written(self.text + b"\n", few), lambda: self.put(with_an_outcome_twice(self.random, self.text, few))]
        if not is_far(self.text):
            strange += [lambda: self.put(self.random.choice(DAMAGES)(self.random, json.loads(book_text(self.text, few))))] * 6
        paths = [self.random.choice(strange)() for _ in range(self.random.choice([1, 1, 2]))]
        paths += self.random.choices(true, k=self.random.randint(0, 2))
        self.random.shuffle(paths)
        return paths

def refused_spec(folder, text):
    """Books of a text that is no spec, where a book may have it."""
    try:
        path = folder / "refused.book"
        path.write_bytes(text_of({"facts": [], "format": 1, "spec": text.decode()}))
        yield [str(path)], False
    except UnicodeDecodeError:
        return


def lists_of(seed, folder, text, run, most):
    return Shelf(seed, folder, text, run, most).lists() if bound(text) else refused_spec(folder, text)


def flags_of(random):
    return random.sample(BOOK_FLAGS, random.choice([0, 1, 1, 2, 2, 3, 4]))


def words_of(random, paths, flags):
    """The words of a run: flags before the books or behind them."""
    first = random.randint(0, len(flags))
    return ["classes", *flags[:first], "--book", *paths, *flags[first:]]


# ---- worked out by hand


# The books of each text and JSON, and what is asked for besides.
BY_HAND = {
    "swaps.txt": "swaps.book --ranks --outcomes",
    "swaps.json": "swaps.book --ranks --json",
    "whole.txt": "swaps.book rest.book --ranks",
    "whole.json": "rest.book swaps.book --json",
    "lined.txt": "lined.book last.book --outcomes",
    "none.txt": "none.book --ranks --outcomes",
    "none.json": "none.book --ranks --json",
    "one.txt": "one.book",
    "one.json": "one.book --json",
    "far.txt": "far.book --ranks",
    "levels.txt": "levels.book",
    "levels.json": "levels.book --json",
}
REFUSED = [
    # Rank 4 is recorded with one outcome, and its swap leads to rank 2, which has the other one. Ranks below are missing.
    ("swaps.book other.book", (1, "swaps.book: clash at rank 4")),
    ("other.book swaps.book", (1, "other.book: clash at rank 4")),
    ("swaps.book rest.book other.book", (1, "swaps.book: clash at rank 2")),
    ("swaps.book other.book lined.book nothing", (3, "lined.book: books of different specs")),
    ("swaps.book nothing lined.book", (5, "nothing: read fault")),
    ("swaps.txt", (3, "swaps.txt: book error 1")),
]


def runs_by_hand():
    """The words of a run behind `--book`, and what it tells."""
    for name, words in BY_HAND.items():
        out, words = (WORKED / name).read_bytes(), split(words)
        yield words, (0, out, b"")
        if BRIEF not in words:
            yield [*words, BRIEF], (0, (brief_json if JSON in words else brief_text)(out), b"")
        if JSON in words:
            yield [*words, OUTCOMES], (0, out, b"")
    for words, (status, line) in REFUSED:
        for more in ([], [JSON], [BRIEF]):
            yield [*split(words), *more], (status, b"", f"isofarm: {line}\n".encode())


# ---- with the program


class BookComparison(Comparison):
    """Compares, and looks at the form of what was told."""

    def look(self, name, words, want):
        status, out, _error = got = super().look(name, words, want)
        for wrong in read_back(out).wrong(status) if out and got == want else []:
            self.differences += 1
            print(f"{name}, {' '.join(words)}: {wrong}", flush=True)
        return got


def run_by(program):
    """What runs a range of a spec: the book, or nothing where the spec does not start."""

    def run(text, first, end, how):
        with TemporaryDirectory() as folder:
            Path(folder, "made.spec").write_bytes(text)
            words = ["run", "made.spec", str(first), str(end), *["--every"] * (how == "every")]
            return told(program, words, folder, {})[1]

    return run


def runs(seed, folder, text, run, most):
    """The words of some runs on books of a spec, and what each tells."""
    random = Random(seed)
    for paths, _is_true in lists_of(seed, folder, text, run, most):
        asking = BookAsking(*paths)
        for _ in range(RUNS_A_LIST):
            flags = flags_of(random)
            yield words_of(random, paths, flags), asking.answer(flags)


def compare_with(program, kinds, first, seeds):
    comparison = BookComparison(program, WORKED, kinds_of)
    for words, want in runs_by_hand():
        comparison.look("by hand", ["classes", "--book", *words], want)
    for kind in kinds:
        for name, seed, text in texts_of(kind, first, seeds):
            with TemporaryDirectory() as folder:
                for words, want in runs(seed, Path(folder), text, run_by(program), MOST_TOLD):
                    comparison.look(f"{kind}, {name}", words, want)
    return comparison.end()


# ---- without it


def run_alone(text, first, end, how):
    try:
        return book_text(text, facts_of(worlds_of(text), first, end, how == "reduce")).encode()
    except Refusal:
        return b""


# Ranges of ranks, as they are joined and told.
RANGES = [([[0, 0]], "0"), ([[4, 5], [0, 1], [7, 7]], "0-1 4-5 7"), ([[3, 3], [2, 2], [0, 0], [4, 9]], "0 2-9")]


def wrong_by_hand():
    for words, want in runs_by_hand():
        paths, flags = [word for word in words if word not in BOOK_FLAGS], [word for word in words if word in BOOK_FLAGS]
        asking = BookAsking(*(str(WORKED / path) for path in paths))
        status, out, error = asking.answer(flags)
        if (status, out.replace(f"{WORKED}/".encode(), b""), error.replace(f"{WORKED}/".encode(), b"")) != want:
            yield f"{' '.join(words)}: {out.decode()}{error.decode()}"
    yield from (f"{ranges} are told as {ranges_text(joined(ranges))}" for ranges, text in RANGES if ranges_text(joined(ranges)) != text)


def wrong_alone(paths, is_true, random, counts):
    """What is wrong with the classes of some books by the laws. What is told is counted."""
    asking, flags = BookAsking(*paths), flags_of(random)
    status, out, error = answered = asking.answer(flags)
    counts.update(["lists", *(kinds_of(out) if out else [f"refused: {fault_of(error)}"])])
    yield from read_back(out).wrong(status) if out else []
    yield from wrong_fault(asking, answered)
    if out:
        yield from wrong_texts(asking)
    if is_true and not out:
        yield f"true books are refused: {error}"
    elif is_true and asking.joined[1]:
        yield from wrong_true_classes(asking, worlds_of(asking.joined[0]))
        if asking.classes.first_missing is None and asking.spec.ranks() <= MOST_RUN:
            yield from wrong_beside_spec(asking)


def alone(kinds, first, seeds):
    counts, wrong_texts_by_hand = Counter(), [*wrong_by_hand()]
    print("".join(f"by hand: {wrong}\n" for wrong in wrong_texts_by_hand), end="")
    found = len(wrong_texts_by_hand)
    for name, seed, text in chain.from_iterable(texts_of(kind, first, seeds) for kind in kinds):
        random = Random(seed)
        with TemporaryDirectory() as folder:
            for paths, is_true in lists_of(seed, Path(folder), text, run_alone, MOST_TOLD_ALONE):
                told_wrong = [*wrong_alone(paths, is_true, random, counts)]
                found += len(told_wrong)
                print("".join(f"{name}, {' '.join(paths)}: {wrong}\n" for wrong in told_wrong), end="", flush=True)
    print(f"{counts['lists']} lists of books, {found} faults of the laws; in what was told:")
    for word, count in counts.most_common():
        print(f"  {count:6} {word}")
    return 1 if found else 0


def main(program, kind, first, seeds):
    kinds = BOOK_KINDS if kind == ALL else [kind]
    return alone(kinds, first, seeds) if program == ALONE else compare_with(Path(program).resolve(), kinds, first, seeds)


if __name__ == "__main__":
    if len(sys.argv) != 5 or sys.argv[2] not in {ALL, *BOOK_KINDS}:
        sys.exit(f"{__doc__}\nKIND is one of {', '.join([ALL, *BOOK_KINDS])}.")
    sys.exit(ended(main, sys.argv[1], sys.argv[2], int(sys.argv[3]), int(sys.argv[4])))
