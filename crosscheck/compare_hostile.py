"""Compares what the program's commands tell of hostile books with what this second implementation tells, on specs made from seeds.

usage: python3 crosscheck/compare_hostile.py FIRST_SEED SEEDS [FOLDER]

Of the spec of each seed a true book is made, of all its ranks where they are few. Ten hostile ones are made of it: damaged as
`damage.py` does, lawful and mostly untrue as `untrue.py` does, or both, in both formats and any spelling. Each is given to `audit`
and `report`, to `join` and `missing` alone and beside others, and to `judge` as the judged book and as an accepted one, sometimes beside the book of
another spec. The last lines count what was made, and how much of it is a book all the same. The books are left in FOLDER, where one is named.
"""

import json
import sys
from collections import Counter
from contextlib import nullcontext
from pathlib import Path
from random import Random
from tempfile import TemporaryDirectory

from book_file import NoBook, read_book, text_in_format_1
from books import book_text, facts_of
from compare import PROGRAM, Comparison, ended
from compare_files import auditing, file_text, joining, judging, kind_of, missing_from, put, reporting, shards_of, some_of, worlds_of
from damage import DAMAGES
from generate import KINDS, Maker
from refusal import Refusal
from untrue import UNTRUE, spec_of
from worked import EMPTY_BOOK

BOOKS_A_SPEC = 10
# So many ranks a book has at most, and of a spec with more only so many as the second number says.
MOST_RANKS, SOME_RANKS = 100, 12
SPECS = ["few"] * 6 + ["any"] * 3 + ["hindering", "apart", "wide"]


def facts_to_begin_with(random, text):
    """True facts of a spec: of all its ranks where they are few, else of some. None where it does not start."""
    number = spec_of(text).ranks()
    shards = shards_of(random, number, number if number <= MOST_RANKS else SOME_RANKS)
    try:
        worlds = worlds_of(text)
    except Refusal:
        return set()
    return set().union(*(facts_of(worlds, first, end, how == "reduce") for first, end, how in shards))


def damaged(random, damage, text, facts):
    few = random.choice([facts, facts, some_of(random, facts, SOME_RANKS)])
    written = random.choice([book_text, text_in_format_1])(text, few)
    return damage(random, json.loads(written))


def untrue(random, change, text, facts):
    return change(random, text, facts) if facts else UNTRUE[0](random, text, facts)


def hostile(random, text, facts):
    """What is done to a book, and the bytes of the file."""
    damage, change = random.choice(DAMAGES), random.choice(UNTRUE)
    kind = random.random()
    if kind < 0.45:
        return [damage], damaged(random, damage, text, facts)
    if kind < 0.9:
        return [change], file_text(random, *untrue(random, change, text, facts))
    return [change, damage], damaged(random, damage, *untrue(random, change, text, facts))


def runs(random, path, true, others, stranger):
    """The commands on a hostile book, beside the true one, those made before it, and one of another spec."""
    yield auditing(path)
    yield reporting(path)
    yield joining(path)
    yield joining(*random.sample([path, true, *others[-1:]], random.randint(2, 2 + len(others[-1:]))))
    yield missing_from(random, *random.choice([[path], [path, true], [true, path]]))
    yield judging(random, path, *random.sample([true, true, path, *others[-2:], stranger], random.randint(1, 2)))
    yield judging(random, true, *random.choice([[path], [path], [path], [path, true], [*others[-2:], path]]))


def is_book(path):
    try:
        read_book(Path(path).read_bytes())
    except NoBook:
        return False
    return True


def of_seed(seed, folder, look, made):
    """Makes the hostile books of a seed and gives them to the commands."""
    random = Random(seed)
    text = KINDS[random.choice(SPECS)](Maker(seed))
    try:
        facts = facts_to_begin_with(random, text)
    except Refusal:
        return of_seed(seed + 1_000_000, folder, look, made)
    true, others = put(folder, f"seed{seed}_true", file_text(random, text, facts)), []
    stranger = put(folder, "stranger", EMPTY_BOOK.encode())
    for number in range(BOOKS_A_SPEC):
        done, written = hostile(random, text, facts)
        names = [one.__name__ for one in done]
        path = put(folder, "_".join([f"seed{seed}", str(number), *names]), written)
        made.update((name, is_book(path)) for name in names)
        for words, want in runs(random, path, true, others, stranger):
            look(f"seed {seed}", words, want)
        others.append(path)
    return len(others)


def tell_made(made):
    """How often each thing was done to a book, and how often a book was left."""
    for name in (one.__name__ for one in DAMAGES + UNTRUE):
        print(f"  {made[name, True] + made[name, False]:6} {name}, {made[name, True]} of them a book")


def main(first, seeds, kept=None):
    made = Counter()
    with nullcontext(kept) if kept else TemporaryDirectory() as name:
        folder = Path(name).resolve()
        folder.mkdir(exist_ok=True)
        comparison = Comparison(PROGRAM, folder, kind_of)
        books = sum(of_seed(seed, folder, comparison.look, made) for seed in range(first, first + seeds))
    status = comparison.end(f"{books} books, ")
    tell_made(made)
    return status


if __name__ == "__main__":
    if len(sys.argv) not in (3, 4):
        sys.exit(__doc__)
    sys.exit(ended(main, int(sys.argv[1]), int(sys.argv[2]), *sys.argv[3:]))
