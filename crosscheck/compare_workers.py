"""Compares the books that several workers make with the book that one makes, byte for byte.

usage: python3 crosscheck/compare_workers.py FIRST_SEED RUNS

The specs have sessions that wait, and their ranges have several shards: those of the examples that are large enough, and specs made
from seeds. Of each spec a range is run by one worker, once reduced and once with `--every`, and then by others: the runs have 1 to 16
workers, one number after another. The one worker's book has to have a fact for each rank, and with `--every` no swap.
"""

import json
import sys
from collections import Counter
from itertools import count, cycle, islice
from pathlib import Path
from random import Random
from tempfile import TemporaryDirectory

from compare import PROGRAM, ended, told
from examples import EXAMPLES
from generate import KINDS, Maker
from untrue import spec_of

MOST_WORKERS = 16
# No divisor of it, so that all numbers of workers come both reduced and not.
RUNS_A_BOOK = 3
RANKS_A_SHARD = 1000
MOST_RANKS = 50_000
HOWS = {"reduced": [], "every": ["--every"]}


def specs(first):
    """Specs that have several shards, each with its name: those of the examples, and then those of the seeds, without end."""
    made = ((f"seed {seed}, {kind}", KINDS[kind](Maker(seed))) for seed, kind in zip(count(first), cycle(["hindering", "apart"])))
    given = [(path.name, path.read_bytes()) for path in sorted(EXAMPLES.glob("*.spec"))]
    for texts in (given, made):
        yield from ((name, text) for name, text in texts if spec_of(text).ranks() > 2 * RANKS_A_SHARD)


def range_of(random, number):
    """A range with several shards, of which the last one is mostly shorter."""
    few = random.randint(2 * RANKS_A_SHARD, min(number, MOST_RANKS))
    first = random.randint(0, number - few)
    return first, first + few


def run(folder, words, workers):
    return told(PROGRAM, ["run", "made.spec", *words, "--workers", str(workers)], folder, {})


def books_of_one(folder, first):
    """Of each spec, reduced and not: what is run, the words, and what one worker tells. Those without a wait are left out."""
    for seed, (name, text) in enumerate(specs(first), first):
        (folder / "made.spec").write_bytes(text)
        ends = range_of(Random(seed), spec_of(text).ranks())
        for how, more in HOWS.items():
            words = [*map(str, ends), *more]
            told_by_one = run(folder, words, 1)
            if told_by_one[0] != 0 or b'"waiting"' in told_by_one[1]:
                yield f"{name}, {' '.join(words)}", how, ends, words, told_by_one


def wrong_in(told_by_one, how, ends):
    """What is wrong with the book of one worker, as far as that is seen without running its ranks."""
    status, book, error = told_by_one
    if status != 0:
        return [f"status {status}, {error}"]
    runs = json.loads(book)["facts"]
    ranks = [rank for first, length, _word, _value in runs for rank in range(first, first + length)]
    has_swaps = any(word == "swap" for _first, _length, word, _value in runs)
    return ["no fact for each rank"] * (sorted(ranks) != [*range(*ends)]) + ["a swap"] * (how == "every" and has_swaps)


def main(first, most):
    counts, found = Counter(), []
    numbers = islice(cycle(range(1, MOST_WORKERS + 1)), most)
    with TemporaryDirectory() as folder:
        for name, how, ends, words, one in books_of_one(Path(folder), first):
            found += [f"{name}: {wrong}" for wrong in wrong_in(one, how, ends)]
            several = [*islice(numbers, RUNS_A_BOOK)]
            if not several:
                break
            counts.update({f"books, {how}": 1, "shards": -(-(ends[1] - ends[0]) // RANKS_A_SHARD)})
            counts.update({f"runs, {how}": len(several)} | ({"books with swaps": 1} if b'"swap"' in one[1] else {}))
            others = ((workers, run(folder, words, workers)) for workers in several)
            found += [f"{name}: {workers} workers tell {other[0]}, {other[2]}, another book" for workers, other in others if other != one]
    print("".join(f"{line}\n" for line in found), end="")
    print(f"{most} runs, {len(found)} differences; in what was run:")
    for word, number in sorted(counts.items()):
        print(f"  {number:6} {word}")
    return 1 if found else 0


if __name__ == "__main__":
    if len(sys.argv) != 3:
        sys.exit(__doc__)
    sys.exit(ended(main, int(sys.argv[1]), int(sys.argv[2])))
