"""Compares the program that `./isofarm` compiles with the proved one, byte for byte.

usage: python3 crosscheck/compare_compiled.py FIRST_SEED SEEDS

On the examples, and on specs of each kind made from the seeds: `check`, `count` and `one`, and, where there are orders, all of them in classes
where they are not too many, books reduced and not, and what the other commands tell of these.
"""

import sys
from collections import Counter
from pathlib import Path
from tempfile import TemporaryDirectory

from class_asking import Asker
from compare import PROGRAM, ended, ranks_of, told
from compare_shown import bound
from examples import EXAMPLES
from generate import KINDS, Maker

LAUNCHER = EXAMPLES.parent / "isofarm"
MOST_RANKS = 300
# Of so many orders classes are asked for, so often by filters, queries and expectations.
MOST_CLASSED, RUNS_ASKED = 20_000, 3


def specs(first, seeds):
    """Specs, each with its name."""
    for path in sorted(EXAMPLES.glob("*.spec")):
        yield path.name, path.read_bytes()
    for kind, make in KINDS.items():
        for seed in range(first, first + seeds):
            yield f"{kind}, seed {seed}", make(Maker(seed))


def compiled_program():
    """The path of the compiled program, which is built where it is not there."""
    ran = told(LAUNCHER, ["--version"], EXAMPLES, {})
    programs = [*(EXAMPLES.parent / "out").glob("isofarm-*")]
    if b"compiled from proved sources" not in ran[1] or len(programs) != 1:
        sys.exit(f"no program was compiled from proved sources: {ran}")
    return programs[0]


class Pair:
    """Both programs, and a folder in which they run."""

    def __init__(self, folder):
        self.folder, self.programs = folder, [PROGRAM, compiled_program()]
        self.counts, self.differences = Counter(), 0

    def run(self, name, *words):
        """Runs both with the same words, and gives what the proved one told."""
        proved, compiled = (told(program, words, self.folder, {}) for program in self.programs)
        self.counts[f"{words[0]}, status {proved[0]}"] += 1
        if proved != compiled:
            self.differences += 1
            print(f"{name}, {' '.join(words)}: {proved} and {compiled}"[:2000])
        return proved

    def book(self, name, file, *words):
        (self.folder / file).write_bytes(self.run(name, "run", "made.spec", *words)[1])

    def classes(self, name, text):
        asker = Asker(name, bound(text))
        for words in [[], ["--by-result", "--brief"], ["--json", "--all-orders"], *(asker.words() for _ in range(RUNS_ASKED))]:
            self.run(name, "classes", "made.spec", *words)

    def look(self, name, text):
        (self.folder / "made.spec").write_bytes(text)
        for rank in ranks_of(text, 1):
            self.run(name, "one", "made.spec", str(rank))
        self.run(name, "check", "made.spec")
        status, number, _error = self.run(name, "count", "made.spec")
        if status != 0:
            return
        if int(number) <= MOST_CLASSED:
            self.classes(name, text)
        end = min(int(number), MOST_RANKS)
        self.book(name, "low.book", "0", str(end // 2), "--workers", "1")
        self.book(name, "high.book", str(end // 2), str(end))
        self.book(name, "every.book", "0", str(end), "--every")
        _status, joined, _error = self.run(name, "join", "high.book", "low.book")
        (self.folder / "all.book").write_bytes(joined)
        self.run(name, "report", "all.book")
        self.run(name, "audit", "every.book")
        self.run(name, "judge", "all.book", "every.book")
        self.run(name, "judge", "low.book", "all.book")
        self.run(name, "judge", "--show", "every.book", "low.book")
        self.run(name, "classes", "--book", "high.book", "--ranks", "--outcomes")
        self.run(name, "classes", "--json", "--book", "low.book", "every.book", "high.book")


def main(first, seeds):
    with TemporaryDirectory() as folder:
        pair = Pair(Path(folder))
        for name, text in specs(first, seeds):
            pair.look(name, text)
    print(f"{pair.counts.total()} runs, {pair.differences} differences; what was run:")
    for words, number in sorted(pair.counts.items()):
        print(f"  {number:6} {words}")
    return 1 if pair.differences else 0


if __name__ == "__main__":
    if len(sys.argv) != 3:
        sys.exit(__doc__)
    sys.exit(ended(main, int(sys.argv[1]), int(sys.argv[2])))
