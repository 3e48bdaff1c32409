"""Compares each text in `examples/*.out` with what the program and this second implementation tell of its spec, and so the classes of each at both levels.

usage: python3 crosscheck/examples.py

The first line of a text names the rank. What `classes` prints of an example at a level is in `levels/examples/NAME.LEVEL.txt`: this second implementation made
these texts, and those of lost updates, write skew and read skew were counted by hand.
"""

import sys
from pathlib import Path

from classes import Asking
from compare import PROGRAM, difference, ended, expected, told
from machine import LEVELS

HERE = Path(__file__).resolve().parent
EXAMPLES, AT_LEVELS = HERE.parent / "examples", HERE / "levels/examples"


def outcomes():
    """For each text the words that ask for it, and what it and this second implementation tell."""
    for text in sorted(EXAMPLES.glob("*.out")):
        spec, want = text.with_suffix(".spec"), text.read_bytes()
        rank = want.split(b"\n")[0].removeprefix(b"rank ").decode()
        yield ["one", spec.name, rank], want, expected(spec.read_bytes(), int(rank), spec.name)


def classes_at_levels():
    """The same of the classes of each example at each level."""
    for spec in sorted(EXAMPLES.glob("*.spec")):
        for level in LEVELS:
            words = ["--level", level]
            want = (AT_LEVELS / f"{spec.stem}.{level}.txt").read_bytes()
            yield ["classes", spec.name, *words], want, Asking(spec.read_bytes()).answer(spec.name, words)


def main():
    texts = differences = 0
    for words, text, here in [*outcomes(), *classes_at_levels()]:
        texts, worked_out = texts + 1, (0, text, b"")
        answers = {"the program": told(PROGRAM, words, EXAMPLES, {}), "the second implementation": here}
        for teller, answer in answers.items():
            if answer != worked_out:
                differences += 1
                print(f"{' '.join(words)}, {teller}: {difference(worked_out, answer)}")
    print(f"{texts} texts of examples, {differences} differences")
    return 1 if differences else 0


if __name__ == "__main__":
    sys.exit(ended(main))
