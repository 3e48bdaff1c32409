"""Compares what `check` tells of the specs in `checks/`, as it was worked out by hand, with what the program and this second implementation tell.

usage: python3 crosscheck/compare_checks.py

What the second implementation tells has no sentences, so it is compared without these.
"""

import sys
from pathlib import Path

from checks import checked, without_sentence
from compare import PROGRAM, difference, ended, told

CHECKS = Path(__file__).resolve().parent / "checks"


def worked_out(text):
    """The exit status and the two outputs. A text begins with a fault line, or it is of a good spec."""
    is_fault = text.startswith(b"isofarm: ")
    return (3, b"", text) if is_fault else (0, text, b"")


def main():
    texts = sorted(CHECKS.glob("*.told"))
    differences = 0
    for text in texts:
        spec = text.with_suffix(".spec")
        want = worked_out(text.read_bytes())
        answers = {
            "the program": (want, told(PROGRAM, ["check", spec.name], CHECKS, {})),
            "the second implementation": (without_sentence(want), checked(spec.read_bytes(), spec.name)),
        }
        for teller, (wanted, answer) in answers.items():
            if answer != wanted:
                differences += 1
                print(f"{text.name}, {teller}: {difference(wanted, answer)}")
    print(f"{len(texts)} checks, {differences} differences")
    return 1 if differences else 0


if __name__ == "__main__":
    sys.exit(ended(main))
