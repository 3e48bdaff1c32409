"""The record of a spec's results, which `isofarm test` keeps beside a spec.

usage: python3 crosscheck/records.py SPEC
"""

import sys
from dataclasses import dataclass
from pathlib import Path

from class_request import BY_RESULT, request_of
from classes import OF_SENT, Asking, number, number_of, rows_text
from machine import printed
from schedules import OF_RESULTS
from shown import row_text, visible, word_of

MOST_RECORDED = 200
NO_LEVELS = "; isolation levels have no effect"


@dataclass(frozen=True)
class Result:
    """A result: how many orders have it, the first of them, and the lines of what sessions answer and of the final rows."""

    count: str
    of: str
    first: str
    content: tuple

    @property
    def orders(self):
        return f"{self.count} of {self.of}"

    def lines(self):
        return [self.orders, f"  first: {self.first}".rstrip(" "), *self.content]


class Record:
    """The results of the orders that clients can send, from a file's name and text, at a level or at that of the text. Raises a Refusal where there are none."""

    def __init__(self, name, text, level=None):
        self.name, self.page = name, Asking(text, level).page(name, request_of([BY_RESULT]))
        self.orders = self.page.orders
        self.results = [self.result_of(one) for one in self.page.rows[:MOST_RECORDED]]
        self.left_out = len(self.page.rows) - len(self.results)

    def result_of(self, one):
        steps = self.page.classes.steps(one)
        return Result(number(one.orders), number_of(self.orders, "order", "orders"), " ".join(steps), tuple(self.content(one.ending)))

    def content(self, ending):
        spec = self.page.classes.spec
        for name, events in zip(spec.session_names, ending.transcripts, strict=True):
            answers = [printed(spec, event).decode() for event in events if word_of(event) in OF_RESULTS]
            yield visible(f"  {name}: {', '.join(answers) or 'nothing'}")
        for name, rows in ending.final_rows:
            yield visible(f"  {name}: {rows_text(map(row_text, rows))}")

    @property
    def letters(self):
        """Each letter with the orders that have it."""
        has = {letter: number(sum(one.letters[letter] for one in self.page.rows)) for letter in OF_SENT}
        if self.page.classes.is_lined:
            has["R"] = "-"
        return "  ".join(f"{letter} {orders}" for letter, orders in has.items())

    def head_lines(self):
        levels = self.page.levels
        locking = f"level {levels.asked}" if levels.asked else f"locking strict two-phase{NO_LEVELS if levels.other_lines else ''}"
        yield from ["isofarm record 1", f"spec {visible(self.name)}", locking]
        yield from [f"orders {number(self.orders)}", self.letters]

    def paragraphs(self):
        yield self.head_lines()
        for place, result in enumerate(self.results, 1):
            first, *others = result.lines()
            yield [f"result {place}: {first}", *others]
        if self.left_out:
            yield [f"and {number_of(self.left_out, 'more result', 'more results')}, which are left out"]

    def text(self):
        return "\n".join("".join(f"{line}\n" for line in lines) for lines in self.paragraphs())


if __name__ == "__main__":
    if len(sys.argv) != 2:
        sys.exit(__doc__)
    print(Record(Path(sys.argv[1]).name, Path(sys.argv[1]).read_bytes()).text(), end="")
