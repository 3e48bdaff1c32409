"""What `isofarm classes --book` prints: the orders of a spec in classes, by what books tell of them.

usage: python3 crosscheck/book_classes.py BOOK.. [--ranks] [--outcomes] [--brief] [--json]

No order is run. What is printed goes by the facts of the books alone, so a spec may have any number of orders. Facts may be untrue: then letters
and marks are those of what the books say.
"""

import json
import sys
from collections import Counter
from dataclasses import dataclass
from functools import cached_property

from binding import bind
from books import event_of, first_without, values
from class_request import BOOK_FLAGS, JSON, OUTCOMES, RANKS, Request
from class_values import BY_OUTCOMES, classes_json
from classes import ClassPage, OrderClass, number, number_of, with_marks
from compare_files import answer, fault, joined_at
from levels import Levels, levels_of
from machine import FAULTS, outcome_lines
from schedules import Ending
from shown import marks_text, statements_of, visible, word_of
from spec_file import read_spec

OF_BOOKS = "WDEN"
NOT_KNOWN = "Books have no final rows: S and R are not known."


# ---- what books tell of an order


def ending_told(outcome):
    """The ending that a book tells, of the text of its outcome: final rows and how sessions stand it does not tell."""
    return Ending(tuple(tuple(map(event_of, events)) for events in json.loads(outcome)), (), ())


def marks_by_turns(events):
    """Each step that a session is told to be sent or not to be sent, with what becomes of it. Where it goes on after a wait, its last step does."""
    last = set()
    for event in events:
        word = word_of(event)
        if word in ("sent", "notsent"):
            turn = set() if word == "sent" else {"-"}
            last = turn if word == "sent" else last
            yield event[1], turn
        last.update({":"} if word == "waiting" else {"!"} if event in FAULTS else set())


def marks_told(line, transcripts):
    """The marks of a line's steps, each those of its own turn. A step of which nothing is told has none."""
    turns = {}
    for events in transcripts:
        for step, turn in [*marks_by_turns(events)]:
            turns.setdefault(step, []).append(turn)
    return marks_text([turns[step].pop(0) if turns.get(step) else set() for step in line])


# ---- ranges of ranks


def joined(ranges):
    """Ranges in their order, each with its first and its last rank; those that touch as one."""
    whole = []
    for first, last in sorted(ranges):
        if whole and whole[-1][1] == first - 1:
            whole[-1][1] = last
        else:
            whole.append([first, last])
    return whole


def ranges_text(ranges):
    return " ".join(f"{first}-{last}" if last > first else f"{first}" for first, last in ranges)


# ---- classes and their page


@dataclass
class BookClass(OrderClass):
    """A class with the ranges of its ranks, of which no two touch."""

    ranges: list


def class_of(outcome, ranks):
    ending, ranges = ending_told(outcome), joined([rank, rank] for rank in ranks)
    return BookClass(ending, len(ranks), ranges[0][0], Counter(dict.fromkeys(ending.letters, len(ranks))), ranges)


class BookClasses:
    """The orders of a spec of which books tell something, in classes by what they tell."""

    is_lined = has_anomalies = False

    def __init__(self, spec, outcomes):
        self.spec, self.orders, ranks = spec, spec.ranks(), {}
        for rank in sorted(outcomes):
            ranks.setdefault(outcomes[rank], []).append(rank)
        self.first_missing = first_without(spec, outcomes.keys())
        self.all = [class_of(outcome, its_ranks) for outcome, its_ranks in ranks.items()]

    def asked(self, _request):
        return self.all

    def first_order(self, one):
        return self.spec.line(one.first_rank)

    def steps(self, one):
        """The names of the steps of a class's first order, each cut, with its marks."""
        order = self.first_order(one)
        return with_marks(self.spec, order, marks_told(order, one.ending.transcripts))


class BookPage(ClassPage):
    """What is asked of the classes of books, and its text."""

    def __init__(self, classes, path, request, levels=Levels()):
        super().__init__(classes, path, request, levels)
        self.by, self.orders_missing = BY_OUTCOMES, classes.orders - self.orders

    def letters_with_places(self):
        return OF_BOOKS

    def head_lines(self):
        first, some, behind = f"rank {self.classes.first_missing}", f"{number(self.orders)} of ", ""
        if self.orders_missing == 1:
            behind = f"; 1 order is missing, {first}"
        elif self.orders_missing:
            behind = f"; {number(self.orders_missing)} orders are missing, the first of {first}"
        orders = number_of(self.classes.orders, "order", "orders")
        yield f"{visible(self.path)}: {some if behind else ''}{orders} in {number_of(len(self.rows), self.one, self.more)}{behind}"
        yield from self.levels.head_lines()
        yield NOT_KNOWN

    def beneath(self, one):
        if self.request.has(RANKS):
            yield f"ranks {ranges_text(one.ranges)}"
        if self.request.has(OUTCOMES):
            yield from outcome_lines(self.classes.spec, one.ending.transcripts)


# ---- the command


class BookAsking:
    """Books at paths, of whose classes several things may be asked. Raises a Fault where there are none."""

    def __init__(self, *paths):
        self.paths = paths
        self.name = paths[0] if len(paths) == 1 else f"{len(paths)} books"

    @cached_property
    def joined(self):
        """The text of the spec, and the facts."""
        return joined_at(*self.paths)

    @cached_property
    def file(self):
        return read_spec(self.joined[0])

    @cached_property
    def spec(self):
        return bind(self.file)

    @cached_property
    def classes(self):
        told = values(self.spec, self.joined[1])
        several = [rank for rank, outcomes in told.items() if len(outcomes) > 1]
        if several:
            raise fault(1, self.paths[0], f"clash at rank {min(several)}")
        return BookClasses(self.spec, {rank: outcome for rank, outcomes in told.items() for outcome in outcomes})

    def text(self, flags):
        classes = self.classes
        page = BookPage(classes, self.name, Request(flags={*flags}), levels_of(self.joined[0], self.file, None))
        return (classes_json(page, statements_of(self.file)) if page.request.has(JSON) else page.text()).encode()

    def answer(self, flags):
        """The exit status, and what stands on the two outputs."""
        return answer(self.text, flags)


def main(words):
    paths, flags = [word for word in words if word not in BOOK_FLAGS], [word for word in words if word in BOOK_FLAGS]
    if not paths or any(path.startswith("--") for path in paths):
        sys.exit(__doc__)
    status, out, error = BookAsking(*paths).answer(flags)
    sys.stdout.buffer.write(out)
    sys.stderr.buffer.write(error)
    sys.exit(status)


if __name__ == "__main__":
    main(sys.argv[1:])
