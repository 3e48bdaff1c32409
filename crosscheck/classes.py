"""What `isofarm classes` prints: the orders that clients can send, or all permutations, in classes or by their results.

usage: python3 crosscheck/classes.py SPEC [FLAG..]

The flags are those of `class_request.py`. Orders are counted by `schedules.py`: by layers of states, and the lines of a file with permutation
lines one by one. The text is that of a pipe or a file: a class has one line, however wide that is.
"""

import sys
from collections import Counter
from dataclasses import dataclass, replace
from functools import cached_property
from pathlib import Path

from class_request import ALL_ORDERS, BRIEF, BY_RESULT, FINAL_ROWS, HTML, JSON, OUTCOMES, NotAsked, NoWords, Request, request_of
from class_values import BY_ANSWERS, BY_SHOWS, classes_json, page_html
from levels import Levels, bind_at, levels_of
from levels import spelled as spelled_level
from machine import LINES, READ_COMMITTED, SERIALIZABLE, outcome_lines
from moments import shown
from orders import spelled
from queries import NoQuery, query_of, rows_in, seen
from refusal import Refusal
from sampling import drawn_ranks, interval_text
from schedules import Ending, by_layers, by_ranks, in_order, one_by_one, serial_results
from shown import LEFT_IN, cut, marks, row_text, statements_of, visible
from spec_file import read_spec

WORDS = {
    "W": "a session waits",
    "D": "a session is the victim of a deadlock",
    "E": "another error",
    "N": "a step is not sent: its session waits",
    "S": "a session waits for ever",
    "R": "anomaly: no error, yet no serial order gives this result",
}
NOT_KNOWN, NOT_KNOWN_OF_SAMPLES = "anomaly: not known for permutation lines", "anomaly: not known for samples"
INTERVAL = "95% interval"
BOTH = [SERIALIZABLE, READ_COMMITTED]
LEVEL_NAMES = [*map(spelled_level, BOTH)]
OF_SENT, OF_ALL, OF_RESULTS = "WDESR", "WDENSR", "DESR"
MEANINGS = {":": "waits", "!": "fails", "-": "is not sent"}
OF_NAME = 24
BENEATH = " " * 10


# ---- classes


@dataclass
class OrderClass:
    """Orders of one ending or of one result: how the first of them ends, how many they are, the least rank, and how many have each letter."""

    ending: Ending
    orders: int
    first_rank: int
    letters: Counter


class OrderClasses:
    """The classes of a spec: of the orders that clients can send, or of all permutations. Of a file with permutation lines those of its lines."""

    def __init__(self, spec, all_orders, sample=None):
        self.spec, self.all_orders, self.sample, self.known = spec, all_orders, sample, {}
        self.is_lined = spec.lines is not None
        self.has_anomalies = not self.is_lined and sample is None
        self.serial = serial_results(spec) if self.has_anomalies else set()
        self.endings = in_order(self.counted())
        self.all = [self.of_ending(ending, counted) for ending, counted in self.endings.items()]

    def counted(self):
        """Of each ending how many orders have it, and the least rank. A sample has a number of orders and a seed."""
        if self.sample is not None:
            return by_ranks(self.spec, drawn_ranks(self.sample[1], self.sample[0], self.spec.ranks()))
        return (one_by_one if self.is_lined else by_layers)(self.spec, self.all_orders)

    @property
    def orders(self):
        return sum(one.orders for one in self.all)

    def of_ending(self, ending, counted):
        letters = ending.letters | ({"R"} if self.has_anomalies and ending.is_anomaly(self.serial) else set())
        return OrderClass(ending, counted.orders, counted.first_rank, Counter(dict.fromkeys(letters, counted.orders)))

    def asked(self, request):
        """The classes, or results, of the orders that pass the filters, by their least ranks."""
        passing = [one for one in self.all if request.passes(self.spec, one)]
        return by_result(passing) if request.has(BY_RESULT) else passing

    def first_order(self, one):
        """The steps of the order of the least rank."""
        return self.spec.line(one.first_rank)[: one.ending.steps()]

    def steps(self, one):
        """The names of the steps of a class's first order, each cut, with its marks."""
        if one.first_rank not in self.known:
            order = self.first_order(one)
            self.known[one.first_rank] = with_marks(self.spec, order, marks(shown(self.spec, order).moments))
        return self.known[one.first_rank]

    def seen(self, text, one):
        """The events of a query on the final rows of a class."""
        place = text, one.ending.final_rows
        if place not in self.known:
            self.known[place] = seen(self.spec, query_of(self.spec, text), one.ending.final_rows)
        return self.known[place]


def with_marks(spec, order, its_marks):
    """The names of an order's steps, each cut, with its marks."""
    names = [cut(visible(spelled(spec.step_names[step])), OF_NAME) for step in order]
    return ["".join(one) for one in zip(names, its_marks, strict=True)]


def by_result(classes):
    """The same orders by their results."""
    joint = {}
    for one in classes:
        joint.setdefault(one.ending.result, []).append(one)
    return [
        OrderClass(several[0].ending, sum(one.orders for one in several), several[0].first_rank, sum((one.letters for one in several), Counter()))
        for several in joint.values()
    ]


# ---- numbers and columns


def number(count):
    return f"{count:,}"


def number_of(count, one, more):
    return f"{number(count)} {one if count == 1 else more}"


def share(orders, of):
    """A part of all orders in percent, rounded to one place; a half is rounded up."""
    tenths = (2000 * orders + of) // (2 * of) if of else 0
    return "<0.1%" if orders and not tenths else f"{tenths // 10}.{tenths % 10}%"


def table_lines(rows, to_right):
    """Rows of cells in columns with two blanks between, each but the last one as wide as its widest cell. Those that are named go to the right."""
    widths = [max(map(len, column)) for column in zip(*rows, strict=True)][:-1]
    for *cells, last in rows:
        pairs = enumerate(zip(cells, widths, strict=True))
        fronts = [cell.rjust(width) if place in to_right else cell.ljust(width) for place, (cell, width) in pairs]
        yield "  ".join([*fronts, last]).rstrip(" ")


# ---- the page


class ClassPage:
    """What is asked of the classes of a spec, and its text."""

    def __init__(self, classes, path, request, levels=Levels()):
        self.classes, self.path, self.request, self.levels = classes, path, request, levels
        self.rows = classes.asked(request)
        self.by_result = request.has(BY_RESULT)
        self.by, self.one, self.more = (BY_ANSWERS, "result", "results") if self.by_result else (BY_SHOWS, "class", "classes")
        self.letters = self.letters_with_places()
        self.orders = sum(one.orders for one in self.rows)

    def letters_with_places(self):
        return OF_RESULTS if self.by_result else OF_ALL if self.classes.all_orders else OF_SENT

    # the head

    def remarks(self):
        """What the head says of the orders behind their numbers."""
        if self.is_sample:
            yield f"sample of all permutations, seed {self.request.seed}"
        if self.classes.all_orders:
            dropped = sum(one.letters["N"] for one in self.rows)
            yield from ["all permutations"] * self.classes.has_anomalies
            if dropped:
                yield f"{number(dropped)} {'contains' if dropped == 1 else 'contain'} a step that is not sent"
        if self.request.filters:
            yield visible(" ".join(one.word for one in self.request.in_place()))

    def head_lines(self):
        some = f"{number(self.orders)} of " if self.request.filters else ""
        orders = number_of(self.classes.orders, "order", "orders")
        remarks = "; ".join(self.remarks())
        yield f"{visible(self.path)}: {some}{orders} in {number_of(len(self.rows), self.one, self.more)}" + (f" ({remarks})" if remarks else "")
        yield from self.levels.head_lines()
        if self.is_sample and self.orders:
            unseen = share(self.seen_once(), self.orders)
            yield f"Shares have 95% intervals by Wilson. About {unseen} of such orders are in classes not seen (Good and Turing)."

    @property
    def is_sample(self):
        return self.request.sample is not None

    def seen_once(self):
        """How many classes have one order."""
        return sum(one.orders == 1 for one in self.rows)

    # expectations

    def missing(self, expected):
        """The classes whose orders are not as expected."""
        return [one for one in self.rows if not expected.is_in(self.classes.seen(expected.select, one))]

    def holds_in(self, expected):
        """How many orders are as expected."""
        return self.orders - sum(one.orders for one in self.missing(expected))

    def is_as_expected(self):
        return not any(self.missing(one) for one in self.request.expectations)

    def found(self, expected, one):
        """What the SELECT of an expectation finds in place of the one row."""
        events = self.classes.seen(expected.select, one)
        if events[-1] in LINES:
            return LINES[events[-1]]
        rows = ["|".join(row) for row in rows_in(events)]
        return f"{number(len(rows))} rows, first {rows[0]}" if rows[1:] else rows[0] if rows else "no row"

    def expectation_lines(self):
        for expected in self.request.expectations:
            head, missing = f"expect {expected.select} = {', '.join(expected.values)}", self.missing(expected)
            of = f"of {number_of(self.orders, 'order', 'orders')}"
            if not missing:
                yield visible(f"{head}: {f'no counterexample in {of[3:]}' if self.is_sample else f'holds in {number(self.orders)} {of}'}")
                continue
            yield visible(head)
            yield f"  FAILED in {number(sum(one.orders for one in missing))} {of}"
            yield f"  first: {' '.join(self.classes.steps(missing[0]))}    (rank {missing[0].first_rank})"
            yield visible(f"  found: {self.found(expected, missing[0])}")

    # totals

    def total(self, letter):
        """How many orders have a letter, and how many classes; none where it is not known."""
        if letter not in self.letters or (letter == "R" and not self.classes.has_anomalies):
            return None
        return sum(one.letters[letter] for one in self.rows), sum(letter in one.letters for one in self.rows)

    def total_cells(self, letter):
        total = self.total(letter)
        if total is None:
            return [f"  {letter} ", "-", "-", *self.of_sample("-"), "-", NOT_KNOWN_OF_SAMPLES if self.is_sample else NOT_KNOWN]
        return [f"  {letter} ", *self.counted(total[0]), number(total[1]), WORDS[letter]]

    def of_sample(self, cell):
        """A cell that samples have."""
        return [cell] if self.is_sample else []

    def counted(self, orders):
        """The cells of a number of orders."""
        return [number(orders), share(orders, self.orders), *self.of_sample(interval_text(self.orders, orders))]

    def total_lines(self):
        head = ["", "orders", "share", *self.of_sample(INTERVAL), self.more, ""]
        yield from table_lines([head, *map(self.total_cells, self.letters)], {*range(1, len(head) - 1)})

    # classes

    def letters_of(self, one):
        """A character for each letter that has a place: the letter, or a point."""
        return "".join(letter if letter in one.letters else "." for letter in self.letters)

    def class_cells(self, place, one):
        return [f"{place}", *self.counted(one.orders), self.letters_of(one), f"{one.first_rank}", " ".join(self.classes.steps(one))]

    def class_lines(self):
        if self.rows:
            head = [self.one, "orders", "share", *self.of_sample(INTERVAL), self.letters, "rank", "first order"]
            to_right = {*range(len(head))} - {len(head) - 3}
            first, *lines = table_lines([head, *(self.class_cells(place, one) for place, one in enumerate(self.rows, 1))], to_right)
            yield first
            for line, one in zip(lines, self.rows, strict=True):
                yield line
                yield from (f"{BENEATH}{told}" for told in self.beneath(one))

    def beneath(self, one):
        """What stands beneath a class."""
        spec = self.classes.spec
        if self.request.has(OUTCOMES):
            yield from outcome_lines(spec, one.ending.transcripts)
        if self.request.has(FINAL_ROWS):
            yield from self.final_lines(one)
        for text in self.request.queries:
            yield visible(f"query {text}: {self.query_rows(text, one)}")

    def final_lines(self, one):
        """The final rows of each table, and how each session stands that has not ended."""
        lines = [visible(f"{name}: {rows_text(map(row_text, rows))}") for name, rows in one.ending.final_rows]
        if not self.by_result:
            names = map(visible, self.classes.spec.session_names)
            lines += [f"{name} {LEFT_IN[at]}" for name, at in zip(names, one.ending.standing, strict=True) if at in LEFT_IN]
        return lines or ["nothing"]

    def query_rows(self, text, one):
        events = self.classes.seen(text, one)
        return LINES[events[-1]] if events[-1] in LINES else rows_text("|".join(row) for row in rows_in(events))

    # the legend

    def legend_lines(self):
        """What the marks mean that stand in the table, each on the first step that has it."""
        steps = [step for one in self.rows for step in self.classes.steps(one)]
        firsts = [(mark, next((step for step in steps if mark in marks_of(step)), None)) for mark in MEANINGS]
        meant = [f"{step.removesuffix(marks_of(step))}{mark} {MEANINGS[mark]}" for mark, step in firsts if step]
        if meant:
            yield "   ".join(meant)

    def text(self):
        parts = [self.head_lines(), self.expectation_lines(), self.total_lines()]
        parts += [] if self.request.has(BRIEF) else [self.class_lines(), self.legend_lines()]
        texts = ["".join(f"{line}\n" for line in part) for part in parts]
        return "\n".join(text for text in texts if text)


class BothLevels:
    """What is asked of the classes of a spec at both levels, and its text."""

    def __init__(self, asking, path, request):
        self.path, by_result = path, replace(request, flags=request.flags | {BY_RESULT})
        self.sides = [asking.at(level).page(path, Request()) for level in BOTH]
        others, self.results = (asking.at(level).page(path, by_result) for level in BOTH)
        known = {one.ending.result for one in others.rows}
        self.number_of_results = len(self.results.rows)
        self.results.rows = [one for one in self.results.rows if one.ending.result not in known]

    def head_lines(self):
        counts = [f"{number_of(side.orders, 'order', 'orders')} in {number_of(len(side.rows), side.one, side.more)}" for side in self.sides]
        yield f"{visible(self.path)}: " + ", ".join(f"{told} at {name}" for told, name in zip(counts, LEVEL_NAMES, strict=True))
        for side in self.sides:
            yield from side.levels.head_lines() if side.levels.other_lines else ()

    def total_cells(self, letter):
        """The cells of a letter: its numbers at each level, and what it means."""
        (front, *first, meaning), (_front, *second, _meaning) = (side.total_cells(letter) for side in self.sides)
        return [front, *first, *second, meaning]

    def total_lines(self):
        """The totals of each level beneath its name, which begins where its columns do."""
        columns = ["orders", "share", "classes"]
        rows = [["", *columns, *columns, ""], *map(self.total_cells, self.sides[0].letters)]
        first = 2 * len(columns) + sum(max(map(len, column)) for column in [*zip(*rows, strict=True)][1 : len(columns) + 1])
        yield f"{'':6}{LEVEL_NAMES[0]:{first}}{LEVEL_NAMES[1]}"
        yield from table_lines(rows, {*range(1, len(rows[0]) - 1)})

    def result_lines(self):
        yield f"only at READ COMMITTED: {number(len(self.results.rows))} of {number_of(self.number_of_results, 'result', 'results')}"

    def text(self):
        parts = [self.head_lines(), self.total_lines(), self.result_lines()]
        parts += [] if self.results.request.has(BRIEF) else [self.results.class_lines(), self.results.legend_lines()]
        texts = ["".join(f"{line}\n" for line in part) for part in parts]
        return "\n".join(text for text in texts if text)


def rows_text(rows):
    return ", ".join(rows) or "no row"


def marks_of(step):
    """The marks behind a step's name. A name in quotes ends with its quote, and a plain one has none of the marks."""
    return step[len(step.rstrip("-:!")) :]


# ---- the command


class Asking:
    """A spec's text, of which several things may be asked, at this level where it is one."""

    def __init__(self, text, level=None):
        self.text, self.level, self.known = text, level, {}

    @cached_property
    def file(self):
        return read_spec(self.text)

    @cached_property
    def spec(self):
        return bind_at(self.text, self.file, self.level)

    def at(self, level):
        """The same text at the level of a request; where that has none, at the one that it has."""
        return self if level in (None, self.level) else self.known.setdefault(level, Asking(self.text, level))

    def classes(self, all_orders, sample=None):
        if (all_orders, sample) not in self.known:
            self.known[all_orders, sample] = OrderClasses(self.spec, all_orders, sample)
        return self.known[all_orders, sample]

    def page(self, path, request):
        """Raises a Refusal where the text has no spec or does not start, NotAsked or NoQuery where the request is not one of this spec."""
        request.check(self.spec)
        sample = None if request.sample is None else (request.sample, request.seed)
        return ClassPage(self.classes(request.has(ALL_ORDERS), sample), path, request, levels_of(self.text, self.file, self.spec.level))

    def printed(self, page):
        """A page in the form that is asked for."""
        if not page.request.has(JSON) and not page.request.has(HTML):
            return page.text()
        json = classes_json(page, statements_of(self.file))
        ranks = [one.first_rank for one in page.rows]
        return page_html(self.text, page.path, json, ranks, self.spec.level) if page.request.has(HTML) else json

    def answer(self, path, words):
        """The exit status, and what stands on the two outputs."""
        try:
            request = request_of(words)
            if request.both_levels:
                return 0, BothLevels(self, path, request).text().encode(), b""
            asking = self.at(request.level)
            page = asking.page(path, request)
        except NoWords as wrong:
            return 2, b"", f"{wrong.args[0]}\n".encode()
        except Refusal as refusal:
            return 3, b"", refusal.line(path)
        except NotAsked as wrong:
            return 3, b"", f"isofarm: {path}: {wrong.args[0]}\n".encode()
        except NoQuery as wrong:
            return 3, b"", f"isofarm: {wrong.args[0]}\n".encode()
        return 0 if page.is_as_expected() else 1, asking.printed(page).encode(), b""


def main(path, *words):
    status, out, error = Asking(Path(path).read_bytes()).answer(path, words)
    sys.stdout.buffer.write(out)
    sys.stderr.buffer.write(error)
    sys.exit(status)


if __name__ == "__main__":
    if len(sys.argv) < 2:
        sys.exit(__doc__)
    main(*sys.argv[1:])
