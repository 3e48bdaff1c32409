"""What is asked of classes, as words have it: which orders, how they are grouped, what is printed of each class and how."""

import re
from dataclasses import dataclass, field
from itertools import takewhile

from machine import DEADLOCK, LEVELS
from orders import quoted
from queries import Expectation, query_of
from schedules import ALL_ORDERS

FLAGS = [ALL_ORDERS, BY_RESULT, FINAL_ROWS, OUTCOMES, BRIEF, JSON, HTML] = [
    ALL_ORDERS, "--by-result", "--final-rows", "--outcomes", "--brief", "--json", "--html"
]
# What is asked of books alone, and all flags of books.
RANKS = "--ranks"
BOOK_FLAGS = [RANKS, OUTCOMES, BRIEF, JSON]
QUERY, EXPECT, PROGRESS, MEMORY, SAMPLE, SEED = "--query", "--expect", "--progress", "--memory", "--sample", "--seed"
LEVEL, BOTH_LEVELS = "--level", "--levels"
# What goes with both levels.
OF_LEVELS = [BRIEF, OUTCOMES, FINAL_ROWS]
MOST_MEMORY, MOST_SAMPLE, MOST_SEED = 1_000_000, 1_000_000, 2**64 - 1
# What does not go with a page.
NOT_OF_PAGES = [BRIEF, JSON]
# The letter of each filter. With `--no-` it keeps the orders that do not have the letter.
FILTERS = {"waits": "W", "deadlock": "D", "error": "E", "stuck": "S", "anomaly": "R", "not-sent": "N"}
# Words of an earlier form, each of which is refused.
OLD_WORDS = ["--answers", "--look", "--left", "--no-serial", "--serial", "--unsent", "--no-unsent"]
# A word that begins with a hyphen ends the values of an expectation, but where it is a number.
FALLING, NUMBER = re.compile("-[0-9]+"), re.compile("[0-9]+")


class NotAsked(Exception):
    """Why nothing is asked for by a filter, in the words of a fault line behind the path."""


class NoWords(Exception):
    """Why words are no words of the command."""


@dataclass(frozen=True)
class Filter:
    """Orders that have a letter, or that do not have it; with a session those in which it is the victim of a deadlock, or in which it is not."""

    name: str
    has: bool
    session: str | None = None

    @property
    def letter(self):
        return FILTERS[self.name]

    @property
    def word(self):
        return f"--{'' if self.has else 'no-'}{self.name}" + ("" if self.session is None else f"={self.session}")

    @property
    def place(self):
        """Where it stands among others: by the order of FILTERS, each before its opposite."""
        return [*FILTERS].index(self.name), not self.has

    @property
    def opposite(self):
        return Filter(self.name, not self.has, self.session)

    def passes(self, spec, order_class):
        is_so = self.letter in order_class.letters
        if self.session is not None:
            is_so = DEADLOCK in order_class.ending.transcripts[spec.session_names.index(self.session)]
        return is_so == self.has

    def check(self, spec):
        if self.session is not None and self.session not in spec.session_names:
            raise NotAsked(f"no session {quoted(self.session)}")
        if self.letter == "R" and spec.lines is not None:
            raise NotAsked("no serial orders")


@dataclass
class Request:
    """What is asked of classes. Queries and expectations stand in the order of the words. Of a sample its orders and its seed."""

    level: str | None = None
    both_levels: bool = False
    sample: int | None = None
    seed: int = 1
    filters: list = field(default_factory=list)
    flags: set = field(default_factory=set)
    queries: list = field(default_factory=list)
    expectations: list = field(default_factory=list)

    def has(self, flag):
        return flag in self.flags

    def passes(self, spec, order_class):
        return all(one.passes(spec, order_class) for one in self.filters)

    def in_place(self):
        """The filters by their places; those of one place as they were given."""
        return sorted(self.filters, key=lambda one: one.place)

    def check(self, spec):
        """Raises the first fault: of filters, of queries, and of expectations."""
        for one in self.in_place():
            one.check(spec)
        for text in self.queries:
            query_of(spec, text)
        for one in self.expectations:
            one.check(spec)


def filter_of(word):
    """The filter of a word, or none."""
    name, has_session, session = word.partition("=")
    has = not name.startswith("--no-")
    name = name.removeprefix("--" if has else "--no-")
    if not word.startswith("--") or name not in FILTERS or (has_session and name != "deadlock"):
        return None
    return Filter(name, has, session if has_session else None)


def opposite(word):
    """The filter of the orders that do not pass this one, as a word."""
    return filter_of(word).opposite.word


def is_value_word(word):
    return not word.startswith("-") or bool(FALLING.fullmatch(word))


def take_values(left):
    """The SELECT of an expectation and its values, taken from the words."""
    values = [*takewhile(is_value_word, left[1:])]
    if not values:
        raise NoWords(f"{EXPECT} has no value")
    select = left[0]
    del left[: 1 + len(values)]
    return Expectation(select, values)


def number_in(word, least, most):
    """A number from the least one to the last one."""
    if not NUMBER.fullmatch(word) or not least <= int(word) <= most:
        raise NoWords(f"{word} is no number from {least} to {most}")
    return int(word)


def level_word(word):
    if word not in LEVELS:
        raise NoWords(f"{word} is no level")
    return word


def check_levels(request):
    """Both levels go with what is told of results alone."""
    others = [request.level, request.sample, *request.filters, *request.queries, *request.expectations, *request.flags.difference(OF_LEVELS)]
    if request.both_levels and any(one is not None for one in others):
        raise NoWords(f"{BOTH_LEVELS} goes with no level, no other orders and no other form")


def check_sample(request, words):
    """Takes a sample's orders to those that clients can send, unless all are wanted."""
    if request.sample is None:
        if SEED in words:
            raise NoWords(f"{SEED} goes with {SAMPLE} alone")
        return
    if request.has(HTML) or {PROGRESS, MEMORY}.intersection(words) or any(one.letter == "R" for one in request.filters):
        raise NoWords(f"{SAMPLE} goes with no page, no bound of states and no anomaly")
    if not request.has(ALL_ORDERS):
        request.filters.append(Filter("not-sent", False))


def request_of(words):
    """What these words ask for, the path of the spec not among them. Raises NoWords."""
    request, left = Request(), [*words]
    while left:
        word = left.pop(0)
        if one := filter_of(word):
            request.filters.append(one)
        elif word in FLAGS and word not in request.flags:
            request.flags.add(word)
        elif word == QUERY and left:
            request.queries.append(left.pop(0))
        elif word == EXPECT and left:
            request.expectations.append(take_values(left))
        elif word == LEVEL and left and request.level is None:
            request.level = level_word(left.pop(0))
        elif word == BOTH_LEVELS and not request.both_levels:
            request.both_levels = True
        elif word == MEMORY and left:
            number_in(left.pop(0), 1, MOST_MEMORY)
        elif word == SAMPLE and left and request.sample is None:
            request.sample = number_in(left.pop(0), 1, MOST_SAMPLE)
        elif word == SEED and left:
            request.seed = number_in(left.pop(0), 0, MOST_SEED)
        elif word != PROGRESS:
            raise NoWords(f"{word} is no option")
    if not request.has(ALL_ORDERS) and any(one.letter == "N" for one in request.filters):
        raise NoWords(f"--not-sent goes with {ALL_ORDERS} alone")
    if request.has(HTML) and any(map(request.has, NOT_OF_PAGES)):
        raise NoWords(f"{HTML} goes with no other form")
    check_levels(request)
    check_sample(request, words)
    return request
