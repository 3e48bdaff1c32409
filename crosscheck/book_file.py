"""Book files: which bytes are a book, and else the first reason why they are none.

A book is a JSON object with `facts`, `format`, `spec` (the text of the spec file) and, in format 2, `outcomes`. In format 1 a fact
is `[rank,"ran",outcome]` or `[rank,"swap",k]`. In format 2 `outcomes` has each outcome once, by its bytes, and a fact is a run
`[first,count,"ran",i]` or `[first,count,"swap",k]` of ranks, i the outcome's place. Facts stand in order: by (first) rank, `ran`
before `swap`, outcomes by their bytes or places, swaps by k; runs of one kind and number are as long as they can be.
"""

import json
from enum import IntEnum
from math import isinf

from binding import bind
from books import compact, leads_to
from machine import FAULTS
from refusal import Refusal
from spec_file import read_spec

MOST_BYTES = 268_435_456
MOST_FACTS = 30_000_000
MOST_LEVELS = 127
U64, I64 = 2**64, 2**63


class Kind(IntEnum):
    NOT_JSON = 1
    BAD_FIELD = 2
    BAD_VERSION = 3
    BAD_SPEC = 4
    BAD_RANK = 5
    OUT_OF_ORDER = 6
    BAD_SWAP = 7
    TOO_LARGE = 8


class NoBook(Exception):
    def __init__(self, kind):
        super().__init__(kind)
        self.kind = kind


def require(holds, kind):
    if not holds:
        raise NoBook(kind)


# ---- JSON, as serde_json reads it


class Fraction(float):
    """A number that is not held as a whole one."""


def fraction(text):
    number = Fraction(text)
    require(not isinf(number), Kind.NOT_JSON)
    return number


def whole(text):
    """A number without fraction and exponent: a whole one where it fits, but for minus zero."""
    number = int(text)
    return fraction(text) if text == "-0" or not -I64 <= number < U64 else number


def no_constant(_word):
    raise NoBook(Kind.NOT_JSON)


def levels(text):
    """How deep arrays and objects stand in one another."""
    deepest = level = 0
    in_text = escaped = False
    for letter in text:
        if in_text:
            in_text = escaped or letter != '"'
            escaped = letter == "\\" and not escaped
        elif letter == '"':
            in_text = True
        elif letter in "[{":
            level += 1
            deepest = max(deepest, level)
        elif letter in "]}":
            level -= 1
    return deepest


def has_lone_surrogate(value):
    """Whether a letter of a value is half of one. The objects in it were looked at as they were read."""
    if isinstance(value, str):
        return any("\ud800" <= letter <= "\udfff" for letter in value)
    return isinstance(value, list | tuple) and any(map(has_lone_surrogate, value))


def object_of(pairs):
    """An object. Of members with one name the last counts, but none may have half a letter."""
    require(not any(map(has_lone_surrogate, pairs)), Kind.NOT_JSON)
    return dict(pairs)


HOOKS = {"parse_int": whole, "parse_float": fraction, "parse_constant": no_constant, "object_pairs_hook": object_of}


def value_of(text):
    """The JSON value of a text."""
    try:
        letters = text.decode()
        require(levels(letters) <= MOST_LEVELS, Kind.NOT_JSON)
        value = json.loads(letters, **HOOKS)
    except (ValueError, RecursionError):
        raise NoBook(Kind.NOT_JSON) from None
    require(not has_lone_surrogate(value), Kind.NOT_JSON)
    return value


# ---- what a value stands for


def is_count(value, most=U64 - 1):
    return type(value) is int and 0 <= value <= most


def is_shown(value):
    """Whether this is a value in a row."""
    return isinstance(value, str) or (type(value) is int and -I64 <= value < I64)


def is_event(spec, session, event):
    if isinstance(event, str):
        return event in ("began", "committed", "rolledback", "locked", "set", "waiting", "resumed", "done")
    if not (isinstance(event, list) and len(event) == 2 and isinstance(event[0], str)):
        return False
    word, value = event
    if word in ("sent", "notsent"):
        return is_count(value, len(spec.steps) - 1) and spec.steps[value][0] == session
    if word == "row":
        return isinstance(value, list) and all(map(is_shown, value))
    if word in ("rows", "inserted", "updated", "deleted"):
        return is_count(value)
    return type(value) is int and (word, value) in [("warned", 1), ("warned", 2), *FAULTS]


def is_outcome(spec, value):
    return (
        isinstance(value, list)
        and len(value) == len(spec.session_names)
        and all(
            isinstance(events, list) and all(is_event(spec, session, event) for event in events)
            for session, events in enumerate(value)
        )
    )


def outcome_text(value):
    return compact(value).encode()


def facts_one_by_one(spec, entries):
    """The facts of format 1: each with its rank, in their order."""
    last, facts = None, set()
    for entry in entries:
        require(isinstance(entry, list) and len(entry) == 3 and is_count(entry[0]), Kind.BAD_FIELD)
        rank, word, value = entry
        require(word == "ran" and is_outcome(spec, value) or word == "swap" and is_count(value, 255), Kind.BAD_FIELD)
        require(rank < spec.ranks(), Kind.BAD_RANK)
        require(word == "ran" or leads_to(spec, rank, value) is not None, Kind.BAD_SWAP)
        fact = (rank, word, outcome_text(value) if word == "ran" else value)
        require(last is None or last < fact, Kind.OUT_OF_ORDER)
        last = fact
        facts.add(fact)
    return facts


def outcomes_of(spec, values):
    texts = []
    for value in values:
        require(is_outcome(spec, value), Kind.BAD_FIELD)
        require(not texts or texts[-1] < outcome_text(value), Kind.OUT_OF_ORDER)
        texts.append(outcome_text(value))
    return texts


def runs_of(spec, entries, outcomes):
    """The facts of format 2: runs of ranks that have one."""
    last, number, runs, ends = None, 0, [], {}
    for entry in entries:
        require(isinstance(entry, list) and len(entry) == 4, Kind.BAD_FIELD)
        first, count, word, value = entry
        most = {"ran": len(outcomes) - 1, "swap": 255}.get(word if isinstance(word, str) else "", -1)
        require(is_count(first) and is_count(count) and count > 0 and is_count(value, most), Kind.BAD_FIELD)
        number += count
        require(number <= MOST_FACTS, Kind.TOO_LARGE)
        require(first + count <= spec.ranks(), Kind.BAD_RANK)
        require(word == "ran" or all(leads_to(spec, rank, value) is not None for rank in range(first, first + count)), Kind.BAD_SWAP)
        in_order = last is None or last < (first, word, value)
        require(in_order and ends.get((word, value), -1) < first, Kind.OUT_OF_ORDER)
        last, ends[word, value] = (first, word, value), first + count
        runs.append((first, count, word, value))
    named = {value for _first, _count, word, value in runs if word == "ran"}
    require(len(named) == len(outcomes), Kind.BAD_FIELD)
    return {
        (rank, word, outcomes[value] if word == "ran" else value)
        for first, count, word, value in runs
        for rank in range(first, first + count)
    }


def read_book(text):
    """The spec's text and the facts; of format 2 not over a number of facts that fits into memory here."""
    require(len(text) <= MOST_BYTES, Kind.TOO_LARGE)
    book = value_of(text)
    require(isinstance(book, dict) and is_count(book.get("format")), Kind.BAD_FIELD)
    require(book["format"] in (1, 2), Kind.BAD_VERSION)
    members = {"facts": list, "format": int, "spec": str} | ({"outcomes": list} if book["format"] == 2 else {})
    require(set(book) == set(members), Kind.BAD_FIELD)
    require(all(isinstance(book[name], kind) for name, kind in members.items()), Kind.BAD_FIELD)
    try:
        spec = bind(read_spec(book["spec"].encode()))
    except Refusal:
        raise NoBook(Kind.BAD_SPEC) from None
    if book["format"] == 1:
        return book["spec"].encode(), facts_one_by_one(spec, book["facts"])
    outcomes = outcomes_of(spec, book["outcomes"])
    return book["spec"].encode(), runs_of(spec, book["facts"], outcomes)


def text_in_format_1(text, facts):
    """The text that a book had in format 1."""
    lines = [f'[{rank},"{word}",{value.decode() if word == "ran" else value}]' for rank, word, value in sorted(facts)]
    return f'{{"facts":[{",".join(lines)}],"format":1,"spec":{compact(text.decode())}}}\n'
