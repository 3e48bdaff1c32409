"""Books: the facts of ranks of one spec; what is missing or to be run, and what they tell of each rank.

usage: python3 crosscheck/books.py SPEC {FIRST END reduce|every}

Makes the book of each range of ranks as `facts.py` tells them, joins the books and prints three things: the book's text, then
`missing R` for the first rank without a fact or `missing none`, and then the report: `rank R` and the text of its outcome for
each rank, or one line that says why there is none.
"""

import json
import sys
from pathlib import Path

from binding import bind
from facts import MOST_RANKS, Worlds, fact, shared, swapped, swaps, word_of
from machine import outcome_text, printed
from refusal import Refusal
from spec_file import read_spec


def compact(value):
    return json.dumps(value, separators=(",", ":"), ensure_ascii=False, default=bytes.decode)


def noted(rank, told):
    """A fact of a rank as a book holds it. The order of these is that of a book: `ran` by its text stands before `swap`."""
    word, value = told
    return (rank, word, compact(value).encode()) if word == "ran" else (rank, word, value)


def facts_of(worlds, first, end, reduces):
    """The facts of the ranks from `first` up to but not `end`."""
    return {noted(rank, fact(worlds, rank, reduces)) for rank in range(first, end)}


def first_without(spec, ranks):
    """The first rank that is not among these, if there is one."""
    first = next(rank for rank in range(len(ranks) + 1) if rank not in ranks)
    return first if first < spec.ranks() else None


def missing(spec, facts):
    """The first rank that has no fact, if there is one."""
    return first_without(spec, {rank for rank, _word, _value in facts})


def leads_to(spec, rank, place):
    """The rank to which an exchange leads; none where there are lines, or where the letters do not fall."""
    if spec.lines is not None:
        return None
    word = word_of(spec, rank)
    falls = place + 1 < len(word) and word[place] > word[place + 1]
    return swapped(spec, rank, place) if falls else None


def values(spec, facts):
    """The outcomes of each rank: those that it was seen to have, and those of the ranks to which its swaps lead."""
    told = {}
    for rank, word, value in sorted(facts, key=lambda one: one[0]):
        told.setdefault(rank, set()).update({value} if word == "ran" else told.get(leads_to(spec, rank, value), set()))
    return told


def least_clash(spec, facts):
    """The first rank with several outcomes, if there is one."""
    return min((rank for rank, told in values(spec, facts).items() if len(told) > 1), default=None)


def gaps(ranks, count):
    """The longest ranges of the numbers below `count` that are none of these: the first of each, and the one behind its last."""
    stops = [-1, *sorted(ranks), count]
    return [(before + 1, stop) for before, stop in zip(stops, stops[1:]) if before + 1 < stop]


def untold(spec, facts):
    """The ranges of ranks of which nothing is told: no outcome is recorded there, nor where their swaps lead."""
    return gaps({rank for rank, told in values(spec, facts).items() if told}, spec.ranks())


def to_run(spec, facts):
    """The ranges of ranks that have no fact."""
    return gaps({rank for rank, _word, _value in facts}, spec.ranks())


def report(spec, facts):
    """The outcome of each rank, as a book has it, or why there is none: the first rank that has not exactly one decides."""
    if spec.ranks() > MOST_RANKS:
        return "too many ranks"
    told = values(spec, facts)
    for rank in range(spec.ranks()):
        found = told.get(rank, set())
        if len(found) != 1:
            return f"clash at rank {rank}" if found else f"missing rank {rank}"
    return [outcome for rank in range(spec.ranks()) for outcome in told[rank]]


def is_true(worlds, rank, word, value):
    """Whether a fact is: an outcome is the one of its rank, a swap any that the rank's word has."""
    return (rank, word, value) == noted(rank, ("ran", worlds.outcome(rank))) if word == "ran" else value in swaps(worlds, rank)


def false_rank(spec, facts):
    """The first rank with a fact that is not true, if there is one. Where the spec does not start, none is."""
    by_rank = sorted(facts, key=lambda one: one[0])
    try:
        worlds = Worlds(spec)
    except Refusal:
        return by_rank[0][0] if facts else None
    return next((one[0] for one in by_rank if not is_true(worlds, *one)), None)


def first_difference(told, other):
    """The first rank at which two reports differ, and there the first session; session 0 where one of them has ended."""
    rank = shared(told, other)
    if rank in (len(told), len(other)):
        return rank, 0
    return rank, shared(json.loads(told[rank]), json.loads(other[rank]))


def ranges(ranks):
    """The longest ranges of which a set of numbers is made: where each begins, and how long it is."""
    firsts = sorted(rank for rank in ranks if rank - 1 not in ranks)
    lasts = sorted(rank for rank in ranks if rank + 1 not in ranks)
    return [(first, last - first + 1) for first, last in zip(firsts, lasts)]


def book_text(text, facts):
    """The one text of a book: each outcome once, by its bytes; each fact with the ranges of ranks that have it."""
    outcomes = sorted({value for _rank, word, value in facts if word == "ran"})
    ranks = {}
    for rank, word, value in facts:
        ranks.setdefault((word, outcomes.index(value) if word == "ran" else value), set()).add(rank)
    runs = sorted((first, *one, count) for one, those in ranks.items() for first, count in ranges(those))
    lines = ",".join(compact([first, count, word, number]) for first, word, number, count in runs)
    told = ",".join(outcome.decode() for outcome in outcomes)
    return f'{{"facts":[{lines}],"format":2,"outcomes":[{told}],"spec":{compact(text.decode())}}}\n'


def as_machine(value):
    """A part of an event as the machine has it, of its value in a book: texts are bytes."""
    return tuple(map(as_machine, value)) if isinstance(value, list) else value.encode() if isinstance(value, str) else value


def event_of(value):
    """An event of its value: its word is a word."""
    return value if isinstance(value, str) else (value[0], *map(as_machine, value[1:]))


def events_of(values):
    return [event_of(value) for value in values]


def session_text(spec, session, values):
    """The text of one session, of the values of its events in a book."""
    lines = [f"session {spec.session_names[session]}".encode(), *(b"  " + printed(spec, event) for event in events_of(values))]
    return b"".join(line + b"\n" for line in lines)


def report_text(spec, facts):
    told = report(spec, facts)
    if isinstance(told, str):
        return f"{told}\n".encode()
    return b"".join(
        f"rank {rank}\n".encode()
        + outcome_text(spec, map(events_of, json.loads(outcome)))
        for rank, outcome in enumerate(told)
    )


def report_values(spec, facts):
    """The report as a program tells it that is compared with this one: for each rank a line with it and its outcome's value."""
    told = report(spec, facts)
    if isinstance(told, str):
        return f"{told}\n".encode()
    return b"".join(f"[{rank},".encode() + outcome + b"]\n" for rank, outcome in enumerate(told))


def answer(text, path, shards, in_words):
    """The exit status, and what stands on the two outputs. Shards are looked at from left to right, and then the start."""
    try:
        spec = bind(read_spec(text))
        for first, end, _how in shards:
            if not first <= end <= spec.ranks():
                return 3, b"", f"isofarm: {path}: shard error 1\n".encode()
            if end - first > MOST_RANKS:
                return 3, b"", f"isofarm: {path}: shard error 2\n".encode()
        worlds = Worlds(spec) if shards else None
    except Refusal as refusal:
        return 3, b"", refusal.line(path)
    facts = set().union(*(facts_of(worlds, first, end, how == "reduce") for first, end, how in shards))
    least = missing(spec, facts)
    told = f"missing {'none' if least is None else least}\n".encode()
    if in_words:
        return 0, book_text(text, facts).encode() + told + report_text(spec, facts), b""
    return 0, told + report_values(spec, facts), b""


def shards_of(words):
    """Shards as they stand on a command line: the first rank, the end, and how."""
    triples = list(zip(words[::3], words[1::3], words[2::3], strict=True))
    if any(how not in ("reduce", "every") for _first, _end, how in triples):
        raise ValueError(words)
    return [(int(first), int(end), how) for first, end, how in triples]


if __name__ == "__main__":
    try:
        spec_path, asked = sys.argv[1], shards_of(sys.argv[2:])
    except (IndexError, ValueError):
        sys.exit(__doc__)
    status, out, error = answer(Path(spec_path).read_bytes(), spec_path, asked, True)
    sys.stdout.buffer.write(out)
    sys.stderr.buffer.write(error)
    sys.exit(status)
