"""Looks for a swap that changes something, on specs made from seeds.

usage: python3 crosscheck/laws.py KIND FIRST_SEED SEEDS

Of up to twenty ranks of each spec, and of each swap of each of these ranks: it leads to an earlier rank with the same outcome;
the other ranks that share the letters up to both exchanged have it too, and are a range; both orders of its steps give equal
worlds, and nobody starts to wait, goes on, is passed over or is refused a lock. From each rank the facts lead to a rank that is run,
with the outcome of the first one run alone. Where all ranks are run, as many steps are sent as their words have different fronts.
"""

import sys
from collections import Counter
from random import Random

from binding import bind
from compare import WORDS, ended, usage
from facts import Worlds, fact, ranks_with, sent, swap_covers, swapped, swaps, word_of
from generate import KINDS, Maker
from machine import DEADLOCK, FAILED_BLOCK, OUTSIDE, UNAVAILABLE, outcome, outcome_text, refuses_to_wait
from refusal import Refusal
from spec_file import read_spec
from sql import Select

RANKS_A_SPEC = 20
RANKS_A_SWAP = 5
ALL_RANKS = 300


def some(random, numbers, most):
    return sorted(random.sample(numbers, min(most, len(numbers))))


def parts(world):
    return world.committed, world.members, world.held, world.waits


def new_events(world, later):
    """All events that are new in a later world."""
    return [event for old, new in zip(world.members, later.members) for event in new.transcript[len(old.transcript) :]]


def words_of(events):
    return [event if isinstance(event, str) else event[0] for event in events]


def shown_of_swap(worlds, rank, place):
    """What a swap is about, in words to be counted."""
    line = worlds.spec.line(rank)
    world = worlds.after(line[:place])
    sessions = [worlds.spec.steps[step][0] for step in line[place : place + 2]]
    statuses = [world.members[session].status for session in sessions]
    yield "swaps"
    if world.waits:
        yield "swaps beside a wait"
    if world.held:
        yield "swaps beside locks"
    if FAILED_BLOCK in statuses:
        yield "swaps of a step in a failed block"
    if statuses == [OUTSIDE, OUTSIDE]:
        yield "swaps outside blocks"
    statements = [statement for step in line[place : place + 2] for statement in worlds.spec.steps[step][1]]
    if any(isinstance(statement, Select) and statement.locks for statement in statements):
        yield "swaps of a step that locks rows for a SELECT"
    if any(map(refuses_to_wait, statements)):
        yield "swaps of a step that refuses to wait"
    told = words_of(new_events(world, worlds.after(line[: place + 2])))
    if "failed" in told:
        yield "swaps of a step that fails"
    if "committed" in told:
        yield "swaps of a step that commits"
    if sum(word in ("inserted", "updated", "deleted") for word in told) > 1:
        yield "swaps of steps with two writes"


def wrong_in_swap(worlds, rank, place, random):
    """What is wrong with a swap."""
    spec, line = worlds.spec, worlds.spec.line(rank)
    lower = swapped(spec, rank, place)
    if lower >= rank:
        yield f"leads to rank {lower}"
    if worlds.outcome(lower) != worlds.outcome(rank):
        yield f"changes the outcome, at rank {lower}"
    before = worlds.after(line[:place])
    after, other = (worlds.after(one) for one in (line[: place + 2], spec.line(lower)[: place + 2]))
    if parts(after) != parts(other):
        yield "gives another world"
    events = new_events(before, after)
    if any(word in ("waiting", "resumed", "notsent") for word in words_of(events)):
        yield "is of steps that wait"
    if DEADLOCK in events or UNAVAILABLE in events:
        yield "is of steps that are refused a lock"
    covered, front = swap_covers(spec, rank, place), word_of(spec, rank)[: place + 2]
    is_first = fact(worlds, rank, True) == ("swap", place)
    for near in some(random, covered, RANKS_A_SWAP) + [covered.start, covered.stop - 1]:
        if word_of(spec, near)[: place + 2] != front or place not in swaps(worlds, near):
            yield f"is none of rank {near}"
        if is_first and fact(worlds, near, True) != ("swap", place):
            yield f"is not the fact of rank {near}"
    for far in (covered.start - 1, covered.stop):
        if 0 <= far < spec.ranks() and word_of(spec, far)[: place + 2] == front:
            yield f"is one of rank {far}"


def end_of(worlds, rank):
    """The outcome to which the facts lead."""
    word, value = fact(worlds, rank, True)
    return value if word == "ran" else end_of(worlds, swapped(worlds.spec, rank, value))


def wrong_in_rank(worlds, rank, counts, random):
    spec = worlds.spec
    alone = outcome(spec, rank)
    told = outcome_text(spec, alone)
    found = list(swaps(worlds, rank))
    kind = "with" if found else "without"
    counts.update([f"ranks {kind} a swap"] + [f"ranks {kind} a swap: {word}" for word in WORDS if word.encode() in told])
    if spec.lines is None and ranks_with(spec, word_of(spec, rank)) != range(rank, rank + 1):
        yield "is not the rank of its word"
    if worlds.outcome(rank) != alone:
        yield "has another outcome where fronts are shared"
    if end_of(worlds, rank) != alone:
        yield "is led to another outcome"
    for place in found:
        counts.update(shown_of_swap(worlds, rank, place))
        yield from (f"swap at {place} {wrong}" for wrong in wrong_in_swap(worlds, rank, place, random))


def wrong_in_spec(worlds, counts, random):
    spec = worlds.spec
    counts.update(["specs"] + ["specs with lines"] * (spec.lines is not None))
    counts.update(["specs with a table without a key"] * any(table.key is None for table in spec.tables.values()))
    for rank in some(random, range(spec.ranks()), RANKS_A_SPEC):
        yield from (f"rank {rank}: {wrong}" for wrong in wrong_in_rank(worlds, rank, counts, random))
    if spec.lines is None and spec.ranks() <= ALL_RANKS:
        fronts = {tuple(spec.line(rank)[:length]) for rank in range(spec.ranks()) for length in range(1, len(spec.steps) + 1)}
        if sent(spec, range(spec.ranks())) != len(fronts):
            yield f"{sent(spec, range(spec.ranks()))} steps are sent for {len(fronts)} fronts"


def main(kind, first, seeds):
    counts, found = Counter(), 0
    for seed in range(first, first + seeds):
        try:
            worlds = Worlds(bind(read_spec(KINDS[kind](Maker(seed)))))
        except Refusal:
            counts.update(["refused"])
            continue
        for wrong in wrong_in_spec(worlds, counts, Random(seed)):
            found += 1
            print(f"seed {seed}: {wrong}")
    print(f"{found} faults of the laws in {seeds} texts")
    for word, count in sorted(counts.items()):
        print(f"  {count:7} {word}")
    return 1 if found else 0


if __name__ == "__main__":
    if len(sys.argv) != 4 or sys.argv[1] not in KINDS:
        usage(__doc__)
    sys.exit(ended(main, sys.argv[1], int(sys.argv[2]), int(sys.argv[3])))
