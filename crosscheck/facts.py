"""Facts: a rank is told by its outcome, or by an exchange of two quiet steps that leads to an earlier rank with the same one.

usage: python3 crosscheck/facts.py SPEC FIRST END reduce|every|sent

Prints the facts of the ranks from FIRST up to but not END, each on a line of its own, as a book holds it: `[RANK,"swap",K]`
or `[RANK,"ran",OUTCOME]`, JSON without spaces, OUTCOME the value of the rank's outcome. With `reduce` a rank that has a swap
is told by its first one; with `every` all are run. With `sent` one line has the number of steps that are sent for these
ranks when all are run, each from where its line parts from the one before.
"""

import json
import sys
from itertools import groupby, takewhile
from pathlib import Path

from binding import bind, words
from machine import GO_TOGETHER, plan, start
from refusal import Refusal
from spec_file import read_spec

MOST_RANKS = 1_000_000

def asked(spec, step):
    """The requests of all statements of a step, from its text alone."""
    return [request for statement in spec.steps[step][1] for request in plan(spec.tables, statement)]


def go_with_held(world, session, requests):
    """Whether each mode asked goes with every mode that another session holds there."""
    return all(
        held in GO_TOGETHER[mode]
        for resource, mode in requests
        for (holder, place), held in world.held.items()
        if place == resource and holder != session
    )


def go_together(requests, others):
    """Whether each mode asked goes with every other mode that is asked there."""
    return all(
        mode in GO_TOGETHER[other]
        for resource, mode in requests
        for place, other in others
        if place == resource
    )


def are_quiet(world, step, other):
    """Whether two steps are quiet: none of their requests hinders or is hindered, and nobody waits near them."""
    sessions = [world.spec.steps[one][0] for one in (step, other)]
    requests = [asked(world.spec, one) for one in (step, other)]
    if sessions[0] == sessions[1] or any(world.is_waiting(session) for session in sessions):
        return False
    if not all(go_with_held(world, *one) for one in zip(sessions, requests)) or not go_together(*requests):
        return False
    near = {resource for session, resource in world.held if session in sessions}
    near |= {resource for resource, _mode in requests[0] + requests[1]}
    return all(wait.resource not in near for wait in world.waits)


class Worlds:
    """The world after each front of a line that was asked for, made once of the world one step before it."""

    def __init__(self, spec):
        self.spec = spec
        self.known = {(): start(spec)}

    def after(self, front):
        front = tuple(front)
        if front not in self.known:
            world = self.after(front[:-1]).fork()
            world.send(front[-1])
            self.known[front] = world
        return self.known[front]

    def outcome(self, rank):
        return self.after(self.spec.line(rank)).outcome()


def word_of(spec, rank):
    """The sessions of a rank's steps."""
    return [spec.steps[step][0] for step in spec.line(rank)]


def ranks_with(spec, front):
    """The ranks of all words that begin with these letters."""
    left, first = spec.counts(), 0
    for letter in front:
        for lesser in range(letter):
            if left[lesser]:
                first += words([count - (session == lesser) for session, count in enumerate(left)])
        left[letter] -= 1
    return range(first, first + words(left))


def swaps(worlds, rank):
    """The places at which the letters of a rank's word fall and their steps are quiet after the letters before them."""
    if worlds.spec.lines is not None:
        return
    line, word = worlds.spec.line(rank), word_of(worlds.spec, rank)
    for place in range(len(line) - 1):
        falls = word[place] > word[place + 1]
        if falls and are_quiet(worlds.after(line[:place]), line[place], line[place + 1]):
            yield place


def swapped(spec, rank, place):
    """The rank of the word with the letters at a place and behind it exchanged."""
    word = word_of(spec, rank)
    word[place], word[place + 1] = word[place + 1], word[place]
    return ranks_with(spec, word).start


def swap_covers(spec, rank, place):
    """The ranks that have a swap at a place because this one has it: those with the same letters up to both exchanged."""
    return ranks_with(spec, word_of(spec, rank)[: place + 2])


def fact(worlds, rank, reduces):
    place = next(swaps(worlds, rank), None) if reduces else None
    return ("ran", worlds.outcome(rank)) if place is None else ("swap", place)


def runs(facts):
    """Neighbouring ranks of one fact: the first of them, how many they are, and the fact. `facts` begin at a rank."""
    return [
        (entries[0][0], len(entries), one)
        for one, group in groupby(facts, lambda entry: entry[1])
        if (entries := list(group))
    ]


def shared(one, other):
    """How many entries two lists have in common before they part."""
    return len(list(takewhile(lambda pair: pair[0] == pair[1], zip(one, other))))


def sent(spec, ranks):
    """How many steps are sent for ranks in order, where each goes on from what its line shares with the one before."""
    number, before = 0, []
    for rank in ranks:
        line = spec.line(rank)
        number, before = number + len(line) - shared(before, line), line
    return number


def fact_line(rank, told):
    return json.dumps([rank, *told], separators=(",", ":"), ensure_ascii=False, default=bytes.decode)


def answer(text, path, first, end, mode):
    """The exit status, and what stands on the two outputs."""
    try:
        spec = bind(read_spec(text))
        if not first <= end <= spec.ranks():
            return 3, b"", f"isofarm: {path}: shard error 1\n".encode()
        if end - first > MOST_RANKS:
            return 3, b"", f"isofarm: {path}: shard error 2\n".encode()
        worlds = Worlds(spec)
    except Refusal as refusal:
        return 3, b"", refusal.line(path)
    ranks = range(first, end)
    if mode == "sent":
        lines = [f"{sent(spec, ranks)}"]
    else:
        lines = [fact_line(rank, fact(worlds, rank, mode == "reduce")) for rank in ranks]
    return 0, "".join(f"{line}\n" for line in lines).encode(), b""


if __name__ == "__main__":
    if len(sys.argv) != 5 or sys.argv[4] not in ("reduce", "every", "sent"):
        sys.exit(__doc__)
    spec_path, mode_word = sys.argv[1], sys.argv[4]
    status, out, error = answer(Path(spec_path).read_bytes(), spec_path, int(sys.argv[2]), int(sys.argv[3]), mode_word)
    sys.stdout.buffer.write(out)
    sys.stderr.buffer.write(error)
    sys.exit(status)
