"""The orders of a spec that clients can send, and all of its permutations, counted in two ways that are apart from each other.

usage: python3 crosscheck/schedules.py SPEC [--all-orders] [--one-by-one]

A *schedule* is a list of steps in which the steps of each session come in their order and each is sent while its session does not wait, and which
cannot be longer: behind it each session has ended its steps, or waits. Its rank is the least rank of a permutation that begins with it. A permutation
has all steps, and a step that comes while its session waits is not sent. Of a file with permutation lines the orders are these lines, in either way.

`one_by_one` goes through all permutations in the order of their ranks. `by_layers` goes from the states behind N steps to those behind one more, and
knows of each state how many orders lead to it and the least rank of a permutation that begins with one of them. Both tell of each ending how many
orders have it, and the least rank. The last line printed counts what was gone through.
"""

import sys
import time
from dataclasses import dataclass, field
from functools import cached_property
from pathlib import Path

from binding import bind, words
from facts import shared
from machine import DEADLOCK, DUPLICATE, OUT_OF_RANGE, UNAVAILABLE, World, start
from moments import WAITS, rows_left, standing_of
from refusal import Refusal
from shown import word_of
from spec_file import read_spec

ALL_ORDERS, ONE_BY_ONE = "--all-orders", "--one-by-one"
# The words of events that belong to the result of an order.
OF_RESULTS = {"row", "rows", "inserted", "updated", "deleted", "failed"}
OTHER_ERRORS = {DUPLICATE, OUT_OF_RANGE, UNAVAILABLE}


# ---- how an order ends


@dataclass(frozen=True)
class Ending:
    """What an order has behind its last step: the transcript of each session, the final rows of each table, and how each session stands."""

    transcripts: tuple
    final_rows: tuple
    standing: tuple

    @cached_property
    def result(self):
        """Of each session the rows, counts and errors, and the final rows."""
        return tuple(tuple(event for event in events if word_of(event) in OF_RESULTS) for events in self.transcripts), self.final_rows

    @cached_property
    def letters(self):
        """The letters but for R, which depends on the serial orders too."""
        events = {event for transcript in self.transcripts for event in transcript}
        has = {
            "W": "waiting" in events,
            "D": DEADLOCK in events,
            "E": not events.isdisjoint(OTHER_ERRORS),
            "N": "notsent" in map(word_of, events),
            "S": WAITS in self.standing,
        }
        return {letter for letter, is_so in has.items() if is_so}

    def is_anomaly(self, serial_results):
        """Whether every session is through, each of its steps sent and none an error of its own, and no serial order has this result."""
        return self.letters.isdisjoint("DENS") and self.result not in serial_results

    def steps(self):
        """How many steps were sent or dropped."""
        return sum(word_of(event) in ("sent", "notsent") for transcript in self.transcripts for event in transcript)


def ending_of(world):
    rows = tuple((name, tuple(map(tuple, rows))) for name, rows in rows_left(world))
    sessions = range(len(world.spec.session_names))
    return Ending(tuple(map(tuple, world.outcome())), rows, tuple(standing_of(world, session) for session in sessions))


@dataclass
class Counted:
    """Orders: how many, and the least rank."""

    orders: int
    first_rank: int

    def join(self, other):
        """Adds other orders to these."""
        self.orders += other.orders
        self.first_rank = min(self.first_rank, other.first_rank)


def in_order(endings):
    """Endings with what is counted of them, by their least ranks."""
    return dict(sorted(endings.items(), key=lambda entry: entry[1].first_rank))


# ---- one by one


def lines_run(spec):
    """The steps of each rank, with the worlds before the first of them and behind each. A world is made once for the lines that share the steps."""
    worlds, before = [start(spec)], []
    for rank in range(spec.ranks()):
        line = spec.line(rank)
        common = shared(before, line)
        del worlds[common + 1 :]
        for step in line[common:]:
            worlds.append(worlds[-1].fork())
            worlds[-1].send(step)
        yield line, worlds
        before = line


def is_dropped(world, step):
    return world.is_waiting(world.spec.steps[step][0])


def length_sent(line, worlds):
    """How many steps of a line are sent before one is dropped."""
    return next((place for place, step in enumerate(line) if is_dropped(worlds[place], step)), len(line))


def is_schedule(line, worlds, length):
    """Whether nothing can be sent behind so many steps of a line, each of which is sent: all that is left is of sessions that wait."""
    return all(is_dropped(worlds[length], step) for step in line[length:])


def one_by_one(spec, all_orders):
    """Of each ending how many orders have it, and the least rank: every permutation is run, and a schedule counts at the first one that has it."""
    endings, seen = {}, set()
    for rank, (line, worlds) in enumerate(lines_run(spec)):
        length = len(line) if all_orders or spec.lines is not None else length_sent(line, worlds)
        order = rank if spec.lines is not None else (*line[:length],)
        if is_schedule(line, worlds, length) and order not in seen:
            seen.add(order)
            endings.setdefault(ending_of(worlds[length]), Counted(0, rank)).orders += 1
    return endings


# ---- by ranks


def ending_at(spec, rank):
    """How the order of a rank ends."""
    world = start(spec)
    for step in spec.line(rank):
        world.send(step)
    return ending_of(world)


def by_ranks(spec, ranks):
    """Of each ending how many of these ranks have it, and the least of them."""
    endings = {}
    for rank in ranks:
        endings.setdefault(ending_at(spec, rank), Counted(0, rank)).orders += 1
    return endings


# ---- by layers


def member_key(member):
    """What makes a session of a world the one that it is. What is left of its step is the end of the step that it was sent last."""
    overlay = frozenset((place, row and tuple(row)) for place, row in member.overlay.items())
    return member.status, member.level, overlay, len(member.rest), member.requests, tuple(member.transcript)


class Keys:
    """Keys of states: equal where the worlds and the steps left are. Committed rows are never changed in place, so their key is made once."""

    def __init__(self):
        self.of_rows = {}

    def rows_key(self, committed):
        """The dictionary is kept with its key, so that no other one is ever at its place."""
        if id(committed) not in self.of_rows:
            self.of_rows[id(committed)] = frozenset((place, tuple(row)) for place, row in committed.items()), committed
        return self.of_rows[id(committed)][0]

    def key(self, world, left):
        members = tuple(map(member_key, world.members))
        waits = tuple((wait.session, wait.resource, wait.mode) for wait in world.waits)
        return left, members, self.rows_key(world.committed), frozenset(world.held.items()), waits


@dataclass
class State:
    """A world, how many steps each session has left, and of the orders that lead there how many, and the least rank of what begins with one."""

    world: World
    left: tuple
    counted: Counted


@dataclass
class Layers:
    """What was gone through: endings, and how many states, steps between them, and states behind which nothing can be sent."""

    endings: dict = field(default_factory=dict)
    states: int = 0
    steps: int = 0
    last_states: int = 0

    def add(self, ending, counted):
        """Adds the orders that lead to one of the states that have this ending."""
        self.last_states += 1
        if ending in self.endings:
            self.endings[ending].join(counted)
        else:
            self.endings[ending] = counted


def taken(left, session):
    return left[:session] + (left[session] - 1,) + left[session + 1 :]


def ranks_before(left, session):
    """How many permutations of the steps left begin with a step of a session before this one."""
    return sum(words(taken(left, lesser)) for lesser in range(session) if left[lesser])


def steps_by_session(spec):
    return [[step for step, (owner, _statements) in enumerate(spec.steps) if owner == session] for session in range(len(spec.session_names))]


def open_sessions(state, all_orders):
    """The sessions whose next step may come."""
    return [session for session, left in enumerate(state.left) if left and (all_orders or not state.world.is_waiting(session))]


def next_layer(spec, layer, keys, all_orders, layers):
    """The states one step behind these. Endings of those that have none are noted."""
    following, steps = {}, steps_by_session(spec)
    for state in layer.values():
        sessions = open_sessions(state, all_orders)
        if not sessions:
            layers.add(ending_of(state.world), state.counted)
        for session in sessions:
            world, left = state.world.fork(), taken(state.left, session)
            world.send(steps[session][-state.left[session]])
            rank = state.counted.first_rank + ranks_before(state.left, session)
            key = keys.key(world, left)
            counted = Counted(state.counted.orders, rank)
            if key in following:
                following[key].counted.join(counted)
            else:
                following[key] = State(world, left, counted)
        layers.steps += len(sessions)
    layers.states += len(layer)
    return following


def layers_of(spec, all_orders):
    """All states of a spec without permutation lines, layer by layer."""
    layers, left = Layers(), tuple(spec.counts())
    layer = {None: State(start(spec), left, Counted(1, 0))}
    while layer:
        layer = next_layer(spec, layer, Keys(), all_orders, layers)
    return layers


def by_layers(spec, all_orders):
    """Of each ending how many orders have it, and the least rank."""
    return layers_of(spec, all_orders).endings


# ---- serial orders


def serial_results_one_by_one(spec):
    """The results of the permutations in which the steps of each session stand one behind the other."""
    results = set()
    for line, worlds in lines_run(spec):
        sessions = [spec.steps[step][0] for step in line]
        if all(sessions[place] == session or session not in sessions[place:] for place, session in enumerate(sessions[:-1], 1)):
            results.add(ending_of(worlds[-1]).result)
    return results


def serial_results(spec):
    """The results of the serial orders: one whole session after another, from the states behind some whole sessions to those behind one more."""
    steps, keys = steps_by_session(spec), Keys()
    layer = {None: (start(spec), frozenset(range(len(steps))))}
    for _session in steps:
        following = {}
        for world, sessions in layer.values():
            for session in sessions:
                other, left = world.fork(), sessions - {session}
                for step in steps[session]:
                    other.send(step)
                following[keys.key(other, left)] = other, left
        layer = following
    return {ending_of(world).result for world, _sessions in layer.values()}


# ---- the command


def main(path, *flags):
    all_orders = ALL_ORDERS in flags
    try:
        spec = bind(read_spec(Path(path).read_bytes()))
        begun = time.perf_counter()
        layers = Layers(one_by_one(spec, all_orders)) if ONE_BY_ONE in flags else layers_of(spec, all_orders)
    except Refusal as refusal:
        sys.exit(refusal.line(path).decode())
    for ending, counted in in_order(layers.endings).items():
        names = [spec.step_names[step] for step in spec.line(counted.first_rank)[: ending.steps()]]
        print(f"{counted.orders:>20} {''.join(sorted(ending.letters)):5} {counted.first_rank:>20}  {' '.join(names)}")
    orders = sum(counted.orders for counted in layers.endings.values())
    seconds = time.perf_counter() - begun
    print(f"{orders} orders in {len(layers.endings)} classes, {seconds:.1f} seconds")
    print(f"{layers.states} states, {layers.last_states} of them last ones, {layers.steps} steps")


if __name__ == "__main__":
    if len(sys.argv) < 2:
        sys.exit(__doc__)
    main(*sys.argv[1:])
