"""Looks for an order that breaks a law of levels, on small specs made from seeds, in which transactions of both levels stand side by side.

usage: python3 crosscheck/level_laws.py FIRST_SEED SEEDS

Each order that clients can send is run where no level is asked for, at READ COMMITTED and at SERIALIZABLE. In each world held modes of different sessions
are compatible, nobody is in a ring, and uncommitted rows lie under exclusive locks of their session. In each world, and where a statement has its effect,
a session holds what the statements of its transaction ask for and nothing else. A statement tells and leaves the same where the uncommitted rows of all
others are taken away. And behind each order: leave out the plain SELECTs of READ COMMITTED transactions; all other statements of the committed
transactions tell what they tell when run one after another in the order of commits, and leave the same rows. So a SERIALIZABLE transaction keeps the
whole promise. The last lines count what was run.
"""

import sys
from collections import Counter
from itertools import combinations

from compare import ended
from generate import Maker
from levels import bind_at
from machine import GO_TOGETHER, LEVELS, READ_COMMITTED, SERIALIZABLE, Fault, World, cover, plan, start
from refusal import Refusal
from schedules import steps_by_session, taken
from spec_file import read_spec
from sql import Begin, Select


# ---- worlds that remember


def told_by(world, session, statement):
    """What a statement tells and leaves, or its fault."""
    try:
        return World.effect(world, session, statement)
    except Fault as fault:
        return fault.event


class Recording(World):
    """Remembers each statement with what it told: those of open transactions by session, and the committed transactions in the order of commits."""

    def __init__(self, spec):
        super().__init__(spec)
        self.open, self.done, self.faults = [()] * len(self.members), (), frozenset()

    def fork(self):
        other = Recording(self.spec)
        vars(other).update(vars(self) | vars(super().fork()) | {"open": [*self.open]})
        return other

    def begin(self, session, statement):
        super().begin(session, statement)
        self.open[session] += ((statement, None),)

    def effect(self, session, statement):
        self.faults |= {*wrong_in_effect(self, session, statement)}
        told = super().effect(session, statement)
        self.open[session] += ((statement, told[0]),)
        return told

    def commit(self, session):
        self.done += (self.open[session],)
        super().commit(session)

    def let_go(self, session):
        super().let_go(session)
        self.open[session] = ()


def worlds_reached(spec):
    """Each world that an order comes to, and whether nothing can be sent behind it."""
    steps, left = steps_by_session(spec), tuple(spec.counts())
    reached = [(start(spec, Recording), left)]
    while reached:
        world, left = reached.pop()
        going = [session for session, number in enumerate(left) if number and not world.is_waiting(session)]
        yield world, not going
        for session in going:
            other = world.fork()
            other.send(steps[session][-left[session]])
            reached.append((other, taken(left, session)))


# ---- what statements ask for, by the text of their transaction


def level_behind(spec, statements):
    """The level of a transaction behind these statements: that of its first BEGIN, or else the one that is asked for."""
    named = next((one.level for one in statements if isinstance(one, Begin)), None)
    if spec.level is None or named is None:
        return spec.level or SERIALIZABLE
    return SERIALIZABLE if named == "serializable" else READ_COMMITTED


def is_free(spec, before, statement):
    """Whether it is a plain SELECT of a READ COMMITTED transaction that has run these statements before."""
    return isinstance(statement, Select) and statement.locks is None and level_behind(spec, before) == READ_COMMITTED


def asking(spec, transaction):
    """The statements of a transaction, with what they told, that are not free."""
    statements = [statement for statement, _events in transaction]
    return [one for place, one in enumerate(transaction) if not is_free(spec, statements[:place], one[0])]


def requests_of(spec, transaction):
    return [request for statement, _events in asking(spec, transaction) for request in plan(spec.tables, statement)]


def holds_these(world, session, requests):
    """Whether a session holds what these requests ask for, and nothing else."""
    locks = {}
    for resource, mode in requests:
        locks[resource] = cover(mode, locks.get(resource, mode))
    return locks == {resource: mode for (holder, resource), mode in world.held.items() if holder == session}


# ---- laws of a world and of a statement


def wrong_in_effect(world, session, statement):
    """Where a statement has its effect."""
    alone = World.fork(world)
    for other, member in enumerate(alone.members):
        member.overlay = member.overlay if other == session else {}
    if told_by(alone, session, statement) != told_by(world, session, statement):
        yield "a statement sees an uncommitted row of another session"
    if not holds_these(world, session, requests_of(world.spec, (*world.open[session], (statement, None)))):
        yield "a statement has its effect with other locks than its transaction asks for"


def wrong_in_locks(world):
    for one, other in combinations(world.held.items(), 2):
        if one[0][0] != other[0][0] and one[0][1] == other[0][1] and one[1] not in GO_TOGETHER[other[1]]:
            yield "held modes are not compatible"
    if any(world.is_in_ring(wait.session) for wait in world.waits):
        yield "those who wait are in a ring"
    for session, member in enumerate(world.members):
        for table, key in member.overlay:
            if "X" not in (world.held.get((session, (table,))), world.held.get((session, (table, key)))):
                yield "an uncommitted row lies under no exclusive lock"


def wrong_in_session(world, session):
    """A session holds what its transaction asked for: all statements that it ran, and of the next one the requests that are had."""
    spec, member, transaction = world.spec, world.members[session], world.open[session]
    due, following = requests_of(spec, transaction), plan(spec.tables, member.rest[0]) if member.rest else []
    if member.rest:
        if is_free(spec, [statement for statement, _events in transaction], member.rest[0]):
            yield "a plain SELECT waits at READ COMMITTED"
        if [(wait.resource, wait.mode) for wait in world.waits if wait.session == session] != [following[member.requests]]:
            yield "a session waits for something else than its next request"
    if not holds_these(world, session, due + following[: member.requests]):
        yield "a session holds other locks than its transaction asks for"


def wrong_in_world(world):
    yield from sorted(world.faults)
    yield from wrong_in_locks(world)
    for session in range(len(world.members)):
        yield from wrong_in_session(world, session)


# ---- the law of an order


def everything(_spec, transaction):
    return transaction


def wrong_in_series(world, counting=asking):
    """The committed transactions, one after another in the order of commits, with the statements that count."""
    alone, session = World(world.spec), len(world.spec.session_names)
    for transaction in world.done:
        for statement, events in counting(world.spec, transaction):
            if isinstance(statement, Begin):
                continue
            told = told_by(alone, session, statement)
            if told[0] != events:
                yield f"{type(statement).__name__} tells something else in the order of commits"
                return
            alone.members[session].overlay |= told[1]
        alone.commit(session)
    if alone.committed != world.committed:
        yield "other rows are left in the order of commits"


# ---- the command


def kinds_of(world):
    """What an order had, in words to be counted."""
    spec = world.spec
    yield "orders"
    if len({level_behind(spec, [statement for statement, _events in one]) for one in world.done}) > 1:
        yield "orders with transactions of both levels"
    if any("waiting" in transcript for transcript in world.outcome()):
        yield "orders with a wait"
    if any(len(asking(spec, one)) < len(one) for one in world.done):
        yield "orders with a SELECT that is left out"
    if [*wrong_in_series(world, everything)]:
        yield "orders with a SELECT that has to be left out"


def wrong_in_spec(spec, counts):
    """What is wrong with a spec, each once."""
    found, name = {}, spec.level or "no level"
    for world, is_last in worlds_reached(spec):
        counts[f"{name}: worlds"] += 1
        found |= dict.fromkeys(wrong_in_world(world))
        if is_last:
            found |= dict.fromkeys(wrong_in_series(world))
            counts.update(f"{name}: {kind}" for kind in kinds_of(world))
    return found


def main(first, seeds):
    counts, faults = Counter(), 0
    for seed in range(first, first + seeds):
        text = Maker(seed).levelled_spec()
        try:
            specs = [bind_at(text, read_spec(text), level) for level in (None, *LEVELS)]
            found = [(spec.level or "no level", wrong) for spec in specs for wrong in wrong_in_spec(spec, counts)]
        except Refusal:
            counts["refused"] += 1
            continue
        counts["specs"] += 1
        faults += len(found)
        print("".join(f"seed {seed}, {level}: {wrong}\n" for level, wrong in found), end="", flush=True)
    print(f"{counts['specs']} specs, {faults} faults of the laws")
    for word, count in sorted(counts.items()):
        print(f"  {count:7} {word}")
    return 1 if faults else 0


if __name__ == "__main__":
    if len(sys.argv) != 3:
        sys.exit(__doc__)
    sys.exit(ended(main, int(sys.argv[1]), int(sys.argv[2])))
