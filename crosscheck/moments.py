"""The moments of one order on the machine: each time a session goes, from where its step is sent or goes on up to where it ends or has to wait,
and each step that is not sent. With them stands what the setups left, what is left behind the last step, and how the sessions stand then.

The machine is that of `machine.py`. Here it is led from moment to moment, and looked at before and behind each.
"""

from dataclasses import dataclass

from machine import DEADLOCK, FAILED_BLOCK, IN_BLOCK, OUTSIDE, UNAVAILABLE, Fault, Wait, World, start
from sql import Select

SENT, RESUMED, NOT_SENT = "sent", "resumed", "notsent"
HOLDS, AHEAD = "holds", "ahead"
STATUSES = {OUTSIDE: "out", IN_BLOCK: "in", FAILED_BLOCK: "failed"}
WAITS = "waits"


@dataclass(frozen=True)
class Edge:
    """Why a session is waited for: it holds this mode there, or its wait, which wants this mode, is ahead."""

    session: int
    why: str
    mode: str


@dataclass
class Want:
    """What a request wants at a resource and asks for, what its session has there, and each reason why it is not had."""

    resource: tuple
    wants: str
    asks: str
    has: str | None
    edges: list


@dataclass
class Hop:
    """What a session of a ring wants, and why the next one is in its way."""

    session: int
    wants: str
    resource: tuple
    edge: Edge


@dataclass
class Read:
    """A SELECT that a session's open transaction has done, with its step and what it told."""

    step: int
    select: Select
    told: list


@dataclass
class Stale:
    """A read of this session and step that tells something else since a commit."""

    session: int
    step: int
    told: list
    told_now: list


@dataclass
class Moment:
    session: int
    kind: str
    step: int | None
    events: list
    changes: list  # a resource with the mode that is held there now, or None where all is let go
    status: str
    want: Want | None
    ring: list | None
    lacks: Want | None
    still: list  # sessions, each with its edges
    stale: list


@dataclass
class Shown:
    """An order: how each session begins, with its locks; rows of each table as they are first and last; what each session is left in, and
    what it wants where it waits. For those who look whether all of it is so, worlds and scenes stand beside it."""

    begun: list
    first: list
    moments: list
    left: list
    standing: list
    wants: list
    worlds: list  # before the first moment, and behind each
    scenes: list  # of each moment the world in which a request was refused, with a wait for that behind all others, or None


# ---- what is asked of a world


def wait_of(world, session):
    return next((wait for wait in world.waits if wait.session == session), None)


def edges_of(world, wait):
    """Each reason of a wait, by the sessions; what one holds stands before its wait."""
    edges = []
    hindering, ahead = world.hindering(wait), world.ahead(wait)
    for session in range(len(world.members)):
        if session in hindering:
            edges.append(Edge(session, HOLDS, world.held[session, wait.resource]))
        if session in ahead:
            edges.append(Edge(session, AHEAD, world.wanted(wait_of(world, session))))
    return edges


def want_of(world, wait):
    has = world.held.get((wait.session, wait.resource))
    return Want(wait.resource, world.wanted(wait), wait.mode, has, edges_of(world, wait))


def reasons(world):
    """The reasons of each session that waits."""
    return {wait.session: edges_of(world, wait) for wait in world.waits}


def steps_to(world, end):
    """How many edges lead at least from each session to this one, along one or more of them."""
    sessions = range(len(world.members))
    far, number = {session: 1 for session in sessions if end in world.waits_for(session)}, 1
    while new := [one for one in sessions if one not in far and any(far.get(to) == number for to in world.waits_for(one))]:
        number += 1
        far |= dict.fromkeys(new, number)
    return far


def ring_of(world, session):
    """The sessions of the ring that is told: of the shortest ones from the session back to it, the least by its sessions in their order."""
    far, ring = steps_to(world, session), [session]
    for left in range(far[session] - 1, 0, -1):
        ring.append(min(to for to in world.waits_for(ring[-1]) if far.get(to) == left))
    return ring


def hops_of(world, ring):
    for one, to in zip(ring, ring[1:] + ring[:1]):
        want = want_of(world, wait_of(world, one))
        yield Hop(one, want.wants, want.resource, next(edge for edge in want.edges if edge.session == to))


def place_order(spec):
    """What resources are sorted by: the number of the table, which comes before its rows, and those by their keys."""
    names = list(spec.tables)
    return lambda resource: (names.index(resource[0]), resource[1:])


def locks_of(world, session):
    held = [(resource, mode) for (holder, resource), mode in world.held.items() if holder == session]
    key = place_order(world.spec)
    return sorted(held, key=lambda lock: key(lock[0]))


def rows_left(world):
    """Each declared table with its committed rows, by their keys or their hidden numbers."""
    return [
        (name, [row for _key, row in sorted((place[1], row) for place, row in world.committed.items() if place[0] == name)])
        for name in world.spec.tables
    ]


def standing_of(world, session):
    return WAITS if world.is_waiting(session) else STATUSES[world.members[session].status]


def last_sent(transcript):
    return next((event[1] for event in reversed(transcript) if event[0] == "sent"), None)


def told_again(world, session, select):
    """What a SELECT tells of the committed rows with the session's own writes over them, and nothing where it fails."""
    try:
        return World.effect(world, session, select)[0]
    except Fault:
        return []


# ---- the machine, from moment to moment


class Noting(World):
    """A world that notes, while a session goes, what becomes of its locks and why a request of it is refused. It keeps what each open transaction has
    read; what a setup read is of no step, and is not kept."""

    def __init__(self, spec):
        super().__init__(spec)
        vars(self).update(vars(start(spec)))
        self.changes, self.ring, self.lacks, self.scene = [], None, None, None
        self.reads = [[] for _ in self.members]

    def hold(self, wait):
        super().hold(wait)
        self.changes.append((wait.resource, self.held[wait.session, wait.resource]))

    def let_go(self, session):
        if locks_of(self, session):
            self.changes.append(None)
        self.reads[session] = []
        super().let_go(session)

    def effect(self, session, statement):
        events, overlay = super().effect(session, statement)
        if isinstance(statement, Select):
            self.reads[session].append(Read(last_sent(self.members[session].transcript), statement, events))
        return events, overlay

    def others_read(self, session):
        """Of each read of the other sessions what it would tell now."""
        return [
            Stale(other, read.step, read.told, told_again(self, other, read.select))
            for other, reads in enumerate(self.reads)
            if other != session
            for read in reads
        ]

    def fail(self, session, event):
        """Looks at a request that is refused as if it had waited, behind all others."""
        if event in (DEADLOCK, UNAVAILABLE):
            member = self.members[session]
            wait = Wait(session, *self.asked(member)[member.requests])
            self.waits.append(wait)
            if event == DEADLOCK:
                self.ring = list(hops_of(self, ring_of(self, session)))
            else:
                self.lacks = want_of(self, wait)
            self.scene = self.fork()
            self.waits.pop()
        super().fail(session, event)

    def forget(self):
        self.changes, self.ring, self.lacks, self.scene = [], None, None, None


def moment(world, session, kind, step, going):
    """What a session does, the world before it being this one."""
    before, read, told = reasons(world), world.others_read(session), len(world.members[session].transcript)
    world.forget()
    going()
    member, wait, now = world.members[session], wait_of(world, session), reasons(world)
    return Moment(
        session,
        kind,
        step,
        member.transcript[told:],
        world.changes,
        STATUSES[member.status],
        want_of(world, wait) if wait else None,
        world.ring,
        world.lacks,
        [(one, now[one]) for one in sorted(now) if one != session and now[one] and now[one] != before.get(one)],
        [one for one, was in zip(world.others_read(session), read, strict=True) if one.told_now not in (was.told_now, one.told)],
    )


def sending(world, step):
    session, statements = world.spec.steps[step]
    member = world.members[session]
    member.transcript.append(("sent", step))
    member.rest = statements
    world.go(session)


def granting(world, wait):
    world.hold(wait)
    world.waits = [other for other in world.waits if other is not wait]
    member = world.members[wait.session]
    member.transcript.append("resumed")
    member.requests += 1
    world.go(wait.session)


def moments_of(world, step):
    """The moments of a step, each when it is over."""
    session = world.spec.steps[step][0]
    if world.is_waiting(session):
        transcript = world.members[session].transcript
        yield moment(world, session, NOT_SENT, step, lambda: transcript.append(("notsent", step)))
        return
    yield moment(world, session, SENT, step, lambda: sending(world, step))
    while ripe := next((wait for wait in world.waits if world.is_ripe(wait)), None):
        last = last_sent(world.members[ripe.session].transcript)
        yield moment(world, ripe.session, RESUMED, last, lambda wait=ripe: granting(world, wait))


def shown(spec, line):
    """What is shown of a line of steps. Raises a Refusal where the spec does not start."""
    world = Noting(spec)
    sessions = range(len(spec.session_names))
    begun = [(STATUSES[world.members[session].status], locks_of(world, session)) for session in sessions]
    first, moments, worlds, scenes = rows_left(world), [], [world.fork()], []
    for step in line:
        for one in moments_of(world, step):
            moments.append(one)
            worlds.append(world.fork())
            scenes.append(world.scene)
    standing = [standing_of(world, session) for session in sessions]
    waits = [wait_of(world, session) for session in sessions]
    return Shown(begun, first, moments, rows_left(world), standing, [wait and want_of(world, wait) for wait in waits], worlds, scenes)
