"""The machine: sessions run their steps over tables under strict two-phase locking. At READ COMMITTED a plain SELECT asks for no lock.

The rules are followed word by word. Everything is looked up in plain lists and maps, and nothing is kept to be fast.
"""

from dataclasses import dataclass, field, replace

from refusal import Refusal
from sql import LEAST, MOST, All, Any, Begin, Column, Compare, Create, Delete, End, Insert, Lock, Not, Select, Set, Sum, Update

SETUP_FAILED, SESSION_SETUP_FAILED, SESSION_SETUP_WAITS = 1, 2, 3
MODES = ["IS", "IX", "S", "SIX", "X"]
# what a mode is at least as strong as
COVERED = {"IS": {"IS"}, "IX": {"IS", "IX"}, "S": {"IS", "S"}, "SIX": {"IS", "IX", "S", "SIX"}, "X": set(MODES)}
GO_TOGETHER = {
    "IS": {"IS", "IX", "S", "SIX"},
    "IX": {"IS", "IX"},
    "S": {"IS", "S"},
    "SIX": {"IS"},
    "X": set(),
}
DUPLICATE, OUT_OF_RANGE, DEADLOCK, ABORTED, UNAVAILABLE = FAULTS = [("failed", number) for number in range(1, 6)]
IN_BLOCK_ALREADY, NO_BLOCK = ("warned", 1), ("warned", 2)
# An event is a word, or a word and a number or the values of a row, as in the value of an outcome. The lines of some:
LINES = {
    "began": "begun",
    "rolledback": "rolled back",
    DUPLICATE: "error: duplicate key",
    OUT_OF_RANGE: "error: integer out of range",
    DEADLOCK: "error: deadlock",
    ABORTED: "error: transaction is aborted",
    UNAVAILABLE: "error: lock not available",
    IN_BLOCK_ALREADY: "warning: already in a transaction block",
    NO_BLOCK: "warning: no transaction block",
}
OUTSIDE, IN_BLOCK, FAILED_BLOCK = "outside", "in a block", "in a failed block"
LEVELS = [READ_COMMITTED, SERIALIZABLE] = ["read-committed", "serializable"]
# The levels by the first word that a BEGIN has of them.
NAMED_LEVELS = {"read": READ_COMMITTED, "serializable": SERIALIZABLE}


@dataclass
class Fault(Exception):
    """Why a statement has no effect: the event that tells it."""

    event: tuple


def cover(one, other):
    """The weakest mode that is at least as strong as both."""
    both = COVERED[one] | COVERED[other]
    return next(mode for mode in MODES if both <= COVERED[mode])


@dataclass
class Wait:
    session: int
    resource: tuple
    mode: str


@dataclass
class Member:
    """A session of a world, with its transaction's level. What is left of its step: the statements, and how many requests of the first are had."""

    level: str
    overlay: dict = field(default_factory=dict)
    status: str = OUTSIDE
    rest: list = field(default_factory=list)
    requests: int = 0
    transcript: list = field(default_factory=list)


def key_part(table, condition):
    """The literal of the first part `key = literal` among those that the outermost ANDs join, in a list; or none."""
    if isinstance(condition, All):
        return next((found for part in condition.parts if (found := key_part(table, part))), [])
    if not isinstance(condition, Compare) or condition.sign != "=" or table.key is None:
        return []
    is_key = condition.left == Column(table.key)
    return [condition.right] if is_key and isinstance(condition.right, int | bytes) else []


def rows_of(table, insert):
    """The rows of an INSERT, each in the order of the table's columns."""
    columns = table.columns if insert.columns is None else insert.columns
    return [[row[columns.index(column)] for column in table.columns] for row in insert.rows]


def plan(tables, statement):
    """The requests of a statement: resources with modes. A resource is the table's name, with a key where it is a row."""
    if isinstance(statement, Lock):
        return [((statement.table,), statement.mode)]
    if not isinstance(statement, Select | Insert | Update | Delete):
        return []
    name, table = statement.table, tables[statement.table]
    if isinstance(statement, Insert):
        if table.key is None:
            return [((name,), "X")]
        key = table.columns.index(table.key)
        return [((name,), "IX")] + [((name, row[key]), "X") for row in rows_of(table, statement)]
    only_reads = isinstance(statement, Select) and statement.locks != "update"
    on_table, on_row, alone = ("IS", "S", "S") if only_reads else ("IX", "X", "X")
    keys = key_part(table, statement.where)
    if keys:
        return [((name,), on_table), ((name, keys[0]), on_row)]
    return [((name,), alone)]


def is_plain(statement):
    """Whether it is a SELECT without FOR UPDATE and FOR SHARE."""
    return isinstance(statement, Select) and statement.locks is None


def refuses_to_wait(statement):
    return isinstance(statement, Select | Lock) and statement.nowait


def in_range(number):
    if not LEAST <= number <= MOST:
        raise Fault(OUT_OF_RANGE)
    return number


def value_of(table, row, expression):
    if isinstance(expression, Column):
        return row[table.columns.index(expression.name)]
    if not isinstance(expression, Sum):
        return expression
    left = value_of(table, row, expression.left)
    right = value_of(table, row, expression.right)
    if expression.sign == "+":
        return in_range(left + right)
    return in_range(left - right if expression.sign == "-" else left * right)


def holds(table, row, condition):
    if condition is None:
        return True
    if isinstance(condition, All):
        return all(holds(table, row, part) for part in condition.parts)
    if isinstance(condition, Any):
        return any(holds(table, row, part) for part in condition.parts)
    if isinstance(condition, Not):
        return not holds(table, row, condition.part)
    left = value_of(table, row, condition.left)
    right = value_of(table, row, condition.right)
    return {
        "=": left == right,
        "<>": left != right,
        "!=": left != right,
        "<": left < right,
        "<=": left <= right,
        ">": left > right,
        ">=": left >= right,
    }[condition.sign]


def written(value):
    return str(value).encode() if isinstance(value, int) else b"'" + value.replace(b"'", b"''") + b"'"


def printed(spec, event):
    """The line of an event."""
    if event in LINES or isinstance(event, str):
        return LINES.get(event, event).encode()
    word, value = event
    if word == "row":
        return b"row " + b"|".join(map(written, value))
    if word in ("sent", "notsent"):
        return f"{'step' if word == 'sent' else 'not sent'} {spec.step_names[value]}".encode()
    return f"{word} {value}".encode()


def told(rows):
    return [("row", tuple(row)) for row in rows] + [("rows", len(rows))]


class World:
    """What has been sent so far: committed rows by table and key, the sessions, held modes, and waits as they came."""

    def __init__(self, spec):
        self.spec = spec
        self.committed = {}
        self.members = [Member(self.default_level) for _ in range(len(spec.session_names) + 1)]
        self.held = {}
        self.waits = []

    def fork(self):
        """An equal world. What both have is never changed in place."""
        other = World(self.spec)
        other.committed, other.held, other.waits = self.committed, dict(self.held), list(self.waits)
        other.members = [
            replace(member, overlay=dict(member.overlay), transcript=list(member.transcript))
            for member in self.members
        ]
        return other

    def outcome(self):
        return [member.transcript for member in self.members[:-1]]

    # levels

    @property
    def default_level(self):
        return self.spec.level or SERIALIZABLE

    def level_of(self, begin):
        """The level of a transaction that begins so. Where levels are not asked for, what the text says has no effect."""
        is_named = self.spec.level is not None and begin.level is not None
        return NAMED_LEVELS[begin.level] if is_named else self.default_level

    def asked(self, member):
        """The requests of a session's next statement."""
        statement = member.rest[0]
        return [] if member.level == READ_COMMITTED and is_plain(statement) else plan(self.spec.tables, statement)

    # what a session sees, and what a statement does

    def sight(self, session, name):
        """The rows of a table, by key."""
        seen = self.committed | self.members[session].overlay
        return sorted(
            (key, row) for (table, key), row in seen.items() if table == name and row is not None
        )

    def effect(self, session, statement):
        """The events of a statement, and what it leaves in the overlay. None is a row that is gone."""
        if isinstance(statement, Lock):
            return ["locked"], {}
        if isinstance(statement, Set):
            return ["set"], {}
        if isinstance(statement, Create):
            return [], {}
        name, table = statement.table, self.spec.tables[statement.table]
        rows = self.sight(session, name)
        if isinstance(statement, Insert):
            return self.inserted(name, table, rows, statement)
        keys = key_part(table, statement.where)
        rows = [(key, row) for key, row in rows if not keys or key == keys[0]]
        rows = [(key, row) for key, row in rows if holds(table, row, statement.where)]
        if isinstance(statement, Delete):
            return [("deleted", len(rows))], {(name, key): None for key, _row in rows}
        if isinstance(statement, Update):
            return [("updated", len(rows))], {
                (name, key): self.updated(table, row, statement) for key, row in rows
            }
        return told(self.selected(table, rows, statement)), {}

    def inserted(self, name, table, rows, insert):
        taken, new = {key for key, _row in rows}, {}
        for row in rows_of(table, insert):
            if table.key is None:
                key = max(taken) + 1 if taken else 1
            else:
                key = row[table.columns.index(table.key)]
                if key in taken:
                    raise Fault(DUPLICATE)
            taken.add(key)
            new[name, key] = row
        return [("inserted", len(new))], new

    def updated(self, table, row, update):
        new = list(row)
        for column, expression in update.assignments:
            new[table.columns.index(column)] = value_of(table, row, expression)
        return new

    def selected(self, table, rows, select):
        if select.aggregates is not None:
            totals = []
            for column in select.aggregates:
                if column is None:
                    totals.append(len(rows))
                else:
                    place = table.columns.index(column)
                    totals.append(in_range(sum(row[place] for _key, row in rows)))
            return [totals]
        for column, falls in reversed(select.order):
            place = table.columns.index(column)
            rows = sorted(rows, key=lambda entry: entry[1][place], reverse=falls)
        columns = table.columns if select.columns is None else select.columns
        return [[row[table.columns.index(column)] for column in columns] for _key, row in rows]

    # locks

    def wanted(self, wait):
        held = self.held.get((wait.session, wait.resource))
        return wait.mode if held is None else cover(wait.mode, held)

    def hindering(self, wait):
        """Other sessions that hold a mode there with which the wanted one does not go."""
        return {
            session
            for (session, resource), mode in self.held.items()
            if resource == wait.resource
            and session != wait.session
            and mode not in GO_TOGETHER[self.wanted(wait)]
        }

    def converts(self, wait):
        return (wait.session, wait.resource) in self.held

    def ahead(self, wait):
        """The sessions whose waits stand ahead of this one."""
        earlier = self.waits[: next(place for place, other in enumerate(self.waits) if other is wait)]
        there = [other for other in self.waits if other.resource == wait.resource and other is not wait]
        if self.converts(wait):
            return {other.session for other in there if self.converts(other) and other in earlier}
        return {other.session for other in there if self.converts(other) or other in earlier}

    def waits_for(self, session):
        waits = [wait for wait in self.waits if wait.session == session]
        return set().union(*[self.hindering(wait) | self.ahead(wait) for wait in waits])

    def is_in_ring(self, session):
        reached, new = set(), self.waits_for(session)
        while new:
            reached |= new
            new = set().union(*[self.waits_for(other) for other in new]) - reached
        return session in reached

    def is_had(self, wait):
        is_free = all(other.resource != wait.resource for other in self.waits)
        return not self.hindering(wait) and (self.converts(wait) or is_free)

    def is_ripe(self, wait):
        return not self.hindering(wait) and not self.ahead(wait)

    def hold(self, wait):
        self.held[wait.session, wait.resource] = self.wanted(wait)

    # transactions

    def let_go(self, session):
        self.held = {place: mode for place, mode in self.held.items() if place[0] != session}
        self.members[session].overlay = {}

    def commit(self, session):
        rows = self.committed | self.members[session].overlay
        self.committed = {place: row for place, row in rows.items() if row is not None}
        self.let_go(session)

    def end_step(self, session):
        member = self.members[session]
        if member.status == OUTSIDE:
            self.commit(session)
        member.rest, member.requests = [], 0
        member.transcript.append("done")

    def fail(self, session, event):
        member = self.members[session]
        member.transcript.append(event)
        self.let_go(session)
        if member.status == IN_BLOCK:
            member.status = FAILED_BLOCK
        self.end_step(session)

    def end_block(self, session, keeps):
        member = self.members[session]
        if member.status == OUTSIDE:
            member.transcript.append(NO_BLOCK)
        if keeps and member.status != FAILED_BLOCK:
            self.commit(session)
            member.transcript.append("committed")
        else:
            self.let_go(session)
            member.transcript.append("rolledback")
        member.status, member.level = OUTSIDE, self.default_level

    def begin(self, session, statement):
        member = self.members[session]
        if member.status == IN_BLOCK:
            member.transcript.append(IN_BLOCK_ALREADY)
        else:
            member.level = self.level_of(statement)
        member.status = IN_BLOCK
        member.transcript.append("began")

    # steps

    def go(self, session):
        """Runs what is left of a step, up to its end, a wait or a fault."""
        member = self.members[session]
        while member.rest:
            statement = member.rest[0]
            if member.status == FAILED_BLOCK and not isinstance(statement, End):
                return self.fail(session, ABORTED)
            for resource, mode in self.asked(member)[member.requests :]:
                wait = Wait(session, resource, mode)
                if self.is_had(wait):
                    self.hold(wait)
                    member.requests += 1
                    continue
                if refuses_to_wait(statement):
                    return self.fail(session, UNAVAILABLE)
                self.waits.append(wait)
                if self.is_in_ring(session):
                    self.waits.pop()
                    return self.fail(session, DEADLOCK)
                return member.transcript.append("waiting")
            if isinstance(statement, Begin):
                self.begin(session, statement)
            elif isinstance(statement, End):
                self.end_block(session, statement.keeps)
            else:
                try:
                    events, overlay = self.effect(session, statement)
                except Fault as fault:
                    return self.fail(session, fault.event)
                member.transcript += events
                member.overlay |= overlay
            member.rest, member.requests = member.rest[1:], 0
        return self.end_step(session)

    def settle(self):
        while ripe := next((wait for wait in self.waits if self.is_ripe(wait)), None):
            self.hold(ripe)
            self.waits = [wait for wait in self.waits if wait is not ripe]
            member = self.members[ripe.session]
            member.transcript.append("resumed")
            member.requests += 1
            self.go(ripe.session)

    def is_waiting(self, session):
        return any(wait.session == session for wait in self.waits)

    def send(self, step):
        session, statements = self.spec.steps[step]
        member = self.members[session]
        if self.is_waiting(session):
            member.transcript.append(("notsent", step))
            return
        member.transcript.append(("sent", step))
        member.rest = statements
        self.go(session)
        self.settle()

    def set_up(self, session, statements):
        """Whether a setup went without a fault. Its events are forgotten."""
        member = self.members[session]
        member.rest = statements
        self.go(session)
        events, member.transcript = member.transcript, []
        return not any(event in FAULTS for event in events)


def start(spec, kind=World):
    world = kind(spec)
    control = len(spec.session_names)
    for number, statements in enumerate(spec.setups):
        if not world.set_up(control, statements) or world.members[control].status != OUTSIDE:
            raise Refusal("start", SETUP_FAILED, number)
    for session, statements in enumerate(spec.session_setups):
        if not world.set_up(session, statements):
            raise Refusal("start", SESSION_SETUP_FAILED, session)
        if world.is_waiting(session):
            raise Refusal("start", SESSION_SETUP_WAITS, session)
    return world


def outcome(spec, rank):
    """The transcripts of a rank's line."""
    world = start(spec)
    for step in spec.line(rank):
        world.send(step)
    return world.outcome()


def outcome_lines(spec, transcripts):
    """The lines of an outcome. A line feed in a text of a row ends none."""
    for name, transcript in zip(spec.session_names, transcripts):
        yield f"session {name}"
        yield from (f"  {printed(spec, event).decode()}" for event in transcript)


def outcome_text(spec, transcripts):
    """The text of an outcome."""
    return "".join(f"{line}\n" for line in outcome_lines(spec, transcripts)).encode()
