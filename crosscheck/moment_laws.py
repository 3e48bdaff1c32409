"""What holds of each order that is shown: of its moments, its text and its JSON. Each of these yields what is wrong."""

import json
from itertools import combinations, pairwise, permutations

from machine import DEADLOCK, FAULTS, GO_TOGETHER, IN_BLOCK, READ_COMMITTED, UNAVAILABLE, cover, outcome, printed, start
from moments import AHEAD, HOLDS, NOT_SENT, RESUMED, SENT, STATUSES, Edge
from shown import HIDDEN, WIDTH, Lanes, broken, json_text, show_value, visible, word_of
from sql import Begin, Select

NAMELESS = "session"


# ---- moments


def held_by(world):
    """What each session holds."""
    held = [{} for _ in world.members]
    for (session, resource), mode in world.held.items():
        held[session][resource] = mode
    return held


def changed(held, changes):
    """What is held behind these changes."""
    for change in changes:
        held = {} if change is None else held | {change[0]: change[1]}
    return held


def wait_at(world, session):
    return [wait for wait in world.waits if wait.session == session]


def true_edges(world, session):
    """Every edge that MACHINE gives to a session that waits: from the locks and the queue alone."""
    (wait,), held, queue = wait_at(world, session), held_by(world), [one for one in world.waits]
    wanted = lambda one: cover(one.mode, held[one.session].get(one.resource, one.mode))
    has = lambda one: one.resource in held[one.session]
    place = [one is wait for one in queue].index(True)
    for other, locks in enumerate(held):
        mode = locks.get(wait.resource)
        if other != session and mode is not None and mode not in GO_TOGETHER[wanted(wait)]:
            yield Edge(other, HOLDS, mode)
        for number, one in enumerate(queue):
            is_ahead = number < place and (has(one) or not has(wait)) or (has(one) and not has(wait))
            if one.session == other != session and one.resource == wait.resource and is_ahead:
                yield Edge(other, AHEAD, wanted(one))


def wrong_in_want(world, session, want):
    waits = wait_at(world, session)
    if bool(waits) != bool(want):
        yield "waits and wants nothing, or the other way round"
        return
    if not want:
        return
    has = world.held.get((session, waits[0].resource))
    if (want.resource, want.asks, want.has) != (waits[0].resource, waits[0].mode, has):
        yield "wants something else than its wait"
    if want.wants != (cover(want.asks, want.has) if want.has else want.asks):
        yield "wants another mode than the cover of what it asks for and has"
    if want.edges != list(true_edges(world, session)):
        yield f"the reasons are {want.edges} and not {list(true_edges(world, session))}"
    if {edge.session for edge in want.edges} != world.waits_for(session):
        yield "the reasons are not whom the session waits for"


def rings(world, session):
    """The rings through a session, the shortest ones first, and those of a length by their sessions."""
    others = [other for other in range(len(world.members)) if other != session]
    for count in range(len(others) + 1):
        ways = sorted(way for some in combinations(others, count) for way in permutations(some))
        for way in ways:
            ring = [session, *way]
            if all(to in world.waits_for(one) for one, to in zip(ring, [*way, session])):
                yield ring


def wrong_in_ring(scene, moment):
    ring = [hop.session for hop in moment.ring]
    if ring[0] != moment.session or len({*ring}) < len(ring):
        yield "the ring does not begin with who loses it, or passes someone twice"
    if ring != next(rings(scene, moment.session), None):
        yield "the ring is not the shortest, the least by its sessions"
    for hop, to in zip(moment.ring, ring[1:] + ring[:1]):
        (wait,) = wait_at(scene, hop.session)
        edges = [edge for edge in true_edges(scene, hop.session) if edge.session == to]
        if not edges or hop.edge != edges[0] or (hop.resource, hop.wants) != (wait.resource, scene.wanted(wait)):
            yield f"an edge of the ring is not so: {hop}"


def wrong_in_refusal(moment, scene):
    """Of a ring, and of what is lacking."""
    lost, lacking = DEADLOCK in moment.events, UNAVAILABLE in moment.events
    if (bool(moment.ring), bool(moment.lacks)) != (lost, lacking) or bool(scene) != (lost or lacking):
        yield "a ring or what is lacking is not told where it was lost"
    elif lost:
        yield from wrong_in_ring(scene, moment)
    elif lacking:
        yield from wrong_in_want(scene, moment.session, moment.lacks)
        if not moment.lacks.edges:
            yield "a request is refused without a reason"


def wrong_in_events(moment, before, after):
    first, last = moment.events[0], moment.events[-1]
    firsts = {SENT: ("sent", moment.step), RESUMED: "resumed", NOT_SENT: ("notsent", moment.step)}
    if first != firsts[moment.kind]:
        yield "begins with another event"
    waits = last == "waiting" or moment.kind == NOT_SENT
    if waits != bool(moment.want) or (not waits and last != "done"):
        yield "ends with another event"
    if len([event for event in moment.events if event in FAULTS]) > 1:
        yield "fails twice"
    if moment.kind == RESUMED and moment.step != [event[1] for event in before.members[moment.session].transcript if event[0] == "sent"][-1]:
        yield "goes on with another step than was sent last"
    if moment.status != STATUSES[after.members[moment.session].status]:
        yield "another status"


def wrong_in_others(moment, before, after):
    """Sessions that do not go: nothing is told them, and they hold what they held."""
    for session, (old, new) in enumerate(zip(before.members, after.members)):
        if session != moment.session and (old != new or held_by(before)[session] != held_by(after)[session]):
            yield f"changes session {session}"
    still = {}
    for wait in after.waits:
        edges = list(true_edges(after, wait.session))
        was_waiting = bool(wait_at(before, wait.session))
        if wait.session != moment.session and edges and not (was_waiting and edges == list(true_edges(before, wait.session))):
            still[wait.session] = edges
    if moment.still != sorted(still.items()):
        yield f"tells of others {moment.still} and not {still}"


def told_if_sent(world, session, statement):
    """What a session would be told if it were sent this statement, and waited for nothing."""
    world = world.fork()
    member, world.waits = world.members[session], []
    told, member.rest, member.requests = len(member.transcript), [statement], 0
    world.go(session)
    return [event for event in member.transcript[told:] if event != "done" and event not in FAULTS]


def stands_in(events, part):
    return any(events[place : place + len(part)] == part for place in range(len(events)))


def last_reads(spec, moments, session):
    """The SELECTs of the last moment of a session, each with what it told, where that was a whole step of SELECTs in a block."""
    last = next((moment for moment in reversed(moments) if moment.session == session), None)
    if not last or last.kind != SENT or last.status != "in" or last.want:
        return
    selects, told = spec.steps[last.step][1], []
    if all(isinstance(one, Select) for one in selects):
        for event in last.events:
            told += [event] * (word_of(event) in ("row", "rows"))
            if word_of(event) == "rows":
                yield selects[0], last.step, told
                selects, told = selects[1:], []


def wrong_in_stale(spec, moments, moment, before, after):
    """Of reads of others. Stale is what was told in an open transaction and would be told otherwise now, and not already before."""
    sessions = [one.session for one in moment.stale]
    if sessions != sorted(sessions) or (sessions and before.committed == after.committed):
        yield "reads are stale without a commit, or not in the order of their sessions"
    for one in moment.stale:
        member, (owner, statements) = before.members[one.session], spec.steps[one.step]
        is_open = member.status == IN_BLOCK or wait_at(before, one.session)
        # A BEGIN behind a SELECT of its step may have made the transaction a block of another level.
        is_locked = spec.level is None or (member.level != READ_COMMITTED and not any(isinstance(statement, Begin) for statement in statements))
        if owner != one.session or owner == moment.session or not is_open or is_locked:
            yield f"no read of session {one.session} can be stale"
            continue
        ways = [[told_if_sent(world, owner, statement) for world in (before, after)] for statement in statements if isinstance(statement, Select)]
        if not stands_in(member.transcript, one.told) or not any(one.told_now == now not in (was, one.told) for was, now in ways):
            yield f"the read {one.told} of session {one.session} would not be told {one.told_now}"
    for session, member in enumerate(before.members):
        if session != moment.session and member.level == READ_COMMITTED:
            stale = [(one.step, one.told, one.told_now) for one in moment.stale if one.session == session]
            for select, step, told in last_reads(spec, moments, session):
                was, now = [told_if_sent(world, session, select) for world in (before, after)]
                if now not in (was, told) and (step, told, now) not in stale:
                    yield f"the read {told} of session {session} is stale, which is not told"


def wrong_in_moment(moment, before, after, scene):
    yield from wrong_in_events(moment, before, after)
    yield from wrong_in_want(after, moment.session, moment.want)
    yield from wrong_in_refusal(moment, scene)
    yield from wrong_in_others(moment, before, after)
    held = held_by(before)[moment.session]
    if changed(held, moment.changes) != held_by(after)[moment.session]:
        yield "the locks told do not lead to those that are held"
    for number, change in enumerate(moment.changes):
        now = changed(held, moment.changes[:number])
        if change is None and not now:
            yield "lets go of nothing"
        if change and cover(change[1], now.get(change[0], change[1])) != change[1]:
            yield "a lock grows weaker"


def by_the_machine(spec, line):
    """The world at the end of a line, sent by the machine itself."""
    world = start(spec)
    for step in line:
        world.send(step)
    return world


def wrong_in_moments(order):
    """Of an order."""
    spec, told = order.spec, order.shown
    end = by_the_machine(spec, order.line)
    last = told.worlds[-1]
    if (end.committed, end.held, end.waits, end.members) != (last.committed, last.held, last.waits, last.members):
        yield "the machine comes to another end"
    for session, transcript in enumerate(outcome(spec, order.rank)):
        events = [event for moment in told.moments if moment.session == session for event in moment.events]
        if events != transcript:
            yield f"the moments of session {session} are not its transcript"
    sent = [moment.step for moment in told.moments if moment.kind != RESUMED]
    if sent != list(order.line):
        yield "other steps are sent"
    for number, (moment, (before, after), scene) in enumerate(zip(told.moments, pairwise(told.worlds), told.scenes, strict=True)):
        yield from (f"moment {number}: {wrong}" for wrong in wrong_in_moment(moment, before, after, scene))
        yield from (f"moment {number}: {wrong}" for wrong in wrong_in_stale(spec, told.moments[:number], moment, before, after))
    yield from wrong_in_ends(spec, told)


def wrong_in_ends(spec, told):
    """How an order begins, and what it leaves."""
    first, last = told.worlds[0], told.worlds[-1]
    for session, (status, locks) in enumerate(told.begun):
        if status != STATUSES[first.members[session].status] or dict(locks) != held_by(first)[session] or len(dict(locks)) < len(locks):
            yield f"session {session} begins otherwise"
    for tables, world in ((told.first, first), (told.left, last)):
        rows = sorted((name, tuple(row)) for name, rows in tables for row in rows)
        if rows != sorted((name, tuple(row)) for (name, _key), row in world.committed.items()) or [name for name, _rows in tables] != [*spec.tables]:
            yield "other rows are left"
        for name, listed in tables:
            key = spec.tables[name].key
            keys = [row[spec.tables[name].columns.index(key)] for row in listed] if key else []
            if keys != sorted(keys):
                yield "rows are not in the order of their keys"
    for session in range(len(spec.session_names)):
        yield from wrong_in_want(last, session, told.wants[session])
        standing = STATUSES[last.members[session].status] if not wait_at(last, session) else "waits"
        if told.standing[session] != standing:
            yield f"session {session} is left otherwise"


# ---- the text


def rows_of(lanes, text):
    """The rows of lanes of a text: what stands at the left, and of each session its rail and a text, by their columns."""
    for row in text.split("\n\n")[1].rstrip("\n").split("\n")[1:]:
        row = row.ljust(lanes.columns)
        cells = [row[lanes.left + session * lanes.cell :][: lanes.cell] for session in range(lanes.count)]
        yield row[: lanes.left].rstrip(" "), [(cell[0], cell[2:].rstrip(" ")) for cell in cells]


def events_in_lanes(lanes, rows):
    """Of each session the first line of each event in its lane."""
    for session in range(lanes.count):
        texts = [cells[session][1] for _left, cells in rows]
        yield [text for text in texts if text and not text.startswith(" ")]


def rail_in(world, session):
    if wait_at(world, session):
        return ":"
    return {"out": " ", "in": "|", "failed": "!"}[STATUSES[world.members[session].status]]


def wrong_in_rails(order, lanes, rows):
    """Each row belongs to a moment: its first one has a step at the left, or tells that its session goes on. In its rows the rails of the others, and
    that of its session beneath its lines, are how they stand."""
    told, number = order.shown, -1
    for left, cells in rows:
        number += bool(left) or any(text == "resumed" for _rail, text in cells)
        moment, after = told.moments[number], told.worlds[number + 1]
        if left and (moment.kind == RESUMED or left != lanes.steps[moment.step].rstrip(" ")):
            yield f"{left} stands beside moment {number}"
        for session, (rail, text) in enumerate(cells):
            if (session != moment.session or not text) and rail != rail_in(after, session):
                yield f"session {session} has the rail {rail} in moment {number}"
            if session == moment.session and text and rail == " ":
                yield f"a line of moment {number} has no rail"
    if number != len(told.moments) - 1:
        yield "other moments stand in the lanes"


def events_of(order, transcript):
    """The first line of each event that a lane has of a transcript."""
    width, before = Lanes(order).text, None
    for event in transcript:
        if event == "done" and before == "sent":
            yield "done"
        before = event if isinstance(event, str) else event[0]
        if before not in ("sent", "done"):
            yield broken(visible(printed(order.spec, event).decode()), width, 0, 2)[0]


def wrong_in_text(order, text):
    """Of the text of an order."""
    lanes, lines = Lanes(order), text.split("\n")
    most = WIDTH if lanes.count <= 4 else max(WIDTH, lanes.columns)
    for line in lines:
        if len(line) > most:
            yield f"a line has {len(line)} characters: {line}"
        if line.endswith(" ") or {*map(ord, line)} & HIDDEN:
            yield f"a line ends with a blank, or shows what is not seen: {line!r}"
    if not text.endswith("\n") or text.endswith("\n\n") or "\n\n\n" in text:
        yield "empty lines stand where none belong"
    for names in (lanes.heads, lanes.names, lanes.steps):
        if len({*names}) < len(names):
            yield "two short names are the same"
    rows = [*rows_of(lanes, text)]
    if all(name.strip(" ") for name in lanes.steps):
        yield from wrong_in_rails(order, lanes, rows)
    read = list(events_in_lanes(lanes, rows))
    for session, transcript in enumerate(outcome(order.spec, order.rank)):
        if read[session] != list(events_of(order, transcript)):
            yield f"the lane of session {session} tells {read[session]}"


# ---- JSON


def wrong_in_json(order, text):
    """Of the JSON of an order: it is read back by Python's own reader, and nothing in it ends a script."""
    if not text.endswith("\n") or "\n" in text[:-1]:
        yield "is not one line"
    if {*text} & {*"<>&\u2028\u2029"}:
        yield "has a character that may end a script"
    value = json.loads(text)
    if value != json.loads(json.dumps(show_value(order), ensure_ascii=True)) or json_text(value) + "\n" != text:
        yield "is read back as something else"
    lines = [
        line
        for session, name in enumerate(value["sessions"])
        for line in [f"{NAMELESS} {name}", *(f"  {line}" for line in lines_told(value, session))]
    ]
    told = [line for one, name in enumerate(value["sessions"]) for line in outcome_lines(order, one, name)]
    if lines != told:
        yield "what is told is not the outcome text"


def lines_told(value, session):
    """The lines of a session's moments, with the name of a step that is sent before them."""
    for moment in value["moments"]:
        if moment["session"] == session:
            yield from [f"step {value['steps'][moment['step']]['name']}"] * (moment["kind"] == SENT)
            yield from moment["told"]


def outcome_lines(order, session, name):
    yield f"{NAMELESS} {name}"
    yield from (f"  {printed(order.spec, event).decode()}" for event in outcome(order.spec, order.rank)[session])


def wrong_in(order, text, json_line):
    yield from wrong_in_moments(order)
    yield from (f"text: {wrong}" for wrong in wrong_in_text(order, text))
    yield from (f"JSON: {wrong}" for wrong in wrong_in_json(order, json_line))
