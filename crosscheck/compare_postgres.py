"""Compares the second machine at READ COMMITTED with PostgreSQL at that level, on all orders of specs that clients can send.

usage: python3 crosscheck/compare_postgres.py SPEC..
       python3 crosscheck/compare_postgres.py --made FIRST_SEED SEEDS

The specs are files, or are made from seeds: reads and writes of rows by their keys, SELECTs of all rows, FOR UPDATE, FOR SHARE and NOWAIT. Permutation lines
do not count. Each order that the machine can be sent is run by isolationtester, on a server of its own in a folder of its own; of a spec with more than 400
orders so many are drawn. Compared are who waits and who goes on at each step, errors and victims, the rows of each SELECT, counts, and the rows left.
The first difference of an order counts, if it is there when the order is run once more: else PostgreSQL answers otherwise at times. For each spec and kind
of difference the first order is printed; the last lines count orders and kinds.

Whole numbers are bigint there, and a deadlock is looked for after 1 ms, so that who closes a ring is the victim. A BEGIN at SERIALIZABLE is another
thing there, and no made spec has it. Run by root, the server is of the user postgres. The variable POSTGRES names the folder of PostgreSQL, else it is
/usr/lib/postgresql/15. The exit status is 1 where an answer differs, and 3 where no server can be started.
"""

import os
import re
import shutil
import subprocess
import sys
from collections import Counter
from contextlib import contextmanager
from dataclasses import dataclass
from itertools import islice
from pathlib import Path
from random import Random
from tempfile import TemporaryDirectory

from checks import pieces
from classes import number_of
from compare import ended
from generate import Maker
from levels import bind_at
from machine import ABORTED, DEADLOCK, DUPLICATE, FAULTS, LINES, OUT_OF_RANGE, READ_COMMITTED, UNAVAILABLE, World, start
from moments import rows_left
from orders import spelled
from refusal import Refusal
from schedules import steps_by_session, taken
from shown import one_line, statements_of, word_of
from spec_file import read_spec
from sql import Create, Delete, Insert, Select, Update, read_sql

MADE, NO_SERVER = "--made", 3
# Who is known to the server, and whose it is where root runs this.
USER, OWNER = "tester", "postgres"
HOME = Path(os.environ.get("POSTGRES", "/usr/lib/postgresql/15"))
TESTER = HOME / "lib/pgxs/src/test/isolation/isolationtester"
SETTINGS = "-c listen_addresses= -c fsync=off -c deadlock_timeout=1ms -c client_min_messages=error -c default_transaction_isolation=read\\ committed"
MOST_ORDERS, MOST_SECONDS = 400, 600
WAITS = "waits"
# What statements that write are told, with a number.
COUNTS = {Insert: "inserted", Update: "updated", Delete: "deleted"}
ERRORS = {
    "duplicate key value": DUPLICATE,
    "out of range": OUT_OF_RANGE,
    "deadlock detected": DEADLOCK,
    "current transaction is aborted": ABORTED,
    "could not obtain lock": UNAVAILABLE,
}
RULE, COUNTED = re.compile(r"-+(\+-+)*"), re.compile(r"\(\d+ rows?\)")
STEP = re.compile(r"step (\w+): (.*)")


# ---- specs with keys


def keyed_statement(maker):
    by_key, number = f" WHERE id = {maker.one([1, 1, 1, 2, 2, 3])}", maker.one([1, 5, 100])
    locks = maker.one(["", "", "", " FOR UPDATE", " FOR SHARE", " FOR UPDATE NOWAIT", " FOR SHARE NOWAIT"])
    reads = [f"SELECT v FROM t{by_key}{locks}"] * 3 + [maker.one(["SELECT * FROM t", "SELECT count(*), sum(v) FROM t", "SELECT id FROM t WHERE v > 15"])]
    return maker.one([*reads, *[f"UPDATE t SET v = {maker.one(['v + ', ''])}{number}{by_key}"] * 4])


def keyed_spec(maker):
    """Two or three sessions, mostly in blocks, that read and write three rows by their keys."""
    made = "setup { CREATE TABLE t (id int PRIMARY KEY, v int); INSERT INTO t VALUES (1, 10), (2, 20), (3, 30); }\n"
    for session, steps in enumerate(maker.one([[2, 2], [2, 3], [3, 3], [1, 2, 1], [2, 1, 1]])):
        is_block = maker.some(0.85)
        made += f"session s{session}\n{'setup { BEGIN; }' * is_block}\n"
        statements = [maker.many(2, lambda: keyed_statement(maker)) for _ in range(steps)]
        ends = [maker.one(["COMMIT", "COMMIT", "COMMIT", "ROLLBACK"])] * is_block
        parts = [*statements[:-1], statements[-1] + ends] if maker.some(0.4) else [*statements, ends] if ends else statements
        made += "".join(f"step s{session}_{place} {maker.block(part)}\n" for place, part in enumerate(parts))
    return made.encode()


# ---- orders on the machine


@dataclass
class Order:
    """Steps, what each comes to, the rows left, and the sessions in an order in which each can be ended."""

    steps: tuple
    moments: tuple
    left: dict
    ends: list


def text_of(value):
    return value.decode() if isinstance(value, bytes) else str(value)


def row_text(cells):
    """A row as it can be told from what is printed: blanks fill columns there, and a stroke in a text is as one between columns."""
    return "|".join(part.strip() for part in "|".join(cells).split("|"))


def rows_of(rows):
    return tuple(sorted(row_text(map(text_of, row)) for row in rows))


def ended_with(events):
    """What a step told: its results, and its error."""
    results, rows = [], []
    for event in events:
        if word_of(event) == "row":
            rows.append(event[1])
        elif word_of(event) == "rows":
            results.append(("rows", rows_of(rows)))
            rows = []
        elif word_of(event) in COUNTS.values():
            results.append(event)
    return tuple(results), next((event for event in events if event in FAULTS), None)


def moment(world, other, sender):
    """What a step comes to: each session whose step has ended, with what that told, and the sender where it waits."""
    found = {sender: WAITS}
    for session, (before, behind) in enumerate(zip(world.outcome(), other.outcome(), strict=True)):
        if "done" in behind[len(before) :]:
            sent = max(place for place, event in enumerate(behind) if word_of(event) == "sent")
            found[session] = ended_with(behind[sent:])
    return found


def ends_of(world):
    """The sessions in an order in which each can be ended, since it does not wait when all before it have ended."""
    world, ends = world.fork(), []
    while waiting := [session for session in range(len(world.spec.session_names)) if session not in ends]:
        ends.append(next(session for session in waiting if not world.is_waiting(session)))
        world.end_block(ends[-1], False)
        world.settle()
    return ends


@dataclass
class Front:
    """The front of an order: the world behind it, the steps left to each session, the steps sent, and what each came to."""

    world: World
    left: tuple
    steps: tuple = ()
    moments: tuple = ()

    def sessions(self):
        return [session for session, number in enumerate(self.left) if number and not self.world.is_waiting(session)]

    def behind(self, session):
        step, world = steps_by_session(self.world.spec)[session][-self.left[session]], self.world.fork()
        world.send(step)
        return Front(world, taken(self.left, session), (*self.steps, step), (*self.moments, moment(self.world, world, session)))

    def order(self):
        left = {name: rows_of(rows) for name, rows in rows_left(self.world)}
        return Order(self.steps, self.moments, left, ends_of(self.world))


def all_orders(spec):
    fronts = [Front(start(spec), tuple(spec.counts()))]
    while fronts:
        front = fronts.pop()
        fronts += [front.behind(session) for session in front.sessions()]
        if not front.sessions():
            yield front.order()


def drawn_order(spec, random):
    front = Front(start(spec), tuple(spec.counts()))
    while sessions := front.sessions():
        front = front.behind(random.choice(sessions))
    return front.order()


def some_orders(spec):
    """All orders, or so many of more, and whether these are all."""
    orders, random = [*islice(all_orders(spec), MOST_ORDERS + 1)], Random(1)
    if len(orders) <= MOST_ORDERS:
        return orders, True
    return [*{order.steps: order for order in (drawn_order(spec, random) for _ in range(MOST_ORDERS))}.values()], False


# ---- a server


class NoServer(Exception):
    """Why none is there."""


class NoAnswer(Exception):
    """Why PostgreSQL runs no order of a spec."""


@contextmanager
def server():
    """A server of its own, as the words that connect to it. Raises NoServer."""
    user = {"user": OWNER, "group": OWNER, "extra_groups": []} if os.getuid() == 0 else {}
    with TemporaryDirectory() as folder:
        data = ["-D", f"{folder}/data"]

        def ran(name, *words):
            words = [HOME / "bin" / name, *data, *words]
            subprocess.run(words, cwd=folder, stdout=subprocess.DEVNULL, stderr=subprocess.PIPE, text=True, check=True, timeout=MOST_SECONDS, **user)

        try:
            TESTER.stat()
            if user:
                shutil.chown(folder, OWNER, OWNER)
            ran("initdb", "-U", USER, "-A", "trust", "-E", "UTF8", "--locale=C", "--no-sync")
            ran("pg_ctl", "-w", "-l", f"{folder}/log", "-o", f"{SETTINGS} -c unix_socket_directories={folder}", "start")
        except (OSError, LookupError, subprocess.SubprocessError) as wrong:
            raise NoServer(f"{wrong} {getattr(wrong, 'stderr', None) or ''}".strip()) from None
        try:
            yield f"host={folder} user={USER} dbname=postgres"
        finally:
            ran("pg_ctl", "-m", "immediate", "stop")


# ---- orders on PostgreSQL


def statements_sql(block):
    """The statements of a block but for CREATE TABLE, each on one line. Those that write have their rows counted."""
    found = []
    for _begin, piece in pieces(block.text if block else b""):
        text = one_line(piece).removesuffix(";").strip()
        for statement in read_sql(piece):
            if not isinstance(statement, Create):
                found.append(text + (" RETURNING 1 AS one;" if type(statement) in COUNTS else ";"))
    return " ".join(found)


def create_sql(name, table):
    columns = [f"{column} {'text' if table.is_text[column] else 'bigint'}{' PRIMARY KEY' * (column == table.key)}" for column in table.columns]
    return f"CREATE TABLE {name} ({', '.join(columns)});"


def tester_spec(file, spec, orders):
    """The text that isolationtester reads: steps by their numbers, a look at all tables behind each order, and the end of each session."""
    if spec.tables:
        yield f"setup {{ {' '.join(create_sql(*one) for one in spec.tables.items())} {' '.join(map(statements_sql, file.setups))} }}"
        yield f"teardown {{ DROP TABLE {', '.join(spec.tables)}; }}"
    steps = steps_by_session(spec)
    for number, session in enumerate(file.sessions):
        yield f"session s{number}" + (f" setup {{ {setup} }}" if (setup := statements_sql(session.setup)) else "")
        for step, (_name, block) in zip(steps[number], session.steps, strict=True):
            yield f"step p{step} {{ {statements_sql(block)} }}"
        yield f"step e{number} {{ ROLLBACK; }} teardown {{ ROLLBACK; }}"
    yield f"session reader step look {{ {' '.join(f'SELECT * FROM {name};' for name in spec.tables)} }}"
    for order in orders:
        yield " ".join(["permutation", *(f"p{step}" for step in order.steps), "look", *(f"e{session}" for session in order.ends)])


def tables_in(lines):
    """The rows of each table that was printed."""
    rows = None
    for line in lines:
        if rows is None and RULE.fullmatch(line):
            rows = []
        elif rows is not None and COUNTED.fullmatch(line):
            yield rows
            rows = None
        elif rows is not None:
            rows.append(line.split("|"))


def results_of(statements, tables):
    """The results of statements by the tables printed. The sum of no row is 0 here."""
    for statement, rows in zip([one for one in statements if isinstance(one, (Select, *COUNTS))], tables):
        if type(statement) in COUNTS:
            yield COUNTS[type(statement)], len(rows)
        else:
            yield "rows", rows_of([value.strip() or "0" for value in row] if statement.aggregates else row for row in rows)


def error_in(lines):
    """The error that was printed, as the machine's or in its own words; or none."""
    line = next((line for line in lines if line.startswith(("ERROR:", "FATAL:"))), None)
    return line and next((fault for words, fault in ERRORS.items() if words in line), line)


def parts_in(text):
    """The parts of an order's text: what a line says of a step, and the lines below it. What is cancelled is the end."""
    parts = []
    for line in text.partition("isolationtester: ")[0].split("\n"):
        if found := STEP.fullmatch(line):
            parts.append((found[1], found[2], []))
        elif parts:
            parts[-1][2].append(line)
    return parts


def read_order(spec, text):
    """What each step came to, and the rows left, where the tester came so far."""
    moments, left = [], None
    for name, said, lines in parts_in(text):
        if name.startswith("e"):
            break
        waits, error = said.endswith("<waiting ...>"), error_in(lines)
        if name == "look":
            left = None if waits or error else dict(zip(spec.tables, map(rows_of, tables_in(lines)), strict=True))
            continue
        session, statements = spec.steps[int(name[1:])]
        if said != "<... completed>":
            moments.append({})
        moments[-1][session] = WAITS if waits else (tuple(results_of(statements, tables_in(lines))), error)
    return tuple(moments), left


def run_orders(connection, file, spec, orders):
    """What PostgreSQL tells of each order. Where the tester gives up it is run again for those that are left."""
    found, environment = [], {**os.environ, "PGISOLATIONTIMEOUT": "1"}
    while len(found) < len(orders):
        text = "\n".join(tester_spec(file, spec, orders[len(found) :]))
        out = subprocess.run([TESTER, connection], input=text, capture_output=True, text=True, env=environment, timeout=MOST_SECONDS, check=False)
        told = out.stdout.split("\nstarting permutation: ")[1:]
        if not told or not parts_in(told[-1]):
            raise NoAnswer(out.stderr)
        found += [read_order(spec, one.partition("\n")[2]) for one in told]
    return found


# ---- both


def kind_of(ours, theirs):
    """How what a step came to differs: here, and on PostgreSQL."""
    if (WAITS in ours.values()) != (WAITS in theirs.values()):
        return "waits here alone" if WAITS in ours.values() else "waits on PostgreSQL alone"
    if {*ours} != {*theirs}:
        return "others go on"
    here, there = next((ours[session], theirs[session]) for session in ours if ours[session] != theirs[session])
    if here[1] != there[1]:
        return "a victim" if DEADLOCK in (here[1], there[1]) else "an error"
    words = {one[0] for one in {*here[0]} ^ {*there[0]}}
    return "rows read" if words == {"rows"} else "counts"


def difference(order, told):
    """The kind of the first difference, the number of steps up to there, and what was told here and there; or none."""
    moments, left = told
    for place, ours in enumerate(order.moments):
        theirs = moments[place] if place < len(moments) else {}
        if ours != theirs:
            return kind_of(ours, theirs), place + 1, ours, theirs
    return None if left in (None, order.left) else ("rows left", len(order.steps), order.left, left)


def told_text(what):
    if what == WAITS:
        return WAITS
    results, error = what
    told = [f"{word} {', '.join(value) if word == 'rows' else value}" for word, value in results]
    return ", ".join(told + [LINES.get(error, error)] * bool(error)) or "done"


def difference_lines(name, spec, statements, several):
    """What the first of several orders has otherwise. What is told is that of sessions, or the rows of tables."""
    order, (kind, length, *both) = several[0]
    steps = " ".join(spelled(spec.step_names[step]) for step in order.steps[:length])
    yield f"{name}: {kind}, in {number_of(len(several), 'order', 'orders')}, the first: {steps}"
    yield f"  {spec.step_names[order.steps[length - 1]]}: {statements[order.steps[length - 1]]}"
    for where, told in zip(("here", "PostgreSQL"), both, strict=True):
        of_each = (f"{one} {', '.join(what)}" if one in spec.tables else f"{spec.session_names[one]} {told_text(what)}" for one, what in told.items())
        yield f"  {where}: {'; '.join(of_each)}"


def compare_spec(connection, name, text, counts):
    """Compares all orders of a spec, and yields the lines of what differs."""
    file = read_spec(text)
    spec = bind_at(text, file, READ_COMMITTED)
    spec.lines = None
    orders, are_all = some_orders(spec)
    counts.update({"specs": 1, "specs with a sample": int(not are_all), "orders": len(orders)})
    counts["orders with a wait"] += sum(any(WAITS in one.values() for one in order.moments) for order in orders)
    counts["orders with a deadlock"] += sum(any(what != WAITS and what[1] == DEADLOCK for one in order.moments for what in one.values()) for order in orders)
    differing = [order for order, told in zip(orders, run_orders(connection, file, spec, orders), strict=True) if difference(order, told)]
    kinds = {}
    for order, told in zip(differing, run_orders(connection, file, spec, differing) if differing else [], strict=True):
        if found := difference(order, told):
            kinds.setdefault(found[0], []).append((order, found))
        else:
            counts["orders that are equal at times"] += 1
    counts["orders that are equal"] += len(orders) - len(differing)
    for kind, some in kinds.items():
        counts[f"orders that differ: {kind}"] += len(some)
        yield from difference_lines(name, spec, statements_of(file), some)


def specs_of(words):
    """Each spec that is asked for, with its name."""
    if words[0] == MADE:
        first, seeds = map(int, words[1:])
        return [(f"seed {seed}", keyed_spec(Maker(seed))) for seed in range(first, first + seeds)]
    return [(Path(path).name, Path(path).read_bytes()) for path in words]


def main(*words):
    counts, specs = Counter(), specs_of(words)
    try:
        with server() as connection:
            for name, text in specs:
                try:
                    print("".join(f"{line}\n" for line in compare_spec(connection, name, text, counts)), end="", flush=True)
                except Refusal as refusal:
                    counts["specs that are refused"] += 1
                    print(refusal.line(name).decode(), end="", flush=True)
                except NoAnswer as wrong:
                    counts["specs that PostgreSQL refuses"] += 1
                    print(f"{name}: {wrong}", flush=True)
    except NoServer as wrong:
        print(f"no server: {wrong}")
        return NO_SERVER
    for word, count in counts.items():
        print(f"  {count:7} {word}")
    return 1 if any(word.startswith("orders that differ") for word in counts) else 0


if __name__ == "__main__":
    if len(sys.argv) < 2:
        sys.exit(__doc__)
    sys.exit(ended(main, *sys.argv[1:]))
