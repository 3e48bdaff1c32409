"""Compares the program at READ COMMITTED with PostgreSQL at that level, on all orders of specs that clients can send. Each session is a connection.

usage: python3 crosscheck/compare_clients.py SPEC..
       python3 crosscheck/compare_clients.py --made FIRST_SEED SEEDS

As `compare_postgres.py`, but by other means at both ends: what is to be is what `isofarm show --level read-committed --json` prints of each order, and the steps
are sent from here, without isolationtester, so that counts are those that the server tells. A session waits where the server says twice who blocks it. The
second machine says which orders there are. The program is the built one, or the one whose path stands in the variable ISOFARM.
"""

import json
import re
import subprocess
import sys
import time
from collections import Counter
from contextlib import contextmanager
from pathlib import Path
from select import select
from socket import AF_UNIX, socket
from struct import pack, unpack
from tempfile import TemporaryDirectory

from checks import pieces
from compare import PROGRAM, ended
from compare_postgres import ERRORS, NO_SERVER, USER, WAITS, NoServer, Order, create_sql, difference, difference_lines, server, some_orders, specs_of
from levels import bind_at
from machine import FAULTS, LINES, READ_COMMITTED
from refusal import Refusal
from shown import one_line, statements_of
from spec_file import read_spec
from sql import Create, read_sql

FAULT_OF = {LINES[fault]: fault for fault in FAULTS}
TEXT_TYPE, COUNTED = 25, {"INSERT": "inserted", "UPDATE": "updated", "DELETE": "deleted"}
# How long an answer is waited for before it is asked who blocks; how long once more where somebody does; and how long where nobody may.
SOON, LATER, MOST_SECONDS = 0.002, 0.02, 60


# ---- what the program tells


def results_of(told):
    """What a step told as lines: its results, and its error."""
    results, rows = [], []
    for line in told:
        word, _blank, rest = line.partition(" ")
        if word == "row":
            rows.append(rest)
        elif word == "rows":
            results.append(("rows", tuple(sorted(rows))))
            rows = []
        elif word in COUNTED.values():
            results.append((word, int(rest)))
    return tuple(results), next((FAULT_OF[line] for line in told if line in FAULT_OF), None)


def told_of(path, spec, order):
    """The order as the program tells it."""
    steps = [*order.steps, *(step for step in range(len(spec.steps)) if step not in order.steps)]
    words = ["show", path, *(spec.step_names[step] for step in steps), "--level", READ_COMMITTED, "--json"]
    shown = json.loads(subprocess.run([PROGRAM, *words], capture_output=True, check=True).stdout)
    moments, told = [], {}
    for moment in shown["moments"]:
        session = moment["session"]
        if moment["kind"] == "sent":
            moments.append({})
            told[session] = []
        # What a step told before it waited is told to its client with the rest.
        told[session] += moment["told"]
        if moment["kind"] != "notsent":
            moments[-1][session] = WAITS if told[session][-1] == "waiting" else results_of(told[session])
    return Order(order.steps, tuple(moments), {one["table"]: tuple(sorted(one["rows"])) for one in shown["left"]}, order.ends)


# ---- sessions on PostgreSQL


class Client:
    """A connection, by which statements are sent as simple queries."""

    def __init__(self, folder):
        self.socket, self.bytes, self.types, self.pid = socket(AF_UNIX), b"", [], 0
        self.socket.connect(f"{folder}/.s.PGSQL.5432")
        words = b"".join(word.encode() + b"\0" for word in ("user", USER, "database", "postgres", ""))
        self.begin(pack("!ii", 8 + len(words), 196608) + words)
        self.wait()

    def begin(self, message):
        self.told, self.rows, self.error, self.is_ready = [], [], None, False
        self.socket.sendall(message)

    def send(self, sql):
        text = sql.encode() + b"\0"
        self.begin(b"Q" + pack("!i", 4 + len(text)) + text)

    def ask(self, sql):
        """The rows that a statement gives."""
        self.send(sql)
        self.wait()
        if self.error:
            raise RuntimeError(f"{sql}: {self.error}")
        return self.told[-1][1] if self.told else ()

    def wait(self):
        if not self.is_ended(MOST_SECONDS):
            raise RuntimeError("the server does not answer")

    def is_ended(self, seconds):
        """Whether all that was sent is answered, so many seconds from now at most."""
        while not self.is_ready and select([self.socket], [], [], seconds)[0]:
            found = self.socket.recv(1 << 16)
            if not found:
                raise RuntimeError("the server has closed a connection")
            self.bytes += found
            while len(self.bytes) >= 5 and len(self.bytes) > (size := unpack("!i", self.bytes[1:5])[0]):
                kind, body, self.bytes = self.bytes[:1], self.bytes[5 : 1 + size], self.bytes[1 + size :]
                self.read(kind, body)
        return self.is_ready

    def read(self, kind, body):
        if kind == b"K":
            self.pid = unpack("!i", body[:4])[0]
        elif kind == b"T":
            self.types = [unpack("!i", one)[0] for one in re.findall(rb"[^\0]*\0.{6}(.{4}).{8}", body[2:], re.DOTALL)]
        elif kind == b"D":
            self.rows.append("|".join(self.values(body[2:])))
        elif kind == b"C":
            words = body[:-1].decode().split(" ")
            if words[0] == "SELECT":
                self.told.append(("rows", tuple(sorted(self.rows))))
            elif words[0] in COUNTED:
                self.told.append((COUNTED[words[0]], int(words[-1])))
            self.rows = []
        elif kind == b"E":
            message = next(part[1:] for part in body.decode().split("\0") if part[:1] == "M")
            self.error = next((fault for words, fault in ERRORS.items() if words in message), message)
        elif kind == b"Z":
            self.is_ready = True

    def values(self, body):
        """The values of a row, as the program spells them. The sum of no row is 0 here."""
        for kind in self.types:
            size = unpack("!i", body[:4])[0]
            text, body = body[4 : 4 + max(size, 0)].decode(), body[4 + max(size, 0) :]
            yield "'" + text.replace("'", "''") + "'" if kind == TEXT_TYPE else text or "0"

    def answer(self):
        return tuple(self.told), self.error


def sql_of(block):
    """The statements of a block but for CREATE TABLE, each on one line."""
    kept = (piece for _begin, piece in pieces(block.text if block else b"") if not any(isinstance(one, Create) for one in read_sql(piece)))
    texts = [one_line(piece).removesuffix(";").strip() for piece in kept]
    return " ".join(f"{text};" for text in texts if text)


class Sessions:
    """The sessions of a spec, on fresh tables."""

    def __init__(self, folder, control, file, spec):
        self.control, self.spec, self.waiting = control, spec, set()
        control.ask(" ".join(["DROP SCHEMA public CASCADE; CREATE SCHEMA public;", *(create_sql(*one) for one in spec.tables.items())]))
        for block in file.setups:
            control.ask(sql_of(block))
        self.clients = [Client(folder) for _session in file.sessions]
        for client, session in zip(self.clients, file.sessions, strict=True):
            client.ask(sql_of(session.setup))
        self.texts = [sql_of(block) for session in file.sessions for _name, block in session.steps]

    def is_blocked(self, session):
        return self.control.ask(f"SELECT cardinality(pg_blocking_pids({self.clients[session].pid}))::bigint")[0] != "0"

    def has_ended(self, session):
        """Whether a session has ended its step. Else it is blocked, for so long that no deadlock is looked for any more."""
        client = self.clients[session]
        while not client.is_ended(SOON):
            if self.is_blocked(session) and not client.is_ended(LATER) and self.is_blocked(session):
                return client.is_ended(0)
        return True

    def step(self, step):
        """What each session comes to where a step is sent."""
        sender, _statements = self.spec.steps[step]
        self.clients[sender].send(self.texts[step])
        found = {sender: WAITS}
        self.waiting.add(sender)
        # Who ends lets others go on, who may then end too.
        while done := [session for session in sorted(self.waiting) if self.has_ended(session)]:
            self.waiting -= {*done}
            found |= {session: self.clients[session].answer() for session in done}
        return found

    def left(self):
        return {name: self.control.ask(f"SELECT * FROM {name}") for name in self.spec.tables}

    def close(self):
        for client in self.clients:
            client.socket.close()
        self.control.ask("SELECT pg_terminate_backend(pid, 10000) FROM pg_stat_activity WHERE pid <> pg_backend_pid() AND backend_type = 'client backend'")


@contextmanager
def sessions_of(*words):
    sessions = Sessions(*words)
    try:
        yield sessions
    finally:
        sessions.close()


def run(folder, control, file, spec, order):
    """What PostgreSQL tells of an order, as far as it can be sent there: a session that waits is sent nothing."""
    moments = []
    with sessions_of(folder, control, file, spec) as sessions:
        for step in order.steps:
            if spec.steps[step][0] in sessions.waiting:
                return tuple(moments), None
            moments.append(sessions.step(step))
        return tuple(moments), sessions.left()


# ---- both


def compare_spec(folder, control, name, text, counts):
    """Compares all orders of a spec, and yields the lines of what differs."""
    text = re.split(rb"(?m)^permutation", text)[0]
    file = read_spec(text)
    spec = bind_at(text, file, READ_COMMITTED)
    orders, are_all = some_orders(spec)
    counts.update({"specs": 1, "specs with a sample": int(not are_all), "orders": len(orders)})
    kinds = {}
    with TemporaryDirectory() as place:
        path = Path(place, "made.spec")
        path.write_bytes(text)
        for order in (told_of(path, spec, one) for one in orders):
            counts["orders with a wait"] += any(WAITS in one.values() for one in order.moments)
            found = difference(order, run(folder, control, file, spec, order))
            again = found and difference(order, run(folder, control, file, spec, order))
            if again:
                kinds.setdefault(again[0], []).append((order, again))
            counts[f"orders that differ: {again[0]}" if again else "orders that are equal at times" if found else "orders that are equal"] += 1
    for some in kinds.values():
        yield from difference_lines(name, spec, statements_of(file), some)


def main(*words):
    counts, specs = Counter(), specs_of(words)
    began = time.monotonic()
    try:
        with server() as connection:
            folder = re.search("host=(\\S+)", connection)[1]
            control = Client(folder)
            for name, text in specs:
                try:
                    print("".join(f"{line}\n" for line in compare_spec(folder, control, name, text, counts)), end="", flush=True)
                except Refusal as refusal:
                    counts["specs that are refused"] += 1
                    print(refusal.line(name).decode(), end="", flush=True)
    except NoServer as wrong:
        print(f"no server: {wrong}")
        return NO_SERVER
    for word, count in counts.items():
        print(f"  {count:7} {word}")
    print(f"{time.monotonic() - began:.0f} seconds")
    return 1 if any(word.startswith("orders that differ") for word in counts) else 0


if __name__ == "__main__":
    if len(sys.argv) < 2:
        sys.exit(__doc__)
    sys.exit(ended(main, *sys.argv[1:]))
