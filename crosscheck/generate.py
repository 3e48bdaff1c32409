"""Makes spec files from a seed: any statements, sessions that hinder one another, and texts with something wrong in them."""

import re
from functools import cache
from random import Random, SystemRandom

from binding import words

BIG = ["9223372036854775807", "-9223372036854775808", "4611686018427387904", "3037000500"]
TEXTS = ["''", "'a'", "'b'", "'aa'", "'A'", "'it''s'", "''''", "'é'", "'a|b'", "'\n'"]
TYPES = ["int", "INTEGER", "int4", "bigint", "int8"]
LOCK_MODES = [
    "ACCESS SHARE",
    "ROW SHARE",
    "ROW EXCLUSIVE",
    "SHARE",
    "SHARE ROW EXCLUSIVE",
    "EXCLUSIVE",
    "ACCESS EXCLUSIVE",
]
# Words that mean something at the end of a statement, and that may be names everywhere.
LOCK_WORDS = ["for", "nowait", "update", "share"]
ROW_LOCKS = [" FOR UPDATE", " FOR UPDATE", " FOR UPDATE", " for update", " FOR SHARE", " For Share"]
ROW_LOCKS += [" FOR UPDATE NOWAIT", " for update nowait", " FOR SHARE NOWAIT", "\nfor share\nNoWait"]
# How a SELECT does not end.
NO_ROW_LOCKS = [" FOR", " NOWAIT", " FOR NOWAIT", " FOR UPDATE SHARE", " FOR SHARE NOWAIT NOWAIT", " FOR UPDATE FOR SHARE"]
NO_ROW_LOCKS += [" FOR SHARE ORDER BY v", " FOR UPDATE WHERE v = 1", " ORDER BY FOR UPDATE", " FOR KEY SHARE", " FOR UPDATE OF t"]
NO_LOCKS = ["LOCK t NOWAIT IN SHARE MODE", "LOCK t IN NOWAIT MODE", "LOCK t IN SHARE NOWAIT", "LOCK t IN SHARE MODE NOWAIT NOWAIT"]
NO_LOCKS += ["LOCK nowait", "LOCK TABLE NOWAIT NOWAIT", "LOCK NOWAIT t", "LOCK t FOR UPDATE", "NOWAIT", "FOR UPDATE"]
NO_LOCKS += ["DELETE FROM t NOWAIT", "UPDATE t SET v = 1 FOR UPDATE", "INSERT INTO t VALUES (1, 'a', 2) NOWAIT", "COMMIT NOWAIT"]
BEGINS = [
    "BEGIN",
    "BEGIN WORK",
    "START TRANSACTION",
    "BEGIN ISOLATION LEVEL SERIALIZABLE",
    "begin transaction isolation level read committed",
]
# BEGINs of both levels, and those of a level that is refused where one is asked for.
BEGINS_AT_LEVELS = ["BEGIN", "BEGIN ISOLATION LEVEL READ COMMITTED", "BEGIN ISOLATION LEVEL READ UNCOMMITTED"]
BEGINS_AT_LEVELS += ["START TRANSACTION ISOLATION LEVEL SERIALIZABLE"]
REPEATABLE_READ = ["BEGIN ISOLATION LEVEL REPEATABLE READ", "start transaction\n isolation level repeatable read"]
# Lines that ask for a level, such as ask for none that there is, and comments that ask for nothing.
LEVEL_LINES = ["# level: read-committed", "# level: read-committed", "# level: serializable", " \t#\tlevel:\tread-committed \f\r", "#level:serializable"]
WRONG_LEVEL_LINES = ["# level:", "# level: snapshot", "# level: read committed", "# level: READ-COMMITTED", "# level: repeatable-read"]
WRONG_LEVEL_LINES += ["# level: read-committed # or not", "# level: # level: serializable", "# level: é", "# level:\u00a0serializable"]
NO_LEVEL_LINES = ["# Level: snapshot", "# # level: snapshot", "# no level: snapshot", "# level : snapshot", "# levels: snapshot", "\f# level: snapshot"]
COMMITS = ["COMMIT", "END", "COMMIT WORK", "commit transaction"]
ROLLBACKS = ["ROLLBACK", "ABORT", "rollback work"]
SETTINGS = ["SET x = 1", "SET LOCAL a TO b", "SET SESSION a = 'q'", "SET local = 1", "SET LOCAL TO TO x"]
SETTINGS += ["SET for = share", "SET LOCAL nowait TO update"]
# How many steps a session may have, by the number of sessions.
MANY_STEPS = {2: [3, 4, 5], 3: [3, 3, 4], 4: [2, 3]}
FEW_STEPS = {2: [2, 3, 4], 3: [1, 2, 2], 4: [1]}
SESSION_NAMES = ["s{}", "session_{}", '"session {}"', '"step""{}"']
MAX_SESSIONS, MAX_STEPS, TOO_MANY_RANKS = 8, 28, 2**63
# So many shapes on either side of the limit are near it.
NEAR_SHAPES = 6
STRAY = (
    "select from where and or not ( ) , * = < - + 1 99999999999999999999 'a' ' \" { } # -- step session setup permutation "
    "teardown notices x t id v primary key table create insert into values begin commit lock in mode share set to local ; $ "
    "\x0b é \u00a0 order by desc count sum s0_0 s1_0 isolation level for FOR nowait NOWAIT update share"
).split(" ")


class Table:
    def __init__(self, name, columns, key):
        self.name, self.columns, self.key = name, columns, key

    def of_type(self, is_text):
        return [name for name, text in self.columns if text == is_text]


def falling(total, most, largest):
    """The lists of at most so many numbers that do not rise, from the largest one down, and have this sum."""
    if total == 0:
        yield []
    for first in range(min(total, largest), 0, -1) if most else []:
        yield from ([first, *rest] for rest in falling(total - first, most - 1, first))


@cache
def large_shapes():
    """Numbers of steps of sessions: those with so few ranks that they are a spec, and those with too many, by these numbers."""
    shapes = [shape for steps in range(1, MAX_STEPS + 1) for shape in falling(steps, MAX_SESSIONS, steps)]
    shapes.sort(key=words)
    return tuple([shape for shape in shapes if (words(shape) < TOO_MANY_RANKS) == is_spec] for is_spec in (True, False))


class Maker:
    def __init__(self, seed):
        self.random = Random(seed)

    def one(self, items):
        return self.random.choice(items)

    def some(self, chance):
        return self.random.random() < chance

    def many(self, most, item):
        return [item() for _ in range(self.random.randint(1, most))]

    # any statements

    def names(self, plain, most):
        """Some names, words of locks among them at times."""
        return self.random.sample(plain + LOCK_WORDS * self.some(0.3), self.random.randint(1, most))

    def table(self, name):
        names = self.names(["id", "v", "w", "k", "x1", "count", "sum"], 4)
        columns = [(column, self.some(0.25)) for column in names]
        return Table(name, columns, self.one([None] + names * 2))

    def create(self, table):
        stands_apart = self.some(0.4)
        parts = []
        for name, is_text in table.columns:
            part = f"{name} {'text' if is_text else self.one(TYPES)}{self.one([' NOT NULL', '', ''])}"
            parts.append(part + (" PRIMARY KEY" if name == table.key and not stands_apart else ""))
        if table.key and stands_apart:
            parts.insert(self.random.randint(0, len(parts)), f"PRIMARY KEY ({table.key})")
        return f"CREATE TABLE {table.name} ({', '.join(parts)})"

    def literal(self, is_text):
        if is_text:
            return self.one(TEXTS)
        return self.one([str(self.random.randint(0, 3))] * 12 + [str(-self.random.randint(0, 3)), self.one(BIG)])

    def operand(self, table, is_text):
        columns = table.of_type(is_text)
        return self.one(columns) if columns and self.some(0.6) else self.literal(is_text)

    def expression(self, table, is_text):
        made = self.operand(table, is_text)
        while not is_text and self.some(0.3):
            made += f" {self.one(['+', '-', '*', '+'])} {self.operand(table, is_text)}"
        return made

    def comparison(self, table):
        _name, is_text = self.one(table.columns)
        sign = self.one(["=", "=", "<>", "!=", "<", "<=", ">", ">="])
        return f"{self.expression(table, is_text)} {sign} {self.expression(table, is_text)}"

    def condition(self, table, depth=0):
        kind = self.random.random()
        if table.key and kind < 0.5:
            made = f"{table.key} = {self.literal(dict(table.columns)[table.key])}"
        elif kind < 0.6 and depth < 3:
            made = f"({self.condition(table, depth + 1)})"
        elif kind < 0.68:
            made = f"NOT {self.comparison(table)}"
        else:
            made = self.comparison(table)
        if depth < 3 and self.some(0.28):
            made += f" {self.one(['AND', 'AND', 'OR'])} {self.condition(table, depth + 1)}"
        return made

    def where(self, table):
        return f" WHERE {self.condition(table)}" if self.some(0.8) else ""

    def insert(self, table):
        columns, named = list(table.columns), ""
        if self.some(0.3):
            self.random.shuffle(columns)
            named = f" ({', '.join(name for name, _is_text in columns)})"
        rows = [self.row(columns) for _ in range(self.random.randint(1, 3) if self.some(0.4) else 1)]
        return f"INSERT INTO {table.name}{named} VALUES {', '.join(rows)}"

    def row(self, columns):
        return f"({', '.join(self.literal(is_text) for _name, is_text in columns)})"

    def select(self, table):
        names = [name for name, _is_text in table.columns]
        totals = ["count(*)", "COUNT ( * )"] + [f"sum({name})" for name in table.of_type(False)]
        columns = self.many(2, lambda: self.one(names))
        has_totals = self.some(0.25)
        items = self.many(2, lambda: self.one(totals)) if has_totals else self.one([["*"], columns, columns])
        order = ""
        if self.some(0.3):
            keys = self.many(2, lambda: self.one(names) + self.one(["", " ASC", " DESC", " desc"]))
            order = f" ORDER BY {', '.join(keys)}"
        # Behind totals a lock is a fault.
        lock = self.row_lock(0.02 if has_totals else 0.45)
        return f"SELECT {', '.join(items)} FROM {table.name}{self.where(table)}{order}{lock}"

    def row_lock(self, chance):
        return self.one(ROW_LOCKS) if self.some(chance) else ""

    def lock(self, name, modes):
        mode = self.one([""] * 2 + [f" IN {mode} MODE" for mode in modes])
        return f"LOCK {self.one(['', 'TABLE '])}{name}{mode}{self.one(['', '', ' NOWAIT', ' nowait'])}"

    def update(self, table):
        others = [column for column in table.columns if column[0] != table.key]
        if not others:
            return self.insert(table)
        chosen = self.random.sample(others, self.random.randint(1, min(2, len(others))))
        sets = ", ".join(f"{name} = {self.expression(table, is_text)}" for name, is_text in chosen)
        return f"UPDATE {table.name} SET {sets}{self.where(table)}"

    def statement(self, tables):
        table, kind = self.one(tables), self.random.random()
        if kind < 0.28:
            return self.select(table)
        if kind < 0.48:
            return self.update(table)
        if kind < 0.62:
            return self.insert(table)
        if kind < 0.72:
            return f"DELETE FROM {table.name}{self.where(table)}"
        if kind < 0.79:
            return self.lock(table.name, LOCK_MODES)
        return self.one(self.one([SETTINGS, BEGINS, BEGINS, COMMITS, COMMITS, ROLLBACKS]))

    def block(self, statements):
        between = self.one(["; ", ";\n  ", " ; ; "])
        return f"{{ {between.join(statements)}{';' if statements and self.some(0.7) else ''} }}"

    def line(self, steps):
        items = []
        for _ in range(self.random.randint(1, 8)):
            marker = self.one([""] * 8 + ["(*)", f"({self.one(steps)})", f"({self.one(steps)} notices 3, *)"])
            items.append(self.one(steps) + marker)
        return f"permutation {' '.join(items)}\n"

    def any_spec(self):
        tables = [self.table(name) for name in self.names(["t", "u", "n", "p", "Tab_1"], 3)]
        creates = [self.create(table) for table in tables]
        fills = [self.insert(table) for table in tables for _ in range(self.random.randint(0, 2))]
        setups = [creates, fills] if self.some(0.2) else [creates + fills]
        made = "".join(f"setup {self.block(setup)}\n" for setup in setups)
        made += "teardown { anything }\n" if self.some(0.1) else ""
        sessions, steps = self.one([1, 2, 2, 2, 3, 3, 4]), []
        for session in range(sessions):
            made += f"session {self.one([*SESSION_NAMES, LOCK_WORDS[session]]).format(session)}\n"
            if self.some(0.65):
                setup = ["BEGIN"] * self.some(0.9) + [self.statement(tables) for _ in range(self.some(0.12))]
                made += f"setup {self.block(setup)}\n"
            for number in range(self.one([1, 2] if sessions == 4 else [1, 2, 2, 3])):
                is_plain = number or self.some(0.8)
                steps.append(f"s{session}_{number}" if is_plain else LOCK_WORDS[session])
                statements = [self.statement(tables) for _ in range(self.one([0, 1, 1, 1, 1, 2, 2, 3]))]
                made += f"step {steps[-1]} {self.block(statements)}\n"
        if self.some(0.25):
            made += "".join(self.many(3, lambda: self.line(steps)))
        return made.encode()

    # sessions that hinder one another

    def hindering_statement(self, home):
        kind, key, letter = self.random.random(), self.random.randint(1, 3), self.one("ab")
        table = home or self.one(["t", "t", "t", "u", "n"])
        by_key = {"t": f" WHERE id = {key}", "u": f" WHERE k = '{letter}'", "n": ""}[table]
        change = {"t": f"v = v + {key}", "u": "w = w * 2", "n": "a = b, b = a"}[table]
        other = {"t": " WHERE v > 15", "u": "", "n": " WHERE b = 2"}[table]
        row = {"t": f"({self.random.randint(1, 5)}, 0)", "u": f"('{self.one('abc')}', 7)", "n": "(5, 5)"}[table]
        total = {"t": "count(*), sum(v)", "u": "*", "n": "a"}[table]
        order = {"t": " ORDER BY v DESC", "u": " ORDER BY w, k", "n": " ORDER BY b DESC, a"}[table]
        if kind < 0.3:
            return f"SELECT * FROM {table}{self.one([by_key] * 3 + [other])}{self.one(['', '', order])}{self.row_lock(0.7)}"
        if kind < 0.36:
            return f"SELECT {total} FROM {table}{'' if table == 't' else self.row_lock(0.5)}"
        if kind < 0.6:
            return f"UPDATE {table} SET {change}{by_key}"
        if kind < 0.66:
            return f"UPDATE {table} SET {change}{other}"
        if kind < 0.75:
            return f"INSERT INTO {table} VALUES {row}"
        if kind < 0.83:
            return f"DELETE FROM {table}{by_key}"
        return self.lock(table, LOCK_MODES[:5])

    def hindering_setup(self, locks):
        """A session's setup. Where setups lock, some of them are refused."""
        if not self.some(0.85):
            return ""
        lock = f" {self.one([self.lock('t', LOCK_MODES[:5]), f'SELECT * FROM t WHERE id = 1{self.one(ROW_LOCKS)}'])};"
        return f"setup {{ BEGIN;{lock if locks and self.some(0.2) else ''} }}\n"

    def hindering_spec(self, numbers=(2, 3, 3, 4), homes="", steps=MANY_STEPS, setups_lock=False):
        made = (
            "setup { CREATE TABLE t (id int PRIMARY KEY, v int); CREATE TABLE u (k text PRIMARY KEY, w int);\n"
            "  CREATE TABLE n (a int, b int); INSERT INTO t VALUES (1, 10), (2, 20), (3, 30);\n"
            "  INSERT INTO u VALUES ('a', 1), ('b', 2); INSERT INTO n VALUES (1, 1), (1, 2); }\n"
        )
        sessions = self.one(numbers)
        for session in range(sessions):
            home = self.one(homes) if homes else None
            made += f"session s{session}\n{self.hindering_setup(setups_lock)}"
            last = self.one(steps[sessions]) - 1
            for number in range(last + 1):
                statements = [self.hindering_statement(home) for _ in range(self.one([1, 1, 1, 2]))]
                is_last = number == last
                if self.some(0.9 if is_last else 0.08):
                    end = self.one(["COMMIT"] * 3 + ["ROLLBACK"])
                    statements = [end] if is_last and self.some(0.5) else statements + [end]
                made += f"step s{session}_{number} {self.block(statements)}\n"
        return made.encode()

    def apart_spec(self):
        """Each session keeps to a table, so that those of one table hinder one another beside those of others."""
        return self.hindering_spec([4], "ttun")

    def few_spec(self):
        """So few steps that one book has all their orders. Some sessions hold locks from the start."""
        return self.hindering_spec([2, 2, 3, 4], steps=FEW_STEPS, setups_lock=True)

    # levels

    def levelled_spec(self):
        """Sessions that hinder one another, of few steps and several transactions. Their BEGINs name levels, and more SELECTs are plain."""
        made = self.hindering_spec([2, 2, 3], steps=FEW_STEPS, setups_lock=self.some(0.3)).decode()
        made = re.sub(r"(?i)\s+for\s+(update|share)(\s+nowait)?", lambda found: found[0] if self.some(0.5) else "", made)
        made = re.sub(r"\b(COMMIT|ROLLBACK)\b", lambda found: found[0] + "; BEGIN" * self.some(0.3), made)
        made = re.sub(r"(?<=step s\d_\d \{ )", lambda _found: self.one(["", "", "BEGIN; ", "COMMIT; ", "COMMIT; BEGIN; "]), made)
        return re.sub(r"\bBEGIN\b", lambda _found: self.one(BEGINS_AT_LEVELS), made).encode()

    def level_line(self):
        return self.one(self.one([LEVEL_LINES] * 8 + [NO_LEVEL_LINES] * 2 + [WRONG_LEVEL_LINES]))

    def with_level_lines(self, made):
        """A text with comments that ask for a level, and such as look so: mostly one line, outside of its blocks. Each block of it ends on a line of its own."""
        lines, text = made.splitlines(keepends=True), ""
        places = [place for place in range(len(lines) + 1) if sum(line.count("{") - line.count("}") for line in lines[:place]) == 0]
        taken = [self.one(places) for _ in range(self.one([0, 1, 1, 1, 1, 1, 2]))]
        for place, line in enumerate([*lines, ""]):
            text += "".join(f"{self.level_line()}\n" for _ in range(taken.count(place)))
            # A comment behind other text, or behind the end of a block, asks for nothing.
            is_ended = place + 1 in places and line.endswith("\n") and self.some(0.05)
            text += f"{line[:-1]} {self.one(LEVEL_LINES + WRONG_LEVEL_LINES)}\n" if is_ended else line
        return text

    def levels_spec(self):
        """Specs that ask for levels, or seem to, by lines outside of blocks, in blocks, in texts and names, and by BEGINs."""
        made = self.levelled_spec().decode()
        if self.some(0.1):
            made = re.sub(r"(?:BEGIN|START TRANSACTION)(?: ISOLATION LEVEL [A-Z ]+[A-Z])?", lambda found: self.one([found[0], self.one(REPEATABLE_READ)]), made)
        made = self.with_level_lines(made)
        line = self.one(LEVEL_LINES + WRONG_LEVEL_LINES)
        if self.some(0.1):
            made = made.replace("'a'", f"'\n{line}\n'")
        if self.some(0.1):
            made = made.replace("session s0\n", f'session "{line.strip()}"\n'.replace("\t", " "))
        if self.some(0.1):
            made += f"teardown {{\n{line}\n}}\n"
        if self.some(0.05):
            made = self.one([made.rstrip("\n"), made.replace("step", f"{line} step", 1), made.replace("}", f"\n{line}\n}}", 1)])
        return made.encode()

    # texts with something wrong in them

    def damaged(self, made):
        """A text with a few tokens lost, doubled or strayed in, lines doubled, or its end cut off."""
        for _ in range(self.one([1, 1, 1, 2, 3])):
            start, end = self.one([found.span() for found in re.finditer(r"\w+|\s+|[^\w\s]", made)])
            kind, stray = self.random.random(), self.one(STRAY)
            if kind < 0.3:
                made = made[:start] + made[end:]
            elif kind < 0.6:
                made = f"{made[:start]} {stray} {made[start:]}"
            elif kind < 0.8:
                made = made[:start] + stray + made[end:]
            elif kind < 0.86:
                made = made[:end] + made[start:]
            elif kind < 0.95:
                lines = made.split("\n")
                lines.insert(self.random.randint(0, len(lines)), self.one(lines))
                made = "\n".join(lines)
            else:
                made = made[:end]
        return made

    def wrong_spec(self):
        text = self.damaged(self.any_spec().decode()).encode()
        if self.some(0.03):
            place = self.random.randint(0, len(text))
            text = text[:place] + bytes([self.random.randint(128, 255)]) + text[place:]
        return text

    # statements that do not fit the tables

    def any_value(self):
        return self.literal(self.some(0.5))

    def misfit(self, table):
        column = lambda: self.one([name for name, _is_text in table.columns] + ["nothing"])
        values, columns = self.many(4, self.any_value), self.many(3, column)
        return self.one(
            [
                f"INSERT INTO t VALUES ({', '.join(values)})",
                f"INSERT INTO t ({', '.join(columns)}) VALUES ({', '.join(values[:3])})",
                f"UPDATE t SET {', '.join(f'{column()} = {self.one([column(), self.any_value()])}' for _ in range(2))}",
                f"SELECT {column()} FROM t WHERE {column()} < {self.one([column(), self.any_value()])} + 1",
                f"SELECT sum({column()}) FROM t ORDER BY {column()}",
                f"DELETE FROM {self.one(['t', 'nowhere'])} WHERE {column()} = {self.any_value()}",
                f"CREATE TABLE {self.one('tx')} ({self.one('ab')} int, {self.one('ab')} text, PRIMARY KEY (a))",
                f"SELECT {self.one([column(), '*'])} FROM {self.one(['t', 'nowhere'])}{self.one(ROW_LOCKS)}",
                f"SELECT {self.one(['id', 'id', 'count(*)'])} FROM t{self.one(ROW_LOCKS + NO_ROW_LOCKS)}",
                self.one(NO_LOCKS),
            ]
        )

    def misfit_spec(self):
        table = Table("t", [("id", False), ("w", True), ("v", False)], self.one(["id", "w", None]))
        step = self.many(4, lambda: self.misfit(table) if self.some(0.3) else self.statement([table]))
        setup = [self.create(table)] + [self.misfit(table) for _ in range(self.some(0.3))]
        return f"setup {self.block(setup)} session a step s {self.block(step)}".encode()

    # texts near a limit

    def near(self, limit):
        return self.random.randint(limit - 1, limit + 2)

    def one_step(self, sql):
        return f"setup {{ CREATE TABLE t (id int PRIMARY KEY, v int); }} session a step s {{ {sql} }}"

    def of_shape(self, counts, has_lines):
        """Sessions with so many empty steps, in any order."""
        made, steps = "", 0
        for session, count in enumerate(self.random.sample(counts, len(counts))):
            made += f"session a{session} {' '.join(f'step s{steps + step} {{}}' for step in range(count))}\n"
            steps += count
        return made + "permutation s1 s0\n" * has_lines

    def with_sessions(self):
        return self.of_shape([self.one([1, 1, 2, 3])] * self.near(MAX_SESSIONS), self.some(0.3))

    def with_steps(self):
        has_lines, sessions = self.some(0.5), self.random.randint(1, 3)
        steps = self.near(255 if has_lines else MAX_STEPS)
        few = [self.random.randint(1, 9) for _ in range(sessions - 1)]
        return self.of_shape([*few, steps - sum(few)], has_lines)

    def with_ranks(self):
        """As many ranks as there may be, some more or less, or far too many."""
        fewer, more = large_shapes()
        shapes = self.one([fewer[-NEAR_SHAPES:], fewer[-NEAR_SHAPES:], more[:NEAR_SHAPES], more[:NEAR_SHAPES], more])
        return self.of_shape(self.one(shapes), self.some(0.15))

    def with_items(self):
        items = [self.one(["s"] * 8 + ["s(*)", "r(s notices 2)"]) for _ in range(self.near(28))]
        return f"session a step s {{}} session b step r {{}} permutation {' '.join(items)} {self.one(['', '', '', 's', 'x', '('])}"

    def with_lines(self):
        return "session a step s {} " + "permutation s\n" * self.near(4096) + self.one(["", "permutation", "s", "x"])

    def with_rows(self):
        rows = ", ".join(f"({number}, 0)" for number in range(self.near(100)))
        return self.one_step(f"INSERT INTO t VALUES {rows}{self.one(['', ';', ', ', ', (1', ', 1'])}")

    def with_levels(self):
        opened = [self.one(["(", "(", "NOT "]) for _ in range(self.near(32))]
        closed = ")" * opened.count("(")
        lock = self.row_lock(0.3)
        return self.one_step(f"SELECT * FROM t WHERE {''.join(opened)}v = 1{closed[self.random.randint(0, 1) :]}{lock}")

    def with_number(self):
        number = self.one(["", "-", "- "]) + str(2**63 + self.random.randint(-2, 1))
        form = self.one(["UPDATE t SET v = {}", "SELECT * FROM t WHERE v < {}", "SET x = {}", "SELECT {} FROM t", "INSERT INTO t VALUES ({}, 0)"])
        return self.one_step(form.format(number))

    def with_bytes(self):
        start = "session a step s {} #"
        return start + "x" * (self.near(65536) - len(start))

    def limit_spec(self):
        forms = [self.with_sessions, self.with_steps, self.with_ranks, self.with_items, self.with_lines]
        forms += [self.with_rows, self.with_levels, self.with_number, self.with_bytes]
        return self.one(forms)().encode()

    # tables of many columns

    def wide_column(self, names):
        return self.one([names[-1], names[1], self.one(names), self.one(["nothing", names[len(names) // 2]])])

    def wide_row(self, first, count):
        return f"({', '.join(str(first + place) for place in range(count + self.one([0] * 12 + [1, -1])))})"

    def wide_statement(self, names):
        column, other = self.wide_column(names), self.wide_column(names)
        return self.one(
            [
                f"SELECT {column}, id FROM t WHERE {other} > {self.random.randint(0, len(names))} ORDER BY {other} DESC",
                f"SELECT {column} FROM t WHERE id = {self.random.randint(1, 2)}{self.one(ROW_LOCKS)}",
                f"SELECT sum({column}), count(*) FROM t",
                f"UPDATE t SET {column} = {other} + 1 WHERE id = {self.random.randint(1, 2)}",
                f"DELETE FROM t WHERE {column} = {self.random.randint(1, len(names))}",
            ]
        )

    def wide_spec(self):
        count = self.one([255, 256, 257, 258, 300, 700])
        names = ["id"] + [f"c{number}" for number in range(1, count)]
        if self.some(0.15):
            names[self.random.randint(1, count - 1)] = self.one(names)
        columns = ", ".join(f"{name} int" for name in names[1:])
        setup = [f"CREATE TABLE t (id int PRIMARY KEY, {columns})"]
        setup.append(f"INSERT INTO t VALUES {self.wide_row(1, count)}, {self.wide_row(2, count)}")
        steps = ""
        for session in "ab":
            statements = self.many(3, lambda: self.wide_statement(names))
            steps += f"session {session} step {session}1 {self.block(statements)}\n"
        return f"setup {self.block(setup)}\n{steps}".encode()


def of_length(length, front=b"session a step s {} #"):
    """A spec of so many bytes."""
    return front + b"x" * (length - len(front))


# The specs that belong to each comparison of a kind, before those of its seeds: lengths round the longest, and bytes in front of its end that
# are no text.
ALWAYS = {"limits": [*map(of_length, range(65_535, 65_539)), of_length(65_537, b"session a step s {} #\x80\x80\xe2\x82")]}

KINDS = {
    "any": Maker.any_spec,
    "hindering": Maker.hindering_spec,
    "apart": Maker.apart_spec,
    "few": Maker.few_spec,
    "levels": Maker.levels_spec,
    "wrong": Maker.wrong_spec,
    "misfits": Maker.misfit_spec,
    "limits": Maker.limit_spec,
    "wide": Maker.wide_spec,
}


def fresh_seed():
    """A seed that nobody knows before."""
    return SystemRandom().randrange(10**9)
