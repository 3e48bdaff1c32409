"""Makes the words of what is asked of the classes of a spec: filters, queries and expectations that fit its tables, from a seed."""

from class_request import ALL_ORDERS, BOTH_LEVELS, BRIEF, EXPECT, FILTERS, FLAGS, HTML, JSON, LEVEL, MEMORY, NOT_OF_PAGES, OF_LEVELS, OLD_WORDS, QUERY, SAMPLE, SEED, filter_of, opposite
from compare_shown import is_told_alike
from generate import BIG, ROW_LOCKS, Maker, Table
from machine import LEVELS
from queries import is_query, query_of, rows_in, seen

MOST_TRIES, ORDERS_SEEN = 20, 8
# What stands where a SELECT has one blank, so that it is spelled otherwise, and behind it.
BLANKS, ENDS = ["  ", "\n", "\t", "\r\n", " -- seen\n"], ["", "", "", "", ";", " ;", " -- as it is left"]
# What stands in front of it. A word does not begin with a hyphen.
FRONTS = [" ", "\n", ";", " ; ;", " -- é\n", "\t-- it's\r\n", ";--\n", "\r\n\f"]
# Values that are expected and mostly not there, and what no row has so.
VALUES = ["0", "1", "2", "3", "10", "11", "40", "60", "-1", "'a'", "''", "'b'", "''''", "'it''s'", *BIG]
NO_VALUES = ["01", "00", "+1", "-0", "-01", "1.0", "1e3", " 1", "1 ", "0x1", "١", "9223372036854775808", "-9223372036854775809"]
NO_VALUES += ["NULL", "a", "", "'", "'a", "a'", "'''", "'it's'", '"a"', "'a' ", "1|2", "'é", "\\"]
# What is no SELECT, whatever tables there are.
NO_SELECTS = ["", ";", " -- nothing", "SET x = 1", "ROLLBACK", "CREATE TABLE t (a int)", "BEGIN; ROLLBACK", "SELECT", "DROP TABLE t"]
NO_SELECTS += ["SELECT * FROM t;;SHOW x", f"SELECT * FROM t WHERE {'(' * 33}a = 1{')' * 33}", "SELECT * FROM t WHERE a = -9223372036854775809"]
NO_SELECTS += ["SELECT * FROM t WHERE b = 'it''s", "SELECT * FROM t -- }\n}", "SELECT * FROM t LIMIT 1", "SELECT count(*), a FROM t"]
NO_SELECTS += ["SELECT count(*) FROM t FOR UPDATE", "SELECT é FROM t"]
NOBODY = ["nobody", "S0", "s9", "a b", 'say "no"', "back\\slash", "s0 ", "no\tbody", "é", "it's"]
TEXT = "'a'"
WITHOUT_TABLES = ["SELECT * FROM t", "SELECT count(*) FROM t"]


class Asker(Maker):
    """Asks for the classes of a spec: none where it is refused. Where its classes are known, values are expected that are there."""

    def __init__(self, seed, spec, classes=None):
        super().__init__(seed)
        self.spec, self.classes = spec, classes
        tables = spec.tables.items() if spec else ()
        self.tables = [Table(name, [(column, table.is_text[column]) for column in table.columns], table.key) for name, table in tables]
        self.known = classes.all if classes else []

    # filters

    def session_names(self):
        return [name for name in self.spec.session_names if "\0" not in name] if self.spec else []

    def session(self):
        return self.one(self.session_names()) if self.session_names() and self.some(0.85) else self.nobody()

    def nobody(self):
        """Mostly a name that no session has."""
        names = self.session_names()
        return self.one([name for name in [*NOBODY, *(name + "x" for name in names), *map(str.upper, names)] if is_told_alike(name)])

    def filter(self):
        name = self.one([*FILTERS])
        # A file with permutation lines is refused where it is asked for R, and what is not sent goes with all permutations: both are rare.
        is_lined = bool(self.spec and self.spec.lines is not None)
        while (name == "not-sent" or (name == "anomaly" and is_lined)) and self.some(0.8):
            name = self.one([*FILTERS])
        word = self.one(["--", "--no-"]) + name
        return f"{word}={self.session()}" if name == "deadlock" and self.some(0.5) else word

    def filters(self):
        """Filters, each once but for those of deadlocks. Mostly some orders pass all of them."""
        found = []
        for _ in range(self.one([0, 1, 1, 1, 2, 2, 3])):
            word = self.filter()
            letter = filter_of(word).letter
            if letter == "D" or letter not in {filter_of(one).letter for one in found} or (word not in found and self.some(0.1)):
                found.append(word)
        if self.known and self.some(0.75):
            found = [*map(self.passed_by(self.one(self.known)), found)]
        return [word for place, word in enumerate(found) if filter_of(word).letter == "D" or word not in found[:place]]

    def passed_by(self, order_class):
        """What turns a filter that the orders of a class do not pass into its opposite."""

        def turned(word):
            one = filter_of(word)
            is_known = one.session is None or one.session in self.spec.session_names
            return word if not is_known or one.passes(self.spec, order_class) else opposite(word)

        return turned

    # queries

    def final_value(self, table, column):
        """A value that some final row has in a column, or any one."""
        rows = dict(self.one(self.known).ending.final_rows).get(table.name, ()) if self.known else ()
        place = [name for name, _is_text in table.columns].index(column)
        if not rows or self.some(0.2):
            return self.literal(dict(table.columns)[column])
        value = self.one(rows)[place]
        return str(value) if isinstance(value, int) else "'" + value.decode().replace("'", "''") + "'"

    def comparison(self, table):
        column, is_text = self.one(table.columns)
        if not is_text and self.some(0.15):
            return f"{column} {self.one('+*-')} {self.one(BIG)} > {self.random.randint(-1, 1)}"
        return f"{column} {self.one(['=', '=', '<>', '<', '>='])} {self.final_value(table, column)}"

    def by_key(self, table):
        return f"{table.key} = {self.final_value(table, table.key)}" if table.key else self.comparison(table)

    def condition_of_query(self, table):
        parts = [self.one([self.by_key, self.by_key, self.comparison])(table) for _ in range(self.one([1, 1, 1, 2, 2, 5]))]
        return f" {self.one(['AND', 'AND', 'OR'])} ".join(parts)

    def query_of_table(self, table):
        names = [name for name, _is_text in table.columns]
        totals = ["count(*)", *(f"sum({name})" for name in table.of_type(False) for _ in range(2))]
        has_totals = self.some(0.5)
        items = self.many(3, lambda: self.one(totals)) if has_totals else self.one([["*"], self.many(3, lambda: self.one(names))])
        where = f" WHERE {self.condition_of_query(table)}" if self.some(0.4 if has_totals else 0.7) else ""
        order = f" ORDER BY {', '.join(self.many(2, lambda: self.one(names) + self.one(['', ' DESC', ' asc'])))}" if self.some(0.3) else ""
        lock = self.one(ROW_LOCKS) if not has_totals and self.some(0.1) else ""
        return f"SELECT {', '.join(items)} FROM {table.name}{where}{order}{lock}"

    def spelled_otherwise(self, text):
        for _ in range(self.one([0, 0, 0, 1, 2])):
            head, _blank, rest = text.partition(self.one(["SELECT ", " FROM "]))
            text = f"{head}{text[len(head) : len(text) - len(rest)].rstrip(' ')}{self.one(BLANKS)}{rest}" if rest else text
        return self.one(FRONTS) * self.some(0.2) + text + self.one(ENDS)

    def query(self):
        """A SELECT that reads and binds."""
        for _ in range(MOST_TRIES if self.tables else 0):
            table = self.one(self.tables)
            text = self.spelled_otherwise(self.one([self.query_of_table, self.query_of_table, self.select])(table))
            if is_query(self.spec, text) and "\0" not in text:
                return text
        return f"SELECT * FROM {self.tables[0].name}" if self.tables else self.one(WITHOUT_TABLES)

    def sights(self, text):
        """What a query sees of some orders: for each the rows, each with its values."""
        select, some = query_of(self.spec, text), self.random.sample(self.known, min(len(self.known), ORDERS_SEEN))
        return [rows_in(seen(self.spec, select, one.ending.final_rows)) for one in some]

    def differing(self):
        """A query that mostly sees one row of some orders and something else of others, and what it sees."""
        for _ in range(self.one([1, MOST_TRIES])):
            text = self.query()
            sights = self.sights(text)
            if any(len(rows) == 1 and rows != other for rows in sights for other in sights):
                return text, [rows for rows in sights if len(rows) == 1]
        return text, sights

    def expected(self):
        """A SELECT and values: those that it sees in some order, or others."""
        text, sights = self.differing() if self.known and self.tables else (self.query(), [])
        rows = [row for rows in sights for row in rows if not any("\0" in value for value in row)]
        if not rows or self.some(0.1):
            return [text, *self.many(3, lambda: self.one(VALUES))]
        values = [*self.one(rows)]
        if self.some(0.1):
            values[self.random.randrange(len(values))] = self.one(VALUES)
        return [text, *self.one([values] * 20 + [values + ["0"], values[1:] or ["0"], values[:-1] or ["1"]])]

    # what is refused

    def other_statement(self, table):
        forms = [self.update, self.insert, self.create, lambda table: f"DELETE FROM {table.name}", lambda table: f"LOCK {table.name}"]
        return self.one([*forms, lambda _table: self.one(NO_SELECTS), lambda _table: self.one(NO_SELECTS)])(table)

    def several(self, table):
        statements = [self.query_of_table(table), self.one([self.query_of_table, self.other_statement])(table)]
        return self.one(["; ", ";", ";;\n"]).join(self.random.sample(statements, 2))

    def misfitting(self, table):
        """A SELECT that reads, and mostly does not fit the tables."""
        names = [name for name, _is_text in table.columns] + ["nothing"]
        column, other = self.one(names), self.one(names)
        forms = [f"SELECT {column}, {other}, nothing FROM {table.name}", f"SELECT sum({column}) FROM {table.name} ORDER BY {other}"]
        forms += [f"SELECT {column} FROM {self.one(['nowhere', column])} WHERE {other} = 1 + 'a'"]
        forms += [f"SELECT * FROM {table.name} WHERE {column} < {self.one([other, '1', TEXT])}"]
        return self.one(forms)

    def no_query(self):
        """A text that is mostly no query."""
        table = self.one(self.tables or [Table("t", [("id", False)], "id")])
        forms = [lambda table: self.damaged(self.query_of_table(table)), self.other_statement, self.several, self.misfitting, self.misfitting]
        for _ in range(MOST_TRIES):
            text = self.spelled_otherwise(self.one(forms)(table))
            if is_told_alike(text) and "\0" not in text and not text.startswith("-"):
                return text
        return self.one(NO_SELECTS)

    def refused(self):
        """A query or an expectation that is mostly refused."""
        if self.some(0.4):
            return [QUERY, self.no_query()]
        return [EXPECT, self.one([self.query, self.no_query])(), *self.many(3, lambda: self.one([*VALUES, *NO_VALUES]))]

    def faults(self, has_anomaly):
        """What is mostly refused, for several reasons at times."""
        groups = [self.refused() for _ in range(self.one([1, 1, 2, 3]))]
        groups += [[f"{self.one(['--deadlock', '--no-deadlock'])}={self.nobody()}"] for _ in range(self.one([0, 0, 0, 0, 1, 2]))]
        groups += [[self.one(["--anomaly", "--no-anomaly"])]] * (not has_anomaly and self.some(0.15))
        return groups + [[self.one(OLD_WORDS)]] * self.some(0.05)

    # words

    def flags(self):
        flags = [flag for flag in FLAGS if self.some(0.2 if flag in (BRIEF, JSON, HTML) else 0.35)]
        return [flag for flag in flags if HTML not in flags or flag not in NOT_OF_PAGES]

    def words_of_levels(self):
        return [BOTH_LEVELS, *(flag for flag in OF_LEVELS if self.some(0.4)), *[MEMORY, self.one(["500", "1000000"])] * self.some(0.2)]

    def words(self):
        """Some words behind the spec's path."""
        if self.some(0.04):
            return self.words_of_levels()
        groups = [[flag] for flag in self.flags()] + [[word] for word in self.filters()]
        # Where it is asked for what is not sent, all permutations mostly are.
        if [ALL_ORDERS] not in groups and any("not-sent" in one[0] for one in groups) and self.some(0.9):
            groups.append([ALL_ORDERS])
        # A spec without tables has no query.
        if self.tables or not self.spec:
            groups += [[QUERY, self.query()] for _ in range(self.one([0, 0, 1, 1, 2]))]
            groups += [[EXPECT, *self.expected()] for _ in range(self.one([0, 0, 1, 1, 2]))]
        if self.some(0.25):
            groups += self.faults(any("anomaly" in one[0] for one in groups))
        groups += [[MEMORY, self.one(["500", "1000000", "0", "1000001", "many"])]] * self.some(0.1)
        groups += [[LEVEL, self.one(LEVELS * 8 + ["snapshot"])]] * self.one([0] * 40 + [1] * 8 + [2])
        groups += [[BOTH_LEVELS]] * self.some(0.03)
        if self.some(0.2):
            groups += [[SAMPLE, self.one(["1", "2", "7", "40", "300", "300", "0", "1000001"])]]
            groups += [[SEED, self.one(["0", "1", "7", "18446744073709551615", "18446744073709551616"])]] * self.some(0.5)
        self.random.shuffle(groups)
        return [word for group in groups for word in group]
