"""Reads blocks of SQL into statements, a token at a time."""

import re
from dataclasses import dataclass
from enum import IntEnum

from refusal import Refusal
from tokens import DIGITS, Token, Tokens, blanks

LEAST, MOST = -(2**63), 2**63 - 1
MAX_ROWS = 100
MAX_LEVELS = 32
RESERVED = set(
    "and asc by desc from in into not or order primary select set table values where".split()
)
BLANKS = blanks(b"--")
WORD, TEXT = re.compile(rb"[A-Za-z_][A-Za-z_0-9]*"), re.compile(rb"'([^']*+(?:''[^']*+)*+)'")
PAIRS = (b"<>", b"!=", b"<=", b">=")
COMPARISONS = ("=", "<>", "!=", "<", "<=", ">", ">=")
NUMBER_TYPES = ("int", "integer", "int4", "bigint", "int8")


class Kind(IntEnum):
    BAD_TOKEN = 1
    UNCLOSED = 2
    SYNTAX = 3
    UNSUPPORTED = 4
    NUMBER_TOO_LARGE = 5
    TOO_LARGE = 6
    NOT_HERE = 7


# Statements. Each has `at`, the place of its first byte. A number is an int and a text is bytes. An expression is such a
# value, a Column, or a Sum of a sign and two expressions. A condition is an All or an Any of conditions, a Not, or a Compare.
@dataclass
class Column:
    name: str


@dataclass
class Sum:
    sign: str
    left: object
    right: object


@dataclass
class Compare:
    sign: str
    left: object
    right: object


@dataclass
class All:
    parts: list


@dataclass
class Any:
    parts: list


@dataclass
class Not:
    part: object


@dataclass
class Declared:
    """A column of CREATE TABLE, how often it is called the primary key, and whether it is said that it is not null."""

    name: str
    is_text: bool
    keys: int
    is_not_null: bool = False


@dataclass
class Create:
    table: str
    columns: list
    keys: list


@dataclass
class Insert:
    table: str
    columns: list | None
    rows: list


@dataclass
class Select:
    table: str
    columns: list | None  # None for all of them, or where there are aggregates
    aggregates: list | None  # a column's name for its sum, None for the count
    where: object
    order: list
    locks: str | None  # "update" or "share", which it is for
    nowait: bool


@dataclass
class Update:
    table: str
    assignments: list
    where: object


@dataclass
class Delete:
    table: str
    where: object


@dataclass
class Lock:
    table: str
    mode: str
    nowait: bool


@dataclass
class Begin:
    level: str | None  # its first word

    @property
    def has_level(self):
        return self.level is not None


@dataclass
class End:
    keeps: bool


@dataclass
class Set:
    pass


def refuse(kind, place):
    raise Refusal("sql", int(kind), place)


def text_at(text, start):
    if found := TEXT.match(text, start):
        return Token("text", found.group(1).replace(b"''", b"'"), start, found.end())
    return refuse(Kind.UNCLOSED, start)


def token_at(text, place):
    start = BLANKS.match(text, place).end()
    if start == len(text):
        return Token("end", None, start, start)
    if word := WORD.match(text, start):
        return Token("word", word.group().decode().lower(), start, word.end())
    if number := DIGITS.match(text, start):
        return Token("number", int(number.group()), start, number.end())
    byte = text[start]
    if byte == ord("'"):
        return text_at(text, start)
    if text[start : start + 2] in PAIRS:
        return Token(text[start : start + 2].decode(), None, start, start + 2)
    if byte in b"(),;*+-=<>":
        return Token(chr(byte), None, start, start + 1)
    return refuse(Kind.BAD_TOKEN, start)


class Reader(Tokens):
    def __init__(self, text, place=0):
        super().__init__(text, place, token_at)

    def is_sign(self, sign):
        return self.peek().kind == sign

    def is_word(self, *words):
        return self.peek().kind == "word" and self.peek().value in words

    def take_if(self, *words):
        return self.take() if self.is_word(*words) else None

    def stop(self):
        refuse(Kind.SYNTAX, self.peek().start)

    def sign(self, sign):
        return self.take() if self.is_sign(sign) else self.stop()

    def word(self, *words):
        return self.take().value if self.is_word(*words) else self.stop()

    def name(self):
        token = self.peek()
        if token.kind != "word" or token.value in RESERVED:
            self.stop()
        return self.take().value

    def listed(self, item):
        """One or more with commas between them. Each is told how many stand before it."""
        items = [item(0)]
        while self.is_sign(","):
            self.take()
            items.append(item(len(items)))
        return items

    def names(self):
        return self.listed(lambda _number: self.name())

    def literal(self):
        if self.peek().kind == "text":
            return self.take().value
        is_negative = self.is_sign("-")
        if is_negative:
            self.take()
        token = self.peek()
        if token.kind != "number":
            self.stop()
        value = -token.value if is_negative else token.value
        if not LEAST <= value <= MOST:
            refuse(Kind.NUMBER_TOO_LARGE, token.start)
        self.take()
        return value

    def factor(self):
        return Column(self.name()) if self.peek().kind == "word" else self.literal()

    def joined(self, operand, signs):
        value = operand()
        while self.peek().kind in signs:
            value = Sum(self.take().kind, value, operand())
        return value

    def expression(self):
        return self.joined(lambda: self.joined(self.factor, ("*",)), ("+", "-"))

    def condition(self, level=0):
        parts = [self.conjunction(level)]
        while self.take_if("or"):
            parts.append(self.conjunction(level))
        return parts[0] if len(parts) == 1 else Any(parts)

    def conjunction(self, level):
        parts = [self.part(level)]
        while self.take_if("and"):
            parts.append(self.part(level))
        return parts[0] if len(parts) == 1 else All(parts)

    def part(self, level):
        if self.is_word("not") or self.is_sign("("):
            if level == MAX_LEVELS:
                refuse(Kind.TOO_LARGE, self.peek().start)
            if self.take().kind == "word":
                return Not(self.part(level + 1))
            inner = self.condition(level + 1)
            self.sign(")")
            return inner
        left = self.expression()
        if self.peek().kind not in COMPARISONS:
            self.stop()
        return Compare(self.take().kind, left, self.expression())

    def where(self):
        return self.condition() if self.take_if("where") else None

    def block(self):
        statements = []
        while True:
            while self.is_sign(";"):
                self.take()
            if self.is_sign("end"):
                return statements
            statements.append(self.statement())
            self.ended()

    def ended(self):
        if not (self.is_sign(";") or self.is_sign("end")):
            self.stop()

    def statement(self):
        first = self.peek()
        if first.kind != "word":
            self.stop()
        form = FORMS.get(first.value) or refuse(Kind.UNSUPPORTED, first.start)
        self.take()
        statement = form(self)
        statement.at = first.start
        return statement

    def create(self):
        self.word("table")
        table = self.name()
        self.sign("(")
        columns, keys = [], []
        self.listed(lambda _number: self.create_part(columns, keys))
        self.sign(")")
        return Create(table, columns, keys)

    def create_part(self, columns, keys):
        if self.take_if("primary"):
            self.word("key")
            self.sign("(")
            keys.append(self.name())
            self.sign(")")
            return
        name = self.name()
        column = Declared(name, self.word(*NUMBER_TYPES, "text") == "text", 0)
        while self.is_word("primary", "not"):
            if self.take().value == "primary":
                self.word("key")
                column.keys += 1
            else:
                self.word("null")
                column.is_not_null = True
        columns.append(column)

    def insert(self):
        self.word("into")
        table = self.name()
        columns = None
        if self.is_sign("("):
            self.take()
            columns = self.names()
            self.sign(")")
        self.word("values")
        return Insert(table, columns, self.listed(self.row))

    def row(self, number):
        if self.is_sign("(") and number == MAX_ROWS:
            refuse(Kind.TOO_LARGE, self.peek().start)
        self.sign("(")
        values = self.listed(lambda _number: self.literal())
        self.sign(")")
        return values

    def select(self):
        columns = aggregates = None
        if self.is_sign("*"):
            self.take()
        elif self.is_word("count", "sum") and self.is_before("("):
            aggregates = self.listed(lambda _number: self.aggregate())
        else:
            columns = self.names()
        self.word("from")
        table = self.name()
        where = self.where()
        order = []
        if self.take_if("order"):
            self.word("by")
            order = self.listed(lambda _number: self.sort_key())
        # Aggregates show no row that could be locked: behind them FOR cannot stand.
        locks = self.word("update", "share") if aggregates is None and self.take_if("for") else None
        return Select(table, columns, aggregates, where, order, locks, locks is not None and self.nowait())

    def nowait(self):
        return self.take_if("nowait") is not None

    def is_before(self, sign):
        return token_at(self.text, self.peek().end).kind == sign

    def aggregate(self):
        word = self.word("count", "sum")
        self.sign("(")
        column = None
        if word == "count":
            self.sign("*")
        else:
            column = self.name()
        self.sign(")")
        return column

    def sort_key(self):
        column = self.name()
        word = self.take_if("asc", "desc")
        return column, word is not None and word.value == "desc"

    def update(self):
        table = self.name()
        self.word("set")
        return Update(table, self.listed(lambda _number: self.assignment()), self.where())

    def assignment(self):
        column = self.name()
        self.sign("=")
        return column, self.expression()

    def delete(self):
        self.word("from")
        return Delete(self.name(), self.where())

    def begin(self):
        self.take_if("work", "transaction")
        return self.isolation()

    def start(self):
        self.word("transaction")
        return self.isolation()

    def isolation(self):
        if self.take_if("isolation") is None:
            return Begin(None)
        self.word("level")
        level = self.word("serializable", "repeatable", "read")
        if level == "repeatable":
            self.word("read")
        elif level == "read":
            self.word("committed", "uncommitted")
        return Begin(level)

    def end(self, keeps):
        self.take_if("work", "transaction")
        return End(keeps)

    def lock(self):
        self.take_if("table")
        table = self.name()
        mode = self.lock_mode() if self.take_if("in") else "X"
        return Lock(table, mode, self.nowait())

    def lock_mode(self):
        word = self.word("access", "row", "share", "exclusive")
        if word in ("access", "row"):
            second = self.word("share", "exclusive")
            mode = "IS" if second == "share" else "X" if word == "access" else "IX"
        elif word == "exclusive":
            mode = "X"
        elif self.take_if("row"):
            self.word("exclusive")
            mode = "SIX"
        else:
            mode = "S"
        self.word("mode")
        return mode

    def setting(self):
        """LOCAL and SESSION may be the name that is set. The reading that gets further decides."""
        refusals = []
        for has_scope in (True, False):
            other = Reader(self.text, self.place)
            try:
                other.setting_as(has_scope)
                self.place, self.token = other.place, other.token
                return Set()
            except Refusal as refusal:
                refusals.append(refusal)
        raise max(refusals, key=lambda refusal: (refusal.place, refusal.kind != Kind.SYNTAX))

    def setting_as(self, has_scope):
        if has_scope:
            self.word("local", "session")
        self.name()
        if not self.take_if("to"):
            self.sign("=")
        if self.peek().kind == "word":
            self.name()
        else:
            self.literal()
        self.ended()


FORMS = {
    "create": Reader.create,
    "insert": Reader.insert,
    "select": Reader.select,
    "update": Reader.update,
    "delete": Reader.delete,
    "begin": Reader.begin,
    "start": Reader.start,
    "commit": lambda reader: reader.end(True),
    "end": lambda reader: reader.end(True),
    "rollback": lambda reader: reader.end(False),
    "abort": lambda reader: reader.end(False),
    "lock": Reader.lock,
    "set": Reader.setting,
}


def read_sql(text):
    return Reader(text).block()
