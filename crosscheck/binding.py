"""Binds a spec file: its blocks are read, and each statement is checked against the tables declared so far."""

from dataclasses import dataclass, field
from enum import IntEnum
from math import factorial

import sql
from refusal import Refusal
from sql import All, Any, Column, Compare, Create, Delete, Insert, Lock, Not, Select, Sum, Update

MAX_SESSIONS = 8
MAX_STEPS = 28
MAX_STEPS_WITH_LINES = 255
TOO_MANY_RANKS = 2**63


class Kind(IntEnum):
    UNKNOWN_TABLE = 2
    UNKNOWN_COLUMN = 3
    TYPE_MISMATCH = 4
    KEY_CHANGED = 5
    DUPLICATE_TABLE = 6
    WRONG_COUNT = 7
    SHAPE = 8


class ShapeKind(IntEnum):
    EMPTY = 1
    TOO_MANY_SESSIONS = 2
    TOO_MANY_STEPS = 3
    TOO_MANY_RANKS = 4


@dataclass
class Table:
    columns: list
    is_text: dict
    key: str | None


@dataclass
class Spec:
    tables: dict
    setups: list
    session_setups: list
    session_names: list
    step_names: list
    steps: list = field(default_factory=list)  # the number of the session and the statements
    lines: list | None = None
    level: str | None = None  # that of a transaction whose BEGIN names none, where levels are asked for

    def counts(self):
        sessions = [session for session, _statements in self.steps]
        return [sessions.count(session) for session in range(len(self.session_names))]

    def ranks(self):
        return words(self.counts()) if self.lines is None else len(self.lines)

    def line(self, rank):
        """The steps of a rank: those of a line of the file, or of the word that stands at the rank among all words."""
        if self.lines is not None:
            return self.lines[rank]
        left, line = self.counts(), []
        steps = [
            [step for step, (owner, _statements) in enumerate(self.steps) if owner == session]
            for session in range(len(left))
        ]
        while any(left):
            for session in range(len(left)):
                if left[session] == 0:
                    continue
                left[session] -= 1
                behind = words(left)
                if rank < behind:
                    line.append(steps[session].pop(0))
                    break
                rank -= behind
                left[session] += 1
        return line


def words(counts):
    """How many words have so many of each letter."""
    number = factorial(sum(counts))
    for count in counts:
        number //= factorial(count)
    return number


def shape_fault(counts):
    """Why no words are ranked that have so many of each letter, if they are not."""
    if not counts or 0 in counts:
        return ShapeKind.EMPTY
    if len(counts) > MAX_SESSIONS:
        return ShapeKind.TOO_MANY_SESSIONS
    if sum(counts) > MAX_STEPS:
        return ShapeKind.TOO_MANY_STEPS
    return ShapeKind.TOO_MANY_RANKS if words(counts) >= TOO_MANY_RANKS else None


def has_shape(text):
    """Whether a file has not too many sessions and steps, and where its words are ranked not too many of these."""
    counts = [len(session.steps) for session in text.sessions]
    if text.has_lines:
        return len(counts) <= MAX_SESSIONS and sum(counts) <= MAX_STEPS_WITH_LINES
    return shape_fault(counts) is None


def is_text(value):
    return isinstance(value, bytes)


def expression_kinds(table, expression):
    """Whether an expression is a text, None where its column is unknown, and what is wrong with it."""
    if isinstance(expression, Column):
        if expression.name in table.columns:
            return table.is_text[expression.name], set()
        return None, {Kind.UNKNOWN_COLUMN}
    if isinstance(expression, Sum):
        left, left_kinds = expression_kinds(table, expression.left)
        right, right_kinds = expression_kinds(table, expression.right)
        kinds = {Kind.TYPE_MISMATCH} if left or right else set()
        return False, kinds | left_kinds | right_kinds
    return is_text(expression), set()


def condition_kinds(table, condition):
    if condition is None:
        return set()
    if isinstance(condition, All | Any):
        return set().union(*[condition_kinds(table, part) for part in condition.parts])
    if isinstance(condition, Not):
        return condition_kinds(table, condition.part)
    left, left_kinds = expression_kinds(table, condition.left)
    right, right_kinds = expression_kinds(table, condition.right)
    differ = left is not None and right is not None and left != right
    return left_kinds | right_kinds | ({Kind.TYPE_MISMATCH} if differ else set())


def unknown(table, columns):
    return set() if set(columns) <= set(table.columns) else {Kind.UNKNOWN_COLUMN}


def create_kinds(tables, create):
    names = [column.name for column in create.columns]
    keys = [column.name for column in create.columns for _ in range(column.keys)] + create.keys
    kinds = set()
    if not set(create.keys) <= set(names):
        kinds.add(Kind.UNKNOWN_COLUMN)
    if create.table in tables:
        kinds.add(Kind.DUPLICATE_TABLE)
    if len(set(names)) < len(names) or len(keys) > 1:
        kinds.add(Kind.WRONG_COUNT)
    return kinds


def insert_kinds(table, insert):
    columns = table.columns if insert.columns is None else insert.columns
    kinds = unknown(table, columns)
    if sorted(columns) != sorted(table.columns):
        kinds.add(Kind.WRONG_COUNT)
    for row in insert.rows:
        if len(row) != len(table.columns):
            kinds.add(Kind.WRONG_COUNT)
        for column, value in zip(columns, row):
            if column in table.columns and table.is_text[column] != is_text(value):
                kinds.add(Kind.TYPE_MISMATCH)
    return kinds


def select_kinds(table, select):
    summed = [column for column in select.aggregates or [] if column is not None]
    columns = (select.columns or []) + summed + [column for column, _falls in select.order]
    kinds = unknown(table, columns) | condition_kinds(table, select.where)
    if any(table.is_text.get(column) for column in summed):
        kinds.add(Kind.TYPE_MISMATCH)
    return kinds


def update_kinds(table, update):
    columns = [column for column, _expression in update.assignments]
    kinds = unknown(table, columns) | condition_kinds(table, update.where)
    for column, expression in update.assignments:
        of_text, wrong = expression_kinds(table, expression)
        kinds |= wrong
        if of_text is not None and column in table.columns and table.is_text[column] != of_text:
            kinds.add(Kind.TYPE_MISMATCH)
    if table.key in columns:
        kinds.add(Kind.KEY_CHANGED)
    if len(set(columns)) < len(columns):
        kinds.add(Kind.WRONG_COUNT)
    return kinds


def statement_kinds(tables, statement):
    if isinstance(statement, Create):
        return create_kinds(tables, statement)
    if not isinstance(statement, Insert | Select | Update | Delete | Lock):
        return set()
    if statement.table not in tables:
        return {Kind.UNKNOWN_TABLE}
    table = tables[statement.table]
    if isinstance(statement, Insert):
        return insert_kinds(table, statement)
    if isinstance(statement, Select):
        return select_kinds(table, statement)
    if isinstance(statement, Update):
        return update_kinds(table, statement)
    if isinstance(statement, Delete):
        return condition_kinds(table, statement.where)
    return set()


def declare(tables, create):
    keys = [column.name for column in create.columns if column.keys] + create.keys
    tables[create.table] = Table(
        [column.name for column in create.columns],
        {column.name: column.is_text for column in create.columns},
        keys[0] if keys else None,
    )


def bound(tables, block, declares):
    """The statements of a block. CREATE TABLE stands in main setup blocks alone."""
    if block is None:
        return []
    try:
        statements = sql.read_sql(block.text)
    except Refusal as refusal:
        raise Refusal(refusal.by, refusal.kind, block.start + refusal.place) from None
    for statement in statements:
        place = block.start + statement.at
        if isinstance(statement, Create) and not declares:
            raise Refusal("sql", int(sql.Kind.NOT_HERE), place)
        kinds = statement_kinds(tables, statement)
        if kinds:
            raise Refusal("bind", int(min(kinds)), place)
        if isinstance(statement, Create):
            declare(tables, statement)
    return statements


def bind(text):
    """The spec of a file that was read."""
    if not has_shape(text):
        raise Refusal("bind", int(Kind.SHAPE), 0)
    tables = {}
    spec = Spec(tables, [bound(tables, block, True) for block in text.setups], [], [], [])
    spec.lines = text.lines if text.has_lines else None
    for number, session in enumerate(text.sessions):
        spec.session_names.append(session.name)
        spec.session_setups.append(bound(tables, session.setup, False))
        for name, block in session.steps:
            spec.step_names.append(name)
            spec.steps.append((number, bound(tables, block, False)))
    return spec
