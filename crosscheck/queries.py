"""What a SELECT sees of final rows, without locks, and whether that is what was expected."""

import re
from dataclasses import dataclass

from binding import statement_kinds
from machine import Fault, World
from orders import quoted
from refusal import Refusal
from shown import value_text, word_of
from sql import LEAST, MOST, Select, read_sql

NUMBER, TEXT = re.compile("0|-?[1-9][0-9]*"), re.compile("'(?:[^']|'')*'")


class NoQuery(Exception):
    """Why a text is no query, or a word no value, in the words of a fault line that names no path."""


def no_query(text, why):
    return NoQuery(f"{quoted(text)}: {why}")


def query_of(spec, text):
    """The SELECT of a text, read as a block is and bound as a statement of a step is. Raises NoQuery."""
    try:
        statements = read_sql(text.encode())
    except Refusal as refusal:
        raise no_query(text, f"sql error {refusal.kind} at {refusal.place}") from None
    if len(statements) != 1 or not isinstance(statements[0], Select):
        raise no_query(text, "not one SELECT")
    if kinds := statement_kinds(spec.tables, statements[0]):
        raise no_query(text, f"bind error {min(kinds):d} at {statements[0].at}")
    return statements[0]


def is_query(spec, text):
    try:
        query_of(spec, text)
    except NoQuery:
        return False
    return True


def committed(spec, final_rows):
    """Final rows as a world has them: by their keys, and by their places in a table without a key."""
    for name, rows in final_rows:
        table = spec.tables[name]
        for place, row in enumerate(rows, 1):
            yield (name, place if table.key is None else row[table.columns.index(table.key)]), [*row]


def seen(spec, select, final_rows):
    """The events of a SELECT that sees these rows: each row and their number, or its error."""
    world = World(spec)
    world.committed = dict(committed(spec, final_rows))
    try:
        return world.effect(len(spec.session_names), select)[0]
    except Fault as fault:
        return [fault.event]


def rows_in(events):
    """The rows of events, each with its values as a `row` line has them."""
    return [[*map(value_text, event[1])] for event in events if word_of(event) == "row"]


def is_value(word):
    """Whether a word is written as a `row` line has a value."""
    return bool(TEXT.fullmatch(word)) or (bool(NUMBER.fullmatch(word)) and LEAST <= int(word) <= MOST)


@dataclass
class Expectation:
    """What a SELECT is expected to see: one row of these values, each as a `row` line has it."""

    select: str
    values: list

    def check(self, spec):
        """Raises NoQuery for the SELECT, or else for the first word that is no value."""
        query_of(spec, self.select)
        for word in self.values:
            if not is_value(word):
                raise no_query(word, "no value")

    def is_in(self, events):
        return rows_in(events) == [self.values]
