"""The level that is asked for, by a word or by a line of a spec, and what is said of levels.

A level is asked for by the word behind `--level`, or else by a line of the spec, `# level: read-committed` or `# level: serializable`, that is a comment
outside of blocks. It is the level of each transaction whose BEGIN names none. READ UNCOMMITTED is READ COMMITTED, and REPEATABLE READ is refused. SET has
no effect on it, whatever is set. Where no level is asked for each transaction is SERIALIZABLE, whatever its BEGIN says.
"""

import re
from dataclasses import dataclass

import sql
from binding import bind
from machine import LEVELS, NAMED_LEVELS, SERIALIZABLE
from refusal import Refusal
from spec_file import blocks, token_at

LINE = re.compile(rb"^[ \t]*(#)[ \t\r]*level:([^\n]*)", re.MULTILINE)
BLANKS = b" \t\r"
NO_LEVEL, SECOND_LEVEL, NOT_MODELLED = 1, 2, 3
WHY = {NO_LEVEL: "no such level", SECOND_LEVEL: "a second level", NOT_MODELLED: "REPEATABLE READ is not modelled"}


class NoLevel(Refusal):
    """Why a spec has no levels that could be asked for. The place is a line."""

    def line(self, path):
        return f"isofarm: {path}: {WHY[self.kind]} (line {self.place})\n".encode()


def line_of(text, place):
    return 1 + text[:place].count(b"\n")


# ---- what is asked for


def between_tokens(text):
    """Where white space and comments of a spec file begin and end."""
    place = 0
    while (token := token_at(text, place)).kind != "end":
        yield place, token.start
        place = token.end
    yield place, token.start


def level_lines(text):
    """The lines of a spec that ask for a level, each with what stands behind the colon."""
    outside = [*between_tokens(text)]
    for found in LINE.finditer(text):
        if any(start <= found.start(1) < end for start, end in outside):
            yield line_of(text, found.start(1)), found[2].strip(BLANKS).decode()


def level_in(text):
    """The level that a spec asks for; none where it has no line for it."""
    asked = [*level_lines(text)]
    for place, (line, word) in enumerate(asked):
        if place:
            raise NoLevel("level", SECOND_LEVEL, line)
        if word not in LEVELS:
            raise NoLevel("level", NO_LEVEL, line)
    return asked[0][1] if asked else None


def begins(file):
    """Each BEGIN of a spec file that names its level, with its place."""
    statements = ((block.start + one.at, one) for block, _declares in blocks(file) for one in sql.read_sql(block.text))
    return [(place, one) for place, one in statements if isinstance(one, sql.Begin) and one.has_level]


def bind_at(text, file, word):
    """The spec of a file that was read, at the level of this word or of its own line."""
    spec = bind(file)
    spec.level = word or level_in(text)
    for place, one in begins(file) if spec.level else ():
        if one.level not in NAMED_LEVELS:
            raise NoLevel("level", NOT_MODELLED, line_of(text, place))
    return spec


# ---- what is said of levels


def spelled(level):
    return level.replace("-", " ").upper()


@dataclass(frozen=True)
class Levels:
    """The level that is asked for, or none, and the lines on which a transaction begins with another one."""

    asked: str | None = None
    other_lines: tuple = ()

    @property
    def lines_without_effect(self):
        return [] if self.asked else [*self.other_lines]

    def head_lines(self):
        """The line of a head: under which level all stands, or that levels have no effect, where there are any."""
        level, line, have = ("level", "line", "has") if len(self.other_lines) == 1 else ("levels", "lines", "have")
        lines = f"({line} {', '.join(map(str, self.other_lines))})"
        if self.asked:
            other = spelled(next(other for other in LEVELS if other != self.asked))
            yield f"isolation level: {spelled(self.asked)}" + (f"; {other} {lines}" if self.other_lines else "")
        elif self.other_lines:
            yield f"locking: strict two-phase locking; isolation {level} {lines} {have} no effect"

    def value(self):
        """The members that JSON has of the level that is asked for."""
        return {"levels": {"default": self.asked, "other_lines": [*self.other_lines]}} if self.asked else {}


def levels_of(text, file, asked):
    others = [line_of(text, place) for place, one in begins(file) if NAMED_LEVELS.get(one.level) != (asked or SERIALIZABLE)]
    return Levels(asked, (*dict.fromkeys(others),))
