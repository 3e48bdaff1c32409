"""Reads spec files, a token at a time. A token is looked at only where the grammar has come to it."""

import re
from dataclasses import dataclass, field
from enum import IntEnum

from refusal import Refusal
from tokens import DIGITS, Token, Tokens, blanks

MAX_BYTES = 65536
MAX_ITEMS = 28
MAX_LINES = 4096
BLANKS = blanks(b"#")
NAME, QUOTED = re.compile(rb"[A-Za-z_\x80-\xff][A-Za-z_\x80-\xff0-9$]*"), re.compile(rb'"([^"\n]*+(?:""[^"\n]*+)*+)"')
KEYWORDS = {"notices", "permutation", "session", "setup", "step", "teardown"}


class Kind(IntEnum):
    NOT_UTF8 = 1
    BAD_TOKEN = 2
    UNCLOSED = 3
    MISPLACED = 4
    NO_STEP = 5
    DUPLICATE_STEP = 6
    DUPLICATE_SESSION = 7
    UNKNOWN_STEP = 8
    TOO_LARGE = 9


@dataclass
class Block:
    """The bytes between braces, and where the first of them stands in the file."""

    text: bytes
    start: int


@dataclass
class Session:
    name: str
    setup: Block | None = None
    steps: list = field(default_factory=list)


@dataclass
class SpecText:
    setups: list
    sessions: list
    lines: list
    has_lines: bool
    teardowns: list  # where the text of each begins
    markers: list  # where the parenthesis of each item that has some stands


def blocks(file):
    """The blocks of a spec file that are sent, and whether tables are declared there."""
    yield from ((block, True) for block in file.setups)
    for session in file.sessions:
        yield from ((block, False) for block in [session.setup, *(block for _name, block in session.steps)] if block)


def refuse(kind, place):
    raise Refusal("spec", int(kind), place)


def quoted_name(text, start):
    found = QUOTED.match(text, start)
    if found is None:
        refuse(Kind.UNCLOSED, start)
    name = found.group(1).replace(b'""', b'"')
    return Token("name", name.decode(), start, found.end()) if name else refuse(Kind.BAD_TOKEN, start)


def token_at(text, place):
    start = BLANKS.match(text, place).end()
    if start == len(text):
        return Token("end", None, start, start)
    if found := NAME.match(text, start):
        word = found.group().decode()
        return Token("keyword" if word in KEYWORDS else "name", word, start, found.end())
    if number := DIGITS.match(text, start):
        return Token("number", None, start, number.end())
    byte = text[start]
    if byte in b"(),*":
        return Token(chr(byte), None, start, start + 1)
    if byte == ord("{"):
        end = text.find(b"}", start)
        if end < 0:
            refuse(Kind.UNCLOSED, start)
        return Token("block", Block(text[start + 1 : end], start + 1), start, end + 1)
    if byte == ord('"'):
        return quoted_name(text, start)
    return refuse(Kind.BAD_TOKEN, start)


class Reader(Tokens):
    def __init__(self, text):
        super().__init__(text, 0, token_at)
        self.steps = {}
        self.teardowns, self.markers = [], []

    def at(self, *words):
        return self.peek().kind == "keyword" and self.peek().value in words

    def take_if(self, word):
        return self.take() if self.at(word) else None

    def need(self, kind):
        if self.peek().kind != kind:
            refuse(Kind.MISPLACED, self.peek().start)
        return self.take()

    def block(self):
        return self.need("block").value

    def teardown(self):
        """Whether a teardown stands here, which is passed over."""
        if not self.take_if("teardown"):
            return False
        self.teardowns.append(self.block().start)
        return True

    def need_first(self, word, *after):
        """The first session of a file, or the first step of a session."""
        if self.at(word):
            return
        is_missing = self.peek().kind == "end" or self.at(*after)
        refuse(Kind.NO_STEP if is_missing else Kind.MISPLACED, self.peek().start)

    def spec(self):
        setups, sessions, lines = [], [], []
        while self.take_if("setup"):
            setups.append(self.block())
        self.teardown()
        self.need_first("session", "permutation")
        while self.take_if("session"):
            sessions.append(self.session({session.name for session in sessions}))
        has_lines = self.at("permutation")
        while self.at("permutation"):
            word = self.take()
            if len(lines) == MAX_LINES:
                refuse(Kind.TOO_LARGE, word.start)
            lines.append(self.line())
        self.need("end")
        return SpecText(setups, sessions, lines, has_lines, self.teardowns, self.markers)

    def session(self, names):
        name = self.need("name")
        if name.value in names:
            refuse(Kind.DUPLICATE_SESSION, name.start)
        session = Session(name.value)
        if self.take_if("setup"):
            session.setup = self.block()
        is_torn_down = self.teardown()
        self.need_first("step", "permutation", "session")
        while self.take_if("step"):
            step = self.need("name")
            if step.value in self.steps:
                refuse(Kind.DUPLICATE_STEP, step.start)
            self.steps[step.value] = len(self.steps)
            session.steps.append((step.value, self.block()))
        if not is_torn_down:
            self.teardown()
        return session

    def step(self, name):
        if name.value not in self.steps:
            refuse(Kind.UNKNOWN_STEP, name.start)
        return self.steps[name.value]

    def line(self):
        items = [self.item(0)]
        while self.peek().kind == "name":
            items.append(self.item(len(items)))
        return items

    def item(self, number):
        name = self.need("name")
        if number == MAX_ITEMS:
            refuse(Kind.TOO_LARGE, name.start)
        step = self.step(name)
        if self.peek().kind == "(":
            self.markers.append(self.take().start)
            self.marker()
            while self.peek().kind == ",":
                self.take()
                self.marker()
            self.need(")")
        return step

    def marker(self):
        if self.peek().kind == "*":
            self.take()
            return
        self.step(self.need("name"))
        if self.take_if("notices"):
            self.need("number")


def read_spec(text):
    if len(text) > MAX_BYTES:
        refuse(Kind.TOO_LARGE, MAX_BYTES)
    try:
        text.decode()
    except UnicodeDecodeError as error:
        refuse(Kind.NOT_UTF8, error.start)
    return Reader(text).spec()
