"""What both readers have of tokens: one is looked at only where the grammar has come to it."""

import re
from dataclasses import dataclass

WHITE, DIGITS = b" \t\r\f\n", re.compile(rb"[0-9]+")


@dataclass
class Token:
    kind: str
    value: object
    start: int
    end: int


def blanks(comment):
    """White space and comments, which begin with these bytes and end with their line."""
    white = b"[" + WHITE + b"]*"
    return re.compile(white + b"(?:" + re.escape(comment) + rb"[^\n]*" + white + b")*")


class Tokens:
    """A text, and the token that comes next in it, once somebody has asked for it."""

    def __init__(self, text, place, token_at):
        self.text = text
        self.place = place
        self.token = None
        self.token_at = token_at

    def peek(self):
        if self.token is None:
            self.token = self.token_at(self.text, self.place)
        return self.token

    def take(self):
        token = self.peek()
        self.place, self.token = token.end, None
        return token
