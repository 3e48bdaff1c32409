"""Why a spec has no outcome."""

from dataclasses import dataclass


@dataclass
class Refusal(Exception):
    """What the program tells in place of an outcome: who refuses, the number of the refusal, and where."""

    by: str
    kind: int
    place: int

    def line(self, path):
        return f"isofarm: {path}: {self.by} error {self.kind} at {self.place}\n".encode()
