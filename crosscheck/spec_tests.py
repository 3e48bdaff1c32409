"""What `isofarm test` tells of a spec beside an accepted record, from the spec that was accepted and the spec of today.

No record is taken apart here: results are asked of the machine.
"""

from functools import cached_property

from records import Record
from refusal import Refusal

MOST_TOLD = 5


class Side:
    """The record of a spec. Raises a Refusal where there is none."""

    def __init__(self, name, text, level=None):
        self.name, self.record = name, Record(name, text, level)
        self.orders, self.results = self.record.orders, self.record.results

    @cached_property
    def text(self):
        return self.record.text().encode()

    @cached_property
    def by_content(self):
        return {one.content: one for one in self.results}

    def numbers(self):
        """What is compared beside results, by the name that it is told with."""
        return {"orders": f"{self.orders:,}", "letters": self.record.letters, "results left out": f"{self.record.left_out:,}"}


def some(head, lists):
    """The first of some lists of lines beneath a head, and how many there are besides."""
    if not lists:
        return
    yield f"  {head}"
    yield from (f"    {line}" for lines in lists[:MOST_TOLD] for line in lines)
    if len(lists) > MOST_TOLD:
        yield f"    and {len(lists) - MOST_TOLD} more"


def told_of_results(was, now):
    gone, come = ([one for one in side.results if one.content not in other.by_content] for side, other in ((was, now), (now, was)))
    pairs = [(was.by_content[one.content], one) for one in now.results if one.content in was.by_content]
    changed = [pair for pair in pairs if len({(one.count, one.first) for one in pair}) > 1]
    yield f"differs: results gone {len(gone)}, new {len(come)}, with other numbers {len(changed)}"
    for name, old in was.numbers().items():
        if old != now.numbers()[name]:
            yield from [f"  {name}", f"    was: {old}", f"    is: {now.numbers()[name]}"]
    for head, results in (("gone", gone), ("new", come)):
        yield from some(head, [one.lines() for one in results])
    yield from some("other numbers", [[f"{word}: {one.orders}, first: {one.first}" for word, one in zip(("was", "is"), pair)] for pair in changed])


def told(name, accepted, text, accepted_at=None, level=None):
    """The status, and what is told of the spec with this name and text, which was accepted as another text. Each may be asked for at a level."""
    was = Side(name, accepted, accepted_at)
    try:
        now = Side(name, text, level)
        now.text
    except Refusal as refusal:
        return 3, refusal.line(name).removeprefix(b"isofarm: ")
    if was.text == now.text:
        return 0, f"{name}: as accepted\n".encode()
    is_head = (was.numbers(), was.results) == (now.numbers(), now.results)
    lines = ["only the head of the record differs"] if is_head else told_of_results(was, now)
    return 1, f"{name}: ".encode() + "".join(f"{line}\n" for line in lines).encode()
