"""What holds of the classes of books, of their texts and of their JSON. Each of these yields what is wrong."""

from book_classes import joined, marks_told
from books import leads_to, report
from class_pages import ReadObject, ReadText, wrong_beside
from class_request import BRIEF, JSON, OUTCOMES, RANKS
from classes import OrderClasses
from compare_classes import brief_json, brief_text
from compare_files import answer, join
from facts import MOST_RANKS
from moments import shown
from schedules import lines_run
from shown import marks

# Of so few orders all are run, and of so many classes the marks of an order are looked at.
MOST_RUN, CLASSES_LOOKED_AT = 300, 8


# ---- classes beside facts


class Told:
    """What facts tell of each order, found from the order on: what is recorded there, and what they tell of where its swaps lead."""

    def __init__(self, spec, facts):
        self.spec, self.by_rank, self.known = spec, {}, {}
        for rank, word, value in facts:
            self.by_rank.setdefault(rank, []).append((word, value))

    def of(self, rank):
        if rank not in self.known:
            told = set()
            for word, value in self.by_rank.get(rank, []):
                told |= {value} if word == "ran" else self.of(leads_to(self.spec, rank, value))
            self.known[rank] = told
        return self.known[rank]

    def outcomes(self):
        """The outcomes of each rank of which something is told."""
        return {rank: found for rank in self.by_rank if (found := self.of(rank))}


def grouped(outcomes):
    """The ranges of the ranks that have the same, in the order of their first ranks."""
    ranks = {}
    for rank, outcome in sorted(outcomes, key=lambda pair: pair[0]):
        ranks.setdefault(outcome, []).append([rank, rank])
    return [joined(its_ranks) for its_ranks in ranks.values()]


def wrong_groups(asking, told):
    """The classes have the ranks of which the facts tell the same, and where there is a report, those of which that does."""
    spec, facts, classes = asking.spec, asking.joined[1], asking.classes
    ranges = [one.ranges for one in classes.all]
    if ranges != grouped((rank, *outcomes) for rank, outcomes in told.items()):
        yield "classes have other ranks than the facts tell"
    if len({one.ending for one in classes.all}) != len(ranges):
        yield "two classes are told the same"
    reported = report(spec, facts)
    if isinstance(reported, list) and grouped(enumerate(reported)) != ranges:
        yield "classes have other ranks than the report"
    if (classes.first_missing is None and spec.ranks() <= MOST_RANKS) != isinstance(reported, list):
        yield "a rank is missing that is reported, or is not reported where none is missing"


def wrong_fault(asking, told_alone):
    """What is refused is refused as by a join, or is a clash at the least rank of which two outcomes are told."""
    status, out, error = told_alone
    joint = answer(join, *asking.paths)
    if joint[0]:
        if told_alone != joint:
            yield "books are refused otherwise than by a join"
        return
    told = Told(asking.spec, asking.joined[1]).outcomes()
    clashes = [rank for rank, outcomes in told.items() if len(outcomes) > 1]
    line = f"isofarm: {asking.paths[0]}: clash at rank {min(clashes)}\n".encode() if clashes else b""
    if (status, bool(out), error) != (1 if clashes else 0, not clashes, line):
        yield f"a clash is told otherwise than {line}"
    if not clashes:
        yield from wrong_groups(asking, told)


# ---- texts and JSON beside one another


def wrong_texts(asking):
    """JSON has what the text has; what is brief is the front of the whole; ranges stand beneath their classes."""
    text, read = ReadText(asking.text([]).decode()), ReadObject(asking.text([JSON, RANKS]).decode())
    yield from text.wrong(0)
    yield from read.wrong(0)
    yield from wrong_beside(text, read, False)
    with_ranks = asking.text([RANKS]).decode().split("\n")
    want = [" ".join(f"{first}-{last}" if last > first else f"{first}" for first, last in row.ranges()) for row in read.rows]
    if [line.removeprefix(f"{'':10}ranks ") for line in with_ranks if line.startswith(f"{'':10}ranks ")] != want:
        yield "the text has other ranges than the JSON"
    missing = read.value["missing"]
    if missing and read.rows and missing["first"] != next((last + 1 for low, last in joined(one for row in read.rows for one in row.ranges()) if low == 0), 0):
        yield f"rank {missing['first']} is not the first that is missing"
    if asking.text([BRIEF]) != brief_text(asking.text([RANKS, OUTCOMES])) or asking.text([BRIEF, JSON]) != brief_json(asking.text([JSON])):
        yield "what is brief is not the front of the whole"
    if any(asking.text([*flags]) != asking.text([*flags, OUTCOMES]) for flags in ([JSON], [JSON, RANKS], [BRIEF])):
        yield "outcomes add something to what has them, or is brief"


# ---- books that are true


def wrong_true_classes(asking, worlds):
    """Of books that are true: the first order of a class has the outcome and the marks that it has where it is run."""
    spec = asking.spec
    for one in asking.classes.all[:CLASSES_LOOKED_AT]:
        line = spec.line(one.first_rank)
        if one.ending.transcripts != tuple(map(tuple, worlds.outcome(one.first_rank))):
            yield f"the class of rank {one.first_rank} tells another outcome than its order"
        if marks_told(line, one.ending.transcripts) != marks(shown(spec, line).moments):
            yield f"the order of rank {one.first_rank} has other marks"


def wrong_beside_spec(asking):
    """Of true books of all orders: each class has the ranks that have its outcome where they are run, and the letters of the spec's classes."""
    spec = asking.spec
    ran = [(rank, tuple(map(tuple, worlds[-1].outcome()))) for rank, (_line, worlds) in enumerate(lines_run(spec))]
    if [one.ranges for one in asking.classes.all] != grouped(ran):
        yield "classes of true books have other ranks than those that are run"
    letters = {}
    for one in OrderClasses(spec, True).all:
        letters.setdefault(one.ending.transcripts, set()).update({*one.letters} & {*"WDEN"})
    if {one.ending.transcripts: {*one.letters} for one in asking.classes.all} != letters:
        yield "classes of true books have other letters than those of the spec"

