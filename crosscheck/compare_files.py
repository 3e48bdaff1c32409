"""Compares what the program's commands tell of files with what this second implementation tells, on specs made from seeds.

usage: python3 crosscheck/compare_files.py KIND FIRST_SEED SEEDS

`count`, `rank`, `order` and `run` are given each spec, `join`, `missing`, `holds`, `report`, `audit` and `judge` books of its ranks: in both
formats and any spelling, with facts that are not true, of different specs, damaged as `damage.py` does, and files that are not there.
"""

import json
import sys
from functools import lru_cache, partial
from pathlib import Path
from random import Random
from tempfile import TemporaryDirectory

from binding import MAX_SESSIONS
from book_file import NoBook, read_book, text_in_format_1
from books import book_text, compact, facts_of, false_rank, first_difference, least_clash, report, report_text, session_text, to_run, untold
from compare import PROGRAM, WORDS, compare, ended, usage
from damage import DAMAGES, spelled
from facts import Worlds
from generate import KINDS
from orders import NoOrder, order_text, orders, rank_of
from refusal import Refusal
from untrue import false_fact, outcomes_of, spec_of
from worked import EMPTY_BOOK, LARGE

MOST_A_RUN = 4_096_000
MOST_RANKS = 1500
MOST_SHARDS = 6
RANKS_OF_LARGE = 40
RANKS_OF_ALL = 100
RANKS_OF_DAMAGED = 12
DAMAGED_A_SPEC = 12
ONE_MORE = b'\nsession "one more" step "s of it" {}'
MOST_BOOKS = 1000
U64 = 2**64
VERDICTS = {b"missing rank": "a range that is not held", b"another spec": "a range of another spec", b"true\n": "true", b"false at rank": "an audit: false"}
VERDICTS |= {b"matches ": "a verdict: matches", b" differs at ": "a verdict: differs", b"\nnearest is ": "a verdict: shown"}
VERDICTS |= {b": no rank ": "a verdict: shown without a rank", b"\nno session ": "a verdict: shown without a session"}


# ---- what the commands tell


class Fault(Exception):
    """Why a command does not end with 0. Its arguments are the answer."""


def fault(status, path, text):
    return Fault(status, b"", f"isofarm: {path}: {text}\n".encode())


def answer(command, *asked):
    """The exit status, and what stands on the two outputs."""
    try:
        return 0, command(*asked), b""
    except Fault as told:
        return told.args


def understood(function, text, path):
    """What a function makes of the text of a spec file."""
    try:
        return function(text)
    except Refusal as refusal:
        raise Fault(3, b"", refusal.line(path)) from None


@lru_cache(maxsize=2)
def worlds_of(text):
    return Worlds(spec_of(text))


def count(text, path):
    return b"%d\n" % understood(spec_of, text, path).ranks()


def rank(text, path, names):
    try:
        return b"%d\n" % rank_of(understood(spec_of, text, path), names)
    except NoOrder as wrong:
        raise fault(3, path, wrong.args[0]) from None


def order(text, path, number):
    spec = understood(spec_of, text, path)
    if number >= spec.ranks():
        raise fault(3, path, "rank out of range")
    return order_text(spec, number).encode()


def run(text, path, first, end, how):
    number = understood(spec_of, text, path).ranks()
    if not first <= end <= number:
        raise fault(3, path, "shard error 1")
    if end - first > MOST_A_RUN:
        raise fault(3, path, "shard error 2")
    return book_text(text, facts_of(understood(worlds_of, text, path), first, end, how == "reduce")).encode()


def book_at(path):
    try:
        return read_book(Path(path).read_bytes())
    except OSError:
        raise fault(5, path, "read fault") from None
    except NoBook as refusal:
        raise fault(3, path, f"book error {int(refusal.kind)}") from None


def joined_at(*paths):
    """The text of the spec of some books, and all their facts."""
    text, facts = book_at(paths[0])
    for path in paths[1:]:
        other, more = book_at(path)
        if other != text:
            raise fault(3, path, "books of different specs")
        facts = facts | more
    return text, facts


def join(*paths):
    return book_text(*joined_at(*paths)).encode()


def missing(lines, *paths):
    text, facts = joined_at(*paths)
    spec = spec_of(text)
    clash = least_clash(spec, facts)
    if clash is not None:
        raise fault(1, paths[0], f"clash at rank {clash}")
    if lines:
        told = [b"%d %d\n" % ends for ends in to_run(spec, facts)]
    else:
        told = [b"%d\n" % first if first + 1 == end else b"%d-%d\n" % (first, end - 1) for first, end in untold(spec, facts)]
    if told:
        raise Fault(1, b"".join(told), b"")
    return b""


def reported_at(path):
    """The text of a book and its facts, and what it reports."""
    text, facts = book_at(path)
    told = report(spec_of(text), facts)
    if isinstance(told, str):
        raise fault(3 if told == "too many ranks" else 1, path, told)
    return text, facts, told


def report_of(path):
    text, facts, _told = reported_at(path)
    return report_text(spec_of(text), facts)


def holds(book_path, spec_path, first, end):
    try:
        text = Path(spec_path).read_bytes()
    except OSError:
        raise fault(5, spec_path, "read fault") from None
    spec, facts = book_at(book_path)
    if spec != text:
        raise Fault(1, b"another spec\n", b"")
    known = {fact[0] for fact in facts}
    for number in range(first, end):
        if number not in known:
            raise Fault(1, b"missing rank %d\n" % number, b"")
    return b"true\n"


def audit(path):
    text, facts = book_at(path)
    false = false_rank(spec_of(text), facts)
    if false is not None:
        raise Fault(1, b"false at rank %d\n" % false, b"")
    return b"true\n"


def side(word, text, told, rank, session):
    """What a report tells at a rank of a session, by the names of its own spec, behind a word."""
    if rank >= len(told):
        return word + b": no rank %d\n" % rank
    spec, outcome = spec_of(text), json.loads(told[rank])
    ordered = word + b": " + order_text(spec, rank).encode()
    if session >= len(outcome):
        return ordered + b"no session %d\n" % session
    return ordered + session_text(spec, session, outcome[session])


def judge(show, path, *accepted):
    (here, _facts, told), *others = [reported_at(one) for one in (path, *accepted)]
    reports = [report for _text, _facts, report in others]
    if told in reports:
        return b"matches %d\n" % reports.index(told)
    differences = [first_difference(told, report) for report in reports]
    lines = [b"%d differs at rank %d session %d\n" % (index, *place) for index, place in enumerate(differences)]
    if show:
        furthest = max(differences)
        nearest = differences.index(furthest)
        there = others[nearest][0]
        lines += [b"nearest is %d\n" % nearest, side(b"accepted", there, reports[nearest], *furthest), side(b"here", here, told, *furthest)]
    raise Fault(1, b"".join(lines), b"")


# ---- what they are given


def joining(*paths):
    return ["join", *paths], answer(join, *paths)


def with_flag(random, flag, words):
    """The words of a command with a flag among them, or without it, and whether it is there."""
    if random.random() < 0.5:
        return words, False
    place = random.randint(1, len(words))
    return [*words[:place], flag, *words[place:]], True


def missing_from(random, *paths):
    words, lines = with_flag(random, "--lines", ["missing", *paths])
    return words, answer(missing, lines, *paths)


def reporting(path):
    return ["report", path], answer(report_of, path)


def auditing(path):
    return ["audit", path], answer(audit, path)


def judging(random, *paths):
    words, show = with_flag(random, "--show", ["judge", *paths])
    return words, answer(judge, show, *paths)


def running(random, text, path, first, end, how):
    words = ["run", path, str(first), str(end)]
    is_whole = (first, end) == (0, ranks_of(text))
    if is_whole and random.random() < 0.5:
        words = ["run", path]
    if how == "every":
        words.insert(random.randint(1, len(words)), "--every")
    if random.random() < 0.5:
        words += ["--workers", str(random.randint(1, 16))]
    return words, answer(run, text, path, first, end, how)


def running_all(random, text, path, how):
    """All ranks where no range is named. They may be too many for one run."""
    words = ["run", path, *["--every"] * (how == "every")]
    return words, answer(run, text, path, 0, ranks_of(text) or 0, how)


def ranks_of(text):
    """How many ranks the spec of a text has; none where it is no spec."""
    try:
        return spec_of(text).ranks()
    except Refusal:
        return None


def no_ranges(random, number):
    """Ranges that a spec with so many ranks does not have, or that are too long."""
    first, most = random.randint(0, number), U64 - 1
    ranges = [(first, number + 1), (number + 1, number + 1), (first + 1, first), (0, most), (most, 0), (most, most)]
    if number > MOST_A_RUN:
        ranges += [(0, MOST_A_RUN + 1), (number - MOST_A_RUN - 1, number), (0, number), (0, number + 1), (MOST_A_RUN + 1, 0)]
    return random.sample(ranges, 2)


def cut(random, number):
    """Ranges that cover all ranks, in any order, some of them twice or beside others, each reduced or not."""
    cuts = sorted(random.randint(0, number) for _ in range(random.randrange(MOST_SHARDS)))
    ranges = list(zip([0, *cuts], [*cuts, number]))
    ranges += [random.choice(ranges) for _ in range(random.randrange(2))]
    random.shuffle(ranges)
    how = random.choice([["reduce"], ["every"], ["reduce", "every"]])
    return [(first, end, random.choice(how)) for first, end in ranges]


def shards_of(random, number, most):
    """Shards that cover all ranks, or some neighbouring ones where they are many; and up to two more, which may be empty."""
    few = min(number, most)
    base = random.choice([0, number - few, random.randint(0, number - few)])
    empty = random.randint(0, few)
    shards = cut(random, few) + random.sample([*cut(random, few), (empty, empty, "reduce")], random.randrange(3))
    return [(base + first, base + end, how) for first, end, how in shards]


def some_of(random, facts, most):
    """Facts of a few ranks, which are neighbours or not."""
    ranks = sorted({rank for rank, _word, _value in facts})
    few = min(len(ranks), random.randint(0, most))
    first = random.randint(0, len(ranks) - few)
    some = random.choice([ranks[first : first + few], random.sample(ranks, few)])
    return {fact for fact in facts if fact[0] in some}


def file_text(random, text, facts):
    """A file of a book: in one of the formats, as it is written or in another spelling."""
    written = random.choice([book_text, book_text, text_in_format_1])(text, facts).encode()
    return spelled(random, json.loads(written)) if random.random() < 0.3 else written


def put(folder, name, text):
    """The path of a new file."""
    path = folder / f"{name}.book"
    path.write_bytes(text)
    return str(path)


def of_books(random, folder, text, parts):
    """Books of shards joined in any order, some of them often, and what is told of each and of all."""
    paths = [put(folder, f"part{number}", file_text(random, text, facts)) for number, facts in enumerate(parts)]
    yield joining(random.choice(paths))
    often = paths + random.choices(paths, k=random.randrange(3))
    yield joining(*random.sample(often, len(often)))
    whole = put(folder, "whole", file_text(random, text, set().union(*parts)))
    yield joining(whole, *random.sample(paths, random.randint(0, len(paths))))
    yield missing_from(random, whole)
    yield missing_from(random, *random.sample(paths, random.randint(1, len(paths))))
    holed = put(folder, "holed", file_text(random, text, some_of(random, set().union(*parts), MOST_RANKS)))
    yield missing_from(random, holed)
    yield missing_from(random, random.choice(paths), holed)
    yield from (reporting(path) for path in (whole, random.choice(paths)))
    yield auditing(random.choice([whole, *paths]))
    yield judging(random, whole, *random.choices([whole, whole, *paths], k=random.randint(1, 3)))
    spec_path = put(folder, "spec", random.choice([text, text, text, text + b"#"]))
    ranks = sorted(fact[0] for facts in parts for fact in facts) or [0]
    for path in (whole, random.choice(paths)):
        first = max(0, random.choice(ranks) - random.randint(0, 1))
        words = path, spec_path, first, random.choice([first, first + 1, ranks[-1] + 1, ranks[-1] + 2, random.choice(ranks)])
        yield ["holds", *map(str, words)], answer(holds, *words)


def of_false_books(random, folder, text, facts):
    """Books with facts that are not true, beside those that are or alone."""
    others = {false_fact(random, spec_of(text), outcomes_of(facts)) for _ in range(random.randrange(4))}
    false = put(folder, "false", file_text(random, text, random.choice([facts | others, others])))
    true = put(folder, "true", file_text(random, text, facts))
    yield reporting(false)
    yield auditing(false)
    yield judging(random, *random.choices([false, false, true], k=random.randint(2, 4)))
    yield joining(*random.sample([false, true], random.randint(1, 2)))
    yield missing_from(random, *random.sample([false, true], random.randint(1, 2)))
    yield missing_from(random, false)


def kin_of(random, text, spec, outcomes):
    """The text of a spec that has some orders of another one as its lines, and sometimes a session more, and a fact of each of its ranks."""
    has_more = len(spec.session_names) < MAX_SESSIONS and random.random() < 0.5
    session, name, told = (ONE_MORE, b' "s of it"', [[["sent", len(spec.steps)], "done"]]) if has_more else (b"", b"", [])
    ordered = [order_text(spec, random.randrange(spec.ranks())).encode()[:-1] + name for _ in range(random.randint(1, 6))]
    lines = b"".join(b"\npermutation " + one for one in ordered)
    facts = {(rank, "ran", compact(random.choice(outcomes) + told).encode()) for rank in range(len(ordered))}
    return text + session + lines, facts


def of_kin(random, folder, text, spec, facts):
    """Books whose reports have other lengths and other numbers of sessions, and mostly tell the same for a while: the nearest is shown."""
    if spec.lines is not None or not facts:
        return
    few = [json.loads(outcome) for outcome in random.choices(outcomes_of(facts) or [b"[]"], k=2)]
    outcomes = [few[0], few[0], few[0], *few]
    kin = [kin_of(random, text, spec, outcomes) for _ in range(random.randint(2, 5))]
    paths = [put(folder, f"kin{number}", file_text(random, *one)) for number, one in enumerate(kin)]
    yield judging(random, *paths)
    yield judging(random, *reversed(paths))


def of_many_books(random, folder, text, facts):
    paths = [put(folder, f"few{number}", file_text(random, text, some_of(random, facts, 2))) for number in range(3)]
    yield joining(*random.choices(paths, k=MOST_BOOKS))


def of_other_books(random, folder, text, facts):
    """Books of up to three specs, beside what is no file: the first fault is told."""
    book = put(folder, "book", file_text(random, text, facts))
    other = put(folder, "other", file_text(random, text + b"\n", facts))
    no_files = [str(folder / "nothing"), str(folder)]
    others = [book, other, put(folder, "empty", EMPTY_BOOK.encode()), *no_files]
    yield joining(book, *random.choices(others, k=random.randint(1, 4)))
    yield joining(*random.choices(others, k=2))
    yield missing_from(random, *random.choices([book, *others], k=random.randint(1, 3)))
    yield random.choice([reporting, auditing])(random.choice(no_files))
    yield judging(random, random.choice([book, book, *others]), *random.choices([book, *others], k=random.randint(1, 4)))


def of_damaged_books(random, folder, text, facts):
    for damage in random.sample(DAMAGES, DAMAGED_A_SPEC):
        few = some_of(random, facts, RANKS_OF_DAMAGED)
        written = random.choice([book_text, book_text, text_in_format_1])(text, few)
        damaged = put(folder, damage.__name__, damage(random, json.loads(written)))
        good = put(folder, "good", file_text(random, text, few))
        paths = random.choice([[damaged], [damaged], [damaged, good], [good, damaged, good]])
        command = random.choice([reporting, reporting, auditing, auditing, joining, joining, joining, judging, missing])
        if command is missing:
            yield missing_from(random, *paths)
        elif command is judging:
            yield judging(random, *random.choice([[damaged, good], [good, damaged], [good, good, damaged], [damaged, damaged]]))
        else:
            yield joining(*paths) if command is joining else command(damaged)


def of_orders(random, folder, text, path, spec):
    """Orders by names, those of ranks, and one put behind the spec as a permutation line."""
    for number in {0, spec.ranks() - 1, random.randrange(spec.ranks()), spec.ranks(), U64 - 1}:
        yield ["order", path, str(number)], answer(order, text, path, number)
    for names in orders(random, spec):
        yield ["rank", path, "--", *names], answer(rank, text, path, names)
    lined = text + b"\npermutation " + order_text(spec, random.randrange(spec.ranks())).encode()
    lined_path = put(folder, "lined", lined)
    yield ["order", lined_path, str(len(spec.lines or []))], answer(order, lined, lined_path, len(spec.lines or []))


def of_spec(random, folder, text, path, most):
    """Runs of all commands on a spec: some of its ranks, and books of them."""
    yield ["count", path], answer(count, text, path)
    try:
        spec = spec_of(text)
    except Refusal:
        yield running(random, text, path, *random.choice([(0, 1), (1, 0)]), "reduce")
        yield running_all(random, text, path, "reduce")
        yield ["order", path, "0"], answer(order, text, path, 0)
        yield ["rank", path, "s"], answer(rank, text, path, ["s"])
        return
    yield from of_orders(random, folder, text, path, spec)
    shards = shards_of(random, spec.ranks(), most)
    yield from (running(random, text, path, *shard) for shard in shards)
    refused = [(*ends, random.choice(["reduce", "every"])) for ends in no_ranges(random, spec.ranks())]
    yield from (running(random, text, path, *shard) for shard in refused)
    if spec.ranks() <= RANKS_OF_ALL or spec.ranks() > MOST_A_RUN:
        yield running_all(random, text, path, random.choice(["reduce", "every"]))
    try:
        parts = [facts_of(worlds_of(text), first, end, how == "reduce") for first, end, how in shards]
    except Refusal:
        parts = [set()]
    facts = set().union(*parts)
    yield from of_books(random, folder, text, parts)
    yield from of_false_books(random, folder, text, facts)
    yield from of_other_books(random, folder, text, some_of(random, facts, RANKS_OF_DAMAGED))
    yield from of_kin(random, folder, text, spec, facts)
    if random.random() < 0.03:
        yield from of_many_books(random, folder, text, facts)
    if most != RANKS_OF_LARGE:
        yield from of_damaged_books(random, folder, text, facts)


def runs(folder, text, seed, path):
    random = Random(seed)
    yield from of_spec(random, folder, text, path, MOST_RANKS)
    if random.random() < 0.1:
        large = folder / "large.spec"
        large.write_text(LARGE)
        yield from of_spec(random, folder, LARGE.encode(), str(large), RANKS_OF_LARGE)


def kind_of(out):
    """What is told, in words to be counted."""
    if out.startswith(b"rank "):
        return ["a report"] + [f"a report: {word}" for word in WORDS if word.encode() in out]
    told = [kind for word, kind in VERDICTS.items() if not out.startswith(b"{") and word in out]
    if told:
        return told
    if not out:
        return ["nothing is missing"]
    if not out.startswith(b"{"):
        return ["a number"] if out.strip().isdigit() else ["ranges"] if not out.strip(b"0123456789- \n") else ["an order"]
    facts = out.split(b',"format":2')[0]
    return ["a book"] + [f"a book: {word}" for word in ("ran", "swap") if f',"{word}",'.encode() in facts]


def main(*start):
    with TemporaryDirectory() as folder:
        return compare(PROGRAM, partial(runs, Path(folder)), kind_of, *start)


if __name__ == "__main__":
    if len(sys.argv) != 4 or sys.argv[1] not in KINDS:
        usage(__doc__)
    sys.exit(ended(main, sys.argv[1], int(sys.argv[2]), int(sys.argv[3])))
