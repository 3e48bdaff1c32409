"""Facts worked out by hand, each compared with what is computed. usage: python3 crosscheck/worked.py"""

import sys
from pathlib import Path

from binding import ShapeKind, shape_fault, words
from book_file import Kind, NoBook, read_book, text_in_format_1
from books import answer as book_answer
from books import book_text, compact, facts_of, leads_to, missing, report
from class_request import NoWords, request_of
from classes import Asking, OrderClasses
from facts import Worlds, answer, are_quiet, fact, fact_line, runs, sent, swap_covers, swapped, swaps, word_of
from levels import bind_at, level_in
from machine import LEVELS, READ_COMMITTED, SERIALIZABLE, outcome_text, plan
from records import Record
from refusal import Refusal
from spec_file import read_spec
from sql import Kind as SqlKind
from sql import Lock, Select, read_sql

ROWS = "setup { CREATE TABLE t (id int PRIMARY KEY, v int); INSERT INTO t VALUES (1, 10), (2, 20); }\n"
INSERT_AND_READ = ROWS + """
session a step a1 { INSERT INTO t VALUES (3, 30); }
session b step b1 { SELECT v FROM t WHERE id = 3; }
"""
ONE_LINE = ROWS + """
session a step a1 { SELECT v FROM t WHERE id = 1; } step a2 { COMMIT; }
session b step b1 { UPDATE t SET v = v + 1 WHERE id = 1; }
permutation a1(*) b1(a1 notices 1) a1
"""
ONE_ROW = ROWS + """
session a setup { BEGIN; } step a1 { UPDATE t SET v = v + 1 WHERE id = 1; } step a2 { COMMIT; }
session b setup { BEGIN; } step b1 { UPDATE t SET v = v + 10 WHERE id = 1; } step b2 { COMMIT; }
"""
READERS_AND_A_WRITER = ROWS + """
session a setup { BEGIN; } step a1 { SELECT v FROM t WHERE id = 1; } step a2 { SELECT * FROM t; }
session b setup { BEGIN; } step b1 { SELECT * FROM t; } step b2 { COMMIT; }
session c step c1 { UPDATE t SET v = 5 WHERE id = 2; }
"""
TWO_TABLES = """
setup { CREATE TABLE t (id int PRIMARY KEY); CREATE TABLE u (id int PRIMARY KEY); }
session a step a1 { INSERT INTO t VALUES (2); } step a2 { DELETE FROM t WHERE id = 2; }
session b step b1 { INSERT INTO u VALUES (2); } step b2 { DELETE FROM u WHERE id = 2; }
"""
WAITS_ASIDE = ROWS + """
setup { CREATE TABLE u (id int PRIMARY KEY); }
session a setup { BEGIN; } step a1 { SELECT * FROM t WHERE id = 1; }
  step a2 { INSERT INTO t VALUES (1, 0); } step a3 { UPDATE t SET v = 0; }
session b setup { BEGIN; } step b1 { LOCK u; } step b2 { SELECT * FROM t WHERE id = 2; }
session c setup { BEGIN; } step c1 { SELECT * FROM u; } step c2 {}
session d setup { BEGIN; } step d1 { SET x = 1; LOCK t; } step d2 {}
"""
LOCKED_ROW = ROWS + """
session a setup { BEGIN; } step a1 { SELECT v FROM t WHERE id = 1 FOR UPDATE; } step a2 { COMMIT; }
session b setup { BEGIN; } step b1 { SELECT v FROM t WHERE id = 1 FOR SHARE NOWAIT; } step b2 { COMMIT; }
"""
SHARED_ROW = LOCKED_ROW.replace("FOR UPDATE", "FOR SHARE")
REFUSED_LOCKS = ROWS + """
session a setup { BEGIN; } step a1 { LOCK t IN SHARE MODE; } step a2 { LOCK t NOWAIT; } step a3 { COMMIT; }
session b setup { BEGIN; } step b1 { LOCK t NOWAIT; } step b2 { LOCK t; } step b3 { SELECT * FROM t FOR UPDATE; } step b4 { LOCK t NOWAIT; }
session c setup { BEGIN; } step c1 { LOCK t IN ACCESS SHARE MODE; } step c2 { LOCK t IN ACCESS SHARE MODE NOWAIT; }
"""
RING_OF_ROWS = ROWS + """
session a setup { BEGIN; } step a1 { SELECT * FROM t WHERE id = 1 FOR UPDATE; } step a2 { SELECT * FROM t WHERE id = 2 FOR SHARE; }
session b setup { BEGIN; } step b1 { SELECT * FROM t WHERE id = 2 FOR UPDATE; } step b2 { SELECT * FROM t WHERE id = 1 FOR UPDATE; }
"""
NO_RING = RING_OF_ROWS.replace("WHERE id = 1 FOR UPDATE; }\n", "WHERE id = 1 FOR UPDATE NOWAIT; }\n")
PLAIN_WORDS = """
setup { CREATE TABLE for (update int PRIMARY KEY, nowait int, share text); INSERT INTO for VALUES (1, 2, 'x'), (2, 1, 'y'); }
session for step update { SELECT nowait, share FROM for WHERE update > 0 ORDER BY nowait FOR UPDATE NOWAIT; }
session nowait step share { LOCK for NOWAIT; LOCK TABLE for IN SHARE MODE NOWAIT; SELECT update FROM for FOR SHARE; }
"""
TWO_ROWS = ONE_ROW.replace("v + 10 WHERE id = 1", "v + 10 WHERE id = 2")
TOP = Path(__file__).resolve().parent.parent
# Of specs: the orders, those in which a session is the victim of a deadlock, and the anomalies. First by strict two-phase locking, then at READ COMMITTED.
#
# In the first four a session has two steps, one that reads and one that writes and commits. There are 6 orders where nobody waits. In 2 of them one session
# is through before the other begins; in the other 4 both read before either writes. By two-phase locking the second to write closes a ring in these 4.
# With FOR UPDATE the second to read is sent before or behind the first one's last step: 2 orders for whoever is first. In one of these 4 b is first, and its
# last SELECT stands behind its COMMIT. By two-phase locking that SELECT waits behind a, and sees a's sum.
#
# Of the bookings at READ COMMITTED. The kiosk's UPDATE is sent behind the web's COMMIT: its SELECT has 4 places, 3 of them before the COMMIT. Or it is sent
# between the web's SELECT and COMMIT, and waits: its SELECT has 2 + 3 places. Or it is sent before the web's SELECT, which waits or does not: 1 + 1. In
# 3 + 5 of these 11 both see that the seat is free. Where both SELECTs lock, the second one is sent behind the first one's first, second or third step.
#
# Of the skewed reads b has one step, which has 3 places among the two of a, and 4 among three. It is seen by the second SELECT alone where it stands between
# both. In a block that locks it waits there, and outside of one it does not. So it is with the row that comes between two SELECTs of all rows.
LEVEL_FIGURES = {
    "examples/conversion.spec": ((6, 4, 0), (6, 0, 4)),
    "examples/lost_update_mended.spec": ((4, 0, 1), (4, 0, 0)),
    "examples/write_skew.spec": ((6, 4, 0), (6, 0, 4)),
    "examples/lost_update.spec": ((4, 0, 0), (4, 0, 0)),
    "examples/read_skew.spec": ((3, 0, 1), (3, 0, 1)),
    "examples/read_skew_refused.spec": ((4, 0, 0), (4, 0, 1)),
    "examples/phantom.spec": ((3, 0, 0), (3, 0, 1)),
    "crosscheck/levels/write_skew_mended.spec": ((4, 0, 0), (4, 0, 0)),
    "crosscheck/levels/double_booking.spec": ((6, 0, 0), (11, 0, 8)),
    "crosscheck/levels/double_booking_mended.spec": ((6, 0, 0), (6, 0, 0)),
}
LEVELLED = ROWS + """
session a
step a1 { BEGIN; UPDATE t SET v = 11 WHERE id = 1; } step a2 { COMMIT; }
session b
step b1 { BEGIN ISOLATION LEVEL READ UNCOMMITTED; SELECT v FROM t WHERE id = 1; }
step b2 { BEGIN ISOLATION LEVEL SERIALIZABLE; SELECT v FROM t WHERE id = 2; }
step b3 { COMMIT; BEGIN; SELECT v FROM t WHERE id = 2; }
step b4 { COMMIT; SELECT v FROM t WHERE id = 2; START TRANSACTION ISOLATION LEVEL SERIALIZABLE; SELECT v FROM t WHERE id = 2; }
step b5 { COMMIT; BEGIN; SET transaction_isolation = serializable; UPDATE t SET v = 21 WHERE id = 2; SELECT * FROM t; }
"""


def empty_steps(counts):
    """A spec whose sessions have so many empty steps."""
    steps = ("".join(f"step s{place}_{step} {{}} " for step in range(count)) for place, count in enumerate(counts))
    return "".join(f"session s{place} {told}" for place, told in enumerate(steps))


# As many sessions and steps as there may be, with nearly as many ranks.
LARGE = empty_steps([2, 8, 3, 1, 6, 2, 4, 2])
EMPTY_STEP = "session a step s {}"
EMPTY_BOOK = '{"facts":[[0,1,"ran",0]],"format":2,"outcomes":[[[["sent",0],"done"]]],"spec":"session a step s {}"}\n'
FALLING_LINE = EMPTY_STEP + " session b step r {} permutation r s permutation r s s"


def worlds_of(text, level=None):
    return Worlds(bind_at(text.encode(), read_spec(text.encode()), level))


def kinds(worlds, ranks, reduces=True):
    """The facts of ranks, without outcomes."""
    told = [fact(worlds, rank, reduces) for rank in ranks]
    return [word if word == "ran" else (word, value) for word, value in told]


def transcript(worlds, rank, session):
    """A session's lines, with a stroke between them."""
    told = [transcript if place == session else [] for place, transcript in enumerate(worlds.outcome(rank))]
    lines = outcome_text(worlds.spec, told).decode().split("\n")
    return "/".join(line.strip() for line in lines if line.startswith("  "))


def quiet(worlds, front, pair):
    """Whether two steps are quiet after others."""
    before, steps = ([worlds.spec.step_names.index(name) for name in names.split()] for names in (front, pair))
    return are_quiet(worlds.after(before), *steps)


def of_insert_and_read():
    worlds = worlds_of(INSERT_AND_READ)
    yield "both ranks are run", kinds(worlds, range(2)), ["ran", "ran"]
    yield "no swap leads from rank 1 to 0", list(swaps(worlds, 1)), []
    yield "rank 0, session a", transcript(worlds, 0, 0), "step a1/inserted 1/done"
    yield "rank 0, session b", transcript(worlds, 0, 1), "step b1/row 30/rows 1/done"
    yield "rank 1, session b", transcript(worlds, 1, 1), "step b1/rows 0/done"


def of_one_line():
    worlds = worlds_of(ONE_LINE)
    yield "lines", worlds.spec.ranks(), 1
    yield "a line is run", kinds(worlds, range(1)), ["ran"]
    yield "session a", transcript(worlds, 0, 0), "step a1/row 10/rows 1/done/step a1/row 11/rows 1/done"
    yield "session b", transcript(worlds, 0, 1), "step b1/updated 1/done"


def of_one_row():
    worlds = worlds_of(ONE_ROW)
    yield "all ranks are run", kinds(worlds, range(6)), ["ran"] * 6
    yield "rank 2, session a", transcript(worlds, 2, 0), "step a1/updated 1/done/step a2/committed/done"
    yield "rank 2, session b", transcript(worlds, 2, 1), "step b1/waiting/not sent b2/resumed/updated 1/done"
    yield "a commit beside a request for what it holds", quiet(worlds, "b1", "b2 a1"), False


def of_readers_and_a_writer():
    worlds = worlds_of(READERS_AND_A_WRITER)
    yield "ranks", worlds.spec.ranks(), 30
    yield "words", [word_of(worlds.spec, rank) for rank in (7, 8)], [[0, 1, 2, 0, 1], [0, 1, 2, 1, 0]]
    yield "ranks 7 and 8 are run", kinds(worlds, (7, 8)), ["ran", "ran"]
    read_all = "/step a2/row 1|10/row 2|{}/rows 2/done"
    yield "rank 7, session a", transcript(worlds, 7, 0).endswith(read_all.format(20)), True
    yield "rank 7, session c", transcript(worlds, 7, 2), "step c1/waiting"
    yield "rank 8, session a", transcript(worlds, 8, 0).endswith(read_all.format(5)), True
    yield "rank 8, session c", transcript(worlds, 8, 2), "step c1/waiting/resumed/updated 1/done"
    yield "b holds the table in S", worlds.after([0, 2]).held[1, ("t",)], "S"
    yield "c asks for IX there", [quiet(worlds, "a1 b1", pair) for pair in ("c1 a2", "c1 b2")], [False, False]
    yield "c waits where b holds and a asks", quiet(worlds, "a1 b1 c1", "b2 a2"), False


def of_two_tables():
    worlds = worlds_of(TWO_TABLES)
    reduced = ["ran", ("swap", 1), ("swap", 2), ("swap", 0), ("swap", 0), ("swap", 1)]
    yield "facts", kinds(worlds, range(6)), reduced
    yield "facts where all are run", kinds(worlds, range(6), False), ["ran"] * 6
    yield "all swaps of rank 4", list(swaps(worlds, 4)), [0, 2]
    yield "where they lead", [swapped(worlds.spec, 4, place) for place in (0, 2)], [2, 3]
    yield "the ranks of the swap at 0", list(swap_covers(worlds.spec, 3, 0)), [3, 4]
    outcomes = [worlds.outcome(rank) for rank in range(6)]
    yield "six equal outcomes", outcomes, [outcomes[0]] * 6
    yield "session a", transcript(worlds, 0, 0), "step a1/inserted 1/done/step a2/deleted 1/done"
    groups = [(0, 1, "ran"), (1, 1, ("swap", 1)), (2, 1, ("swap", 2)), (3, 2, ("swap", 0)), (5, 1, ("swap", 1))]
    yield "runs", runs(list(enumerate(kinds(worlds, range(6))))), groups
    every = [(rank, fact(worlds, rank, False)) for rank in range(6)]
    yield "runs where all are run", [entry[:2] for entry in runs(every)], [(0, 6)]
    job = set(zip(range(4), kinds(worlds, range(4)))) | set(zip(range(2, 6), kinds(worlds, range(2, 6), False)))
    both = {(0, "ran"), (1, ("swap", 1)), (2, "ran"), (2, ("swap", 2)), (3, "ran"), (3, ("swap", 0)), (4, "ran"), (5, "ran")}
    yield "0 to 3 reduced and 2 to 5 run", job, both
    refused = [answer(TWO_TABLES.encode(), "x", first, end, "reduce") for first, end in ((0, 7), (4, 3))]
    yield "ranges that are none", refused, [(3, b"", b"isofarm: x: shard error 1\n")] * 2
    too_long = answer(LARGE.encode(), "x", 0, 1_000_001, "reduce")
    yield "a range that is too long", too_long, (3, b"", b"isofarm: x: shard error 2\n")
    yield "steps sent", sent(worlds.spec, range(6)), 18
    yield "steps sent where each rank is run alone", sum(sent(worlds.spec, [rank]) for rank in range(6)), 24


def of_two_rows():
    worlds = worlds_of(TWO_ROWS)
    yield "facts", kinds(worlds, range(6)), ["ran", ("swap", 1), ("swap", 2), ("swap", 0), ("swap", 0), ("swap", 1)]


def of_waits_aside():
    worlds = worlds_of(WAITS_ASIDE)
    yield "locks are held elsewhere", quiet(worlds, "b1", "b2 a1"), True
    yield "a lock is asked for by its holder", quiet(worlds, "b1", "b1 a1"), True
    yield "somebody waits for what one of the two holds", quiet(worlds, "b1 c1", "b2 a1"), False
    yield "one of the two waits", quiet(worlds, "b1 c1", "c2 a1"), False
    yield "one asks for what is held in a mode that goes with it", quiet(worlds, "b2", "c2 a1"), True
    yield "one asks for what somebody waits for", quiet(worlds, "b2 d1", "c2 a1"), False
    yield "somebody waits elsewhere", quiet(worlds, "b1 c1", "d2 a1"), True
    yield "the second statement asks", quiet(worlds, "", "d1 a1"), False
    yield "a read in a failed block", quiet(worlds, "a2", "b2 a1"), True
    yield "a write in a failed block", quiet(worlds, "a2", "b2 a3"), False


def of_an_empty_step():
    worlds = worlds_of(EMPTY_STEP)
    yield "its fact", fact_line(0, fact(worlds, 0, True)), '[0,"ran",[[["sent",0],"done"]]]'


def of_a_falling_line():
    worlds = worlds_of(FALLING_LINE)
    yield "lines are run", kinds(worlds, range(2)), ["ran", "ran"]
    yield "they fall to quiet steps", quiet(worlds, "", "r s"), True
    yield "steps sent", sent(worlds.spec, range(2)), 3


def runs_written(worlds, facts):
    """The runs of a book as its text has them."""
    return book_text(b"", facts).split('],"format"')[0].removeprefix('{"facts":[')


def of_books():
    worlds = worlds_of(TWO_TABLES)
    spec, six = worlds.spec, [compact(worlds.outcome(0)).encode()] * 6
    reduced, every = (facts_of(worlds, 0, 6, reduces) for reduces in (True, False))
    told = '[0,1,"ran",0],[1,1,"swap",1],[2,1,"swap",2],[3,2,"swap",0],[5,1,"swap",1]'
    yield "runs of the reduced book", runs_written(worlds, reduced), told
    yield "runs where all are run", runs_written(worlds, every), '[0,6,"ran",0]'
    for facts in (reduced, every, reduced | every):
        yield "nothing is missing", missing(spec, facts), None
        yield "six equal outcomes", report(spec, facts), six
    job, turned = (facts_of(worlds, 0, 4, True) | facts_of(worlds, 2, 6, False) for _turn in range(2))
    told = '[0,1,"ran",0],[1,1,"swap",1],[2,4,"ran",0],[2,1,"swap",2],[3,1,"swap",0]'
    yield "runs of 0 to 3 reduced and 2 to 5 run", (runs_written(worlds, job), job | job == turned), (told, True)
    gap = facts_of(worlds, 0, 2, True) | facts_of(worlds, 3, 6, True)
    yield "rank 2 is missing", (missing(spec, gap), report(spec, gap)), (2, "missing rank 2")
    behind = facts_of(worlds, 3, 5, True)
    yield "a swap leads to a rank that is missing", (missing(spec, behind), report(spec, behind)), (0, "missing rank 0")
    leads = [leads_to(spec, rank, place) for rank, place in ((4, 0), (4, 2), (4, 1), (0, 0), (0, 3))]
    yield "where exchanges lead", leads, [2, 3, None, None, None]


def of_books_of_two_ranks():
    worlds = worlds_of(INSERT_AND_READ)
    parts = [facts_of(worlds, rank, rank + 1, True) for rank in range(2)]
    told = [missing(worlds.spec, facts) for facts in (parts[0], parts[1], parts[0] | parts[1], set())]
    yield "what is missing", told, [1, 0, None, 0]
    refused = [book_answer(INSERT_AND_READ.encode(), "x", [(0, 1, "every"), (*shard, "every")], True) for shard in ((0, 3), (2, 1))]
    yield "ranges that are none", refused, [(3, b"", b"isofarm: x: shard error 1\n")] * 2


def of_false_books():
    worlds = worlds_of(EMPTY_STEP)
    true, false = facts_of(worlds, 0, 1, True), (0, "ran", b'[["done"]]')
    yield "its text", book_text(EMPTY_STEP.encode(), true), EMPTY_BOOK
    yield "its length", len(EMPTY_BOOK), 101
    yield "two outcomes", report(worlds.spec, true | {false}), "clash at rank 0"
    yield "a false one alone", report(worlds.spec, {false}), [b'[["done"]]']


def read(text):
    """What a text is read as: a spec's text and facts, or why it is no book."""
    try:
        return read_book(text.encode() if isinstance(text, str) else text)
    except NoBook as refusal:
        return refusal.kind


def of_book_files():
    spec, facts = EMPTY_STEP.encode(), {(0, "ran", b'[[["sent",0],"done"]]')}
    old = '{"facts":[[0,"ran",[[["sent",0],"done"]]]],"format":1,"spec":"session a step s {}"}\n'
    yield "a book in format 1", (text_in_format_1(spec, facts), len(old)), (old, 84)
    yield "both formats are read", [read(old), read(old[:-1]), read(EMPTY_BOOK)], [(spec, facts)] * 3
    yield "other spellings", read(" " + old.replace(",", " ,\t").replace("sent", "\\u0073ent")), (spec, facts)
    for text in (old, EMPTY_BOOK):
        yield "each shorter text is no JSON", {read(text[:length]) for length in range(len(text) - 1)}, {Kind.NOT_JSON}
        yield "another format", read(text.replace('"format":', '"format":3')), Kind.BAD_VERSION
        yield "no spec", read(text.replace(EMPTY_STEP, "")), Kind.BAD_SPEC
        yield "a member too many", read(text.replace('"format"', '"x":0,"format"')), Kind.BAD_FIELD
        yield "a step of no session", read(text.replace('["sent",0]', '["sent",1]')), Kind.BAD_FIELD
        faults = [read(text.replace('"done"', f'["failed",{number}]')) for number in (5, 6)]
        yield "the last fault, and one that is none", faults, [(spec, {(0, "ran", b'[[["sent",0],["failed",5]]]')}), Kind.BAD_FIELD]
        yield "a number with a fraction", read(text.replace('["sent",0]', '["sent",0.0]')), Kind.BAD_FIELD
        hidden = [read(text.replace('"format"', f'"format":{value},"format"')) for value in ("3", '"\\ud800"')]
        yield "a member that a later one hides, and one that is no text", hidden, [(spec, facts), Kind.NOT_JSON]
    fact = '[0,"ran",[[["sent",0],"done"]]]'
    changed = [(f"{fact},{fact}", Kind.OUT_OF_ORDER), ('[0,"swap",0]', Kind.BAD_SWAP), ('[1,"swap",0]', Kind.BAD_RANK)]
    changed += [('[0,"swap",256]', Kind.BAD_FIELD), ('[-1,"swap",0]', Kind.BAD_FIELD), ('[-0,"swap",0]', Kind.BAD_FIELD)]
    yield "facts in format 1", [read(old.replace(fact, told)) for told, _kind in changed], [kind for _told, kind in changed]
    false = f'[0,"ran",[["done"]]],{fact}'
    yield "an outcome that is not true", read(old.replace(fact, false)), (spec, facts | {(0, "ran", b'[["done"]]')})
    run = '[0,1,"ran",0]'
    changed = [('[0,2,"ran",0]', Kind.BAD_RANK), ('[0,0,"ran",0]', Kind.BAD_FIELD), ('[0,1,"ran",1]', Kind.BAD_FIELD)]
    changed += [(f"{run},{run}", Kind.OUT_OF_ORDER), ('[0,30000001,"ran",0]', Kind.TOO_LARGE), ("", Kind.BAD_FIELD)]
    changed += [(f'{run},[0,1,"swap",0]', Kind.BAD_SWAP), (f'[0,{2**64},"ran",0]', Kind.BAD_FIELD)]
    yield "runs in format 2", [read(EMPTY_BOOK.replace(run, told)) for told, _kind in changed], [kind for _told, kind in changed]


def of_runs_in_files():
    worlds = worlds_of(TWO_TABLES)
    job = facts_of(worlds, 0, 4, True) | facts_of(worlds, 2, 6, False)
    text = book_text(TWO_TABLES.encode(), job)
    yield "a book is read back", read(text), (TWO_TABLES.encode(), job)
    yield "and from format 1", read(text_in_format_1(TWO_TABLES.encode(), job)), (TWO_TABLES.encode(), job)
    touching = text.replace('[2,4,"ran",0]', '[2,1,"ran",0]').replace('[2,1,"swap",2]', '[2,1,"swap",2],[3,3,"ran",0]')
    yield "runs that touch", read(touching), Kind.OUT_OF_ORDER
    yield "a swap where letters rise", read(text.replace('[1,1,"swap",1]', '[1,1,"swap",0]')), Kind.BAD_SWAP


def place_of_refusal(function, text):
    """Who refuses a text, with which number and where; or nothing."""
    try:
        function(text)
    except Refusal as refusal:
        return refusal.by, refusal.kind, refusal.place
    return None


def of_locked_rows():
    worlds = worlds_of(LOCKED_ROW)
    yield "rank 0, session b", transcript(worlds, 0, 1), "step b1/row 10/rows 1/done/step b2/committed/done"
    yield "rank 1, session a", transcript(worlds, 1, 0), "step a1/row 10/rows 1/done/step a2/committed/done"
    refused = "step b1/error: lock not available/done/step b2/rolled back/done"
    yield "rank 1, session b", transcript(worlds, 1, 1), refused
    yield "rank 1 is run", kinds(worlds, [1]), ["ran"]
    yield "its value", compact(worlds.outcome(1)[1][:3]), '[["sent",2],["failed",5],"done"]'
    yield "two that share are quiet", kinds(worlds_of(SHARED_ROW), [1]), [("swap", 1)]


def after(worlds, front, session):
    """A session's lines after steps, with a stroke between them."""
    world = worlds.after([worlds.spec.step_names.index(name) for name in front.split()])
    told = [member.transcript if place == session else [] for place, member in enumerate(world.members[:-1])]
    return "/".join(line.strip() for line in outcome_text(worlds.spec, told).decode().split("\n") if line.startswith("  "))


def of_refused_locks():
    worlds = worlds_of(REFUSED_LOCKS)
    yield "a lock that is refused", after(worlds, "a1 b1", 1), "step b1/error: lock not available/done"
    yield "nobody waits behind it", after(worlds, "a1 b1 c1", 2), "step c1/locked/done"
    yield "a waiter is not passed", after(worlds, "a1 b2 c2", 2), "step c2/error: lock not available/done"
    yield "but by who holds the table", after(worlds, "a1 b2 a2", 0), "step a1/locked/done/step a2/locked/done"
    yield "a conversion is refused", after(worlds, "a1 c1 a2", 0), "step a1/locked/done/step a2/error: lock not available/done"
    yield "what it held is let go", after(worlds, "a1 c1 b2 a2 c2", 2), "step c1/locked/done/step c2/locked/done"
    yield "who waited goes on", after(worlds, "c1 a1 b2 a2", 1), "step b2/waiting"
    yield "rows to be updated, of a whole table", after(worlds, "a1 b3 a3", 1), "step b3/waiting/resumed/row 1|10/row 2|20/rows 2/done"
    told = "step b1/error: lock not available/done/step b4/error: transaction is aborted/done"
    yield "a failed block asks for nothing", after(worlds, "a1 b1 b4", 1), told
    yield "who waits is not sent", after(worlds, "a1 b2 b1", 1), "step b2/waiting/not sent b1"


def of_rings_of_locked_rows():
    ring, refused = "step b2/error: deadlock/done", "step b2/error: lock not available/done"
    for text, told in ((RING_OF_ROWS, ring), (NO_RING, refused)):
        worlds = worlds_of(text)
        yield "session b", after(worlds, "a1 b1 a2 b2", 1), f"step b1/row 2|20/rows 1/done/{told}"
        yield "session a", after(worlds, "a1 b1 a2 b2", 0), "step a1/row 1|10/rows 1/done/step a2/waiting/resumed/row 2|20/rows 1/done"


def of_refused_setups():
    held = ROWS + "session a setup { BEGIN; SELECT * FROM t WHERE id = 1 FOR UPDATE; } step s {}"
    for setup, refusal in (("LOCK t NOWAIT;", 2), ("LOCK t;", 3), ("SELECT * FROM t FOR SHARE NOWAIT;", 2), ("SELECT * FROM t;", 3)):
        text = f"{held} session b setup {{ {setup} }} step r {{}}"
        yield setup, place_of_refusal(worlds_of, text), ("start", refusal, 1)


def of_plans():
    spec = worlds_of(ROWS.replace("}", "CREATE TABLE n (a int, b int); }") + EMPTY_STEP).spec
    row, table = [(("t",), "IX"), (("t", 2), "X")], [(("t",), "X")]
    for select, asked in (
        ("SELECT v FROM t WHERE id = 2 FOR UPDATE", row),
        ("SELECT v FROM t WHERE v > 0 AND id = 2 ORDER BY v FOR UPDATE NOWAIT", row),
        ("SELECT v FROM t WHERE 2 = id FOR UPDATE", table),
        ("SELECT v FROM t FOR UPDATE NOWAIT", table),
        ("SELECT a FROM n WHERE a = 2 FOR UPDATE", [(("n",), "X")]),
        ("SELECT v FROM t WHERE id = 2 FOR SHARE", [(("t",), "IS"), (("t", 2), "S")]),
        ("SELECT v FROM t FOR SHARE NOWAIT", [(("t",), "S")]),
        ("LOCK t IN ROW EXCLUSIVE MODE NOWAIT", [(("t",), "IX")]),
        ("LOCK TABLE t NOWAIT", table),
    ):
        yield select, plan(spec.tables, read_sql(select.encode())[0]), asked


def of_words_that_lock():
    worlds = worlds_of(PLAIN_WORDS)
    yield "session for", transcript(worlds, 0, 0), "step update/row 1|'y'/row 2|'x'/rows 2/done"
    yield "session nowait", transcript(worlds, 0, 1), "step share/locked/locked/row 1/row 2/rows 2/done"
    read = [read_sql(text)[0] for text in (b"lock nowait nowait", b"LOCK nowait", b"SELECT for FROM for FOR SHARE", b"SELECT for FROM for")]
    told = [Lock("nowait", "X", True), Lock("nowait", "X", False)]
    told += [Select("for", ["for"], None, None, [], locks, False) for locks in ("share", None)]
    yield "names and words", read, told
    for text, stops in (
        ("SELECT count(*) FROM t FOR UPDATE", "FOR"),
        ("SELECT sum(v) FROM t WHERE id = 1 ORDER BY v FOR SHARE NOWAIT", "FOR"),
        ("SELECT v FROM t NOWAIT", "NOWAIT"),
        ("SELECT v FROM t FOR NOWAIT", "NOWAIT"),
        ("SELECT v FROM t FOR UPDATE SHARE", "SHARE"),
        ("SELECT v FROM t FOR SHARE WHERE id = 1", "WHERE"),
        ("SELECT v FROM t FOR UPDATE ORDER BY v", "ORDER"),
        ("SELECT v FROM t ORDER BY FOR UPDATE", "UPDATE"),
        ("UPDATE t SET v = 1 FOR UPDATE", "FOR"),
        ("DELETE FROM t NOWAIT", "NOWAIT"),
        ("LOCK t NOWAIT IN SHARE MODE", "IN"),
        ("LOCK t IN NOWAIT MODE", "NOWAIT"),
        ("LOCK t FOR UPDATE", "FOR"),
    ):
        yield text, place_of_refusal(read_sql, text.encode()), ("sql", SqlKind.SYNTAX, text.index(stops))
    for text in ("SELECT v FROM t FOR", "LOCK t IN SHARE"):
        yield text, place_of_refusal(read_sql, text.encode()), ("sql", SqlKind.SYNTAX, len(text))
    yield "no statement", place_of_refusal(read_sql, b"NOWAIT"), ("sql", SqlKind.UNSUPPORTED, 0)


def of_shapes():
    numbers = {(2, 2): 6, (3,): 1, (24, 1): 25, (14, 14): 40116600, (28,): 1, (1,) * 8: 40320, (2,) * 8: 81729648000}
    numbers |= {(4,) * 6: 3246670537110000, (3,) * 8: 369398958888960000, (8, 6, 4, 3, 2, 2, 2, 1): 9116650868204880000}
    for counts, number in numbers.items():
        yield f"words of {counts}", (words(counts), shape_fault(counts)), (number, None)
        yield f"ranks of {counts}", worlds_of(empty_steps(counts)).spec.ranks(), number
    refused = {(): ShapeKind.EMPTY, (1, 0): ShapeKind.EMPTY, (1,) * 9: ShapeKind.TOO_MANY_SESSIONS, (28, 1): ShapeKind.TOO_MANY_STEPS}
    refused |= {(4,) * 7: ShapeKind.TOO_MANY_RANKS, (7, 7, 3, 3, 3, 3, 1, 1): ShapeKind.TOO_MANY_RANKS}
    refused |= {(4,) * 8: ShapeKind.TOO_MANY_STEPS, (4,) * 9: ShapeKind.TOO_MANY_SESSIONS}
    for counts, kind in refused.items():
        yield f"no words of {counts}", shape_fault(counts), kind
        if kind != ShapeKind.EMPTY:
            yield f"no spec of {counts}", place_of_refusal(worlds_of, empty_steps(counts)), ("bind", 8, 0)
    for text, number in ((empty_steps([4] * 6), 3246670537110000), (LARGE, 9116650868204880000)):
        spec = worlds_of(text).spec
        yield "the last word", word_of(spec, number - 1), sorted(word_of(spec, 0), reverse=True)


def of_lines_of_many_steps():
    line = EMPTY_STEP + " permutation" + " s" * 28
    yield "a line of 28 items", len(worlds_of(line).outcome(0)[0]), 56
    yield "the 29th", place_of_refusal(worlds_of, line + " x"), ("spec", 9, len(line) + 1)
    for counts, refusal in (((4,) * 7, None), ((1,) * 9, ("bind", 8, 0)), ((128, 127), None), ((128, 128), ("bind", 8, 0))):
        yield f"lines of {counts}", place_of_refusal(worlds_of, empty_steps(counts) + "permutation s0_0"), refusal


def figures(text, level):
    """How many orders there are, with a deadlock, and with an anomaly."""
    classes = OrderClasses(bind_at(text, read_spec(text), level), False)
    return classes.orders, *(sum(one.letters[letter] for one in classes.all) for letter in "DR")


def of_figures_at_levels():
    for name, (locked, committed) in LEVEL_FIGURES.items():
        text = (TOP / name).read_bytes()
        told = [figures(text, level) for level in (None, SERIALIZABLE, READ_COMMITTED)]
        yield name, told, [locked, locked, committed]
    path = TOP / "crosscheck/levels/double_booking.spec"
    asking = Asking(path.read_bytes())
    told = asking.answer(path.name, ["--level", READ_COMMITTED])
    yield "the page of the bookings", told, (0, path.with_suffix(".txt").read_bytes(), b"")
    results = {one.ending.result for one in asking.at(READ_COMMITTED).classes(False).all if "R" in one.letters}
    both = ((("row", (b"none",)), ("rows", 1), ("updated", 1)),) * 2
    yield "both book the free seat, and the kiosk has it", results, {(both, (("seat", ((12, b"kiosk"),)),))}


def of_levels():
    """b looks at rows at other levels, and at one that a has written."""
    plain, locked = {}, {("t",): "IS", ("t", 2): "S"}
    for level, held in ((READ_COMMITTED, [plain, plain, plain, locked]), (SERIALIZABLE, [plain, plain, locked, locked])):
        worlds = worlds_of(LEVELLED, level)
        steps = [worlds.spec.step_names.index(name) for name in ("a1", "b1", "b2", "b3", "b4")]
        told = [worlds.after(steps[: 2 + place]).held for place in range(4)]
        told = [{resource: mode for (session, resource), mode in held.items() if session == 1} for held in told]
        yield f"what b holds at {level}", told, held
    worlds = worlds_of(LEVELLED, READ_COMMITTED)
    yield "a row that a has written", after(worlds, "a1 b1", 1), "step b1/begun/row 10/rows 1/done"
    again = "step b2/warning: already in a transaction block/begun/row 20/rows 1/done"
    yield "it is committed meanwhile", after(worlds, "a1 b1 a2 b2", 1).endswith(again), True
    own = "step b5/committed/begun/set/updated 1/row 1|10/row 2|21/rows 2/done"
    yield "one's own writes over what is committed", after(worlds, "a1 b1 b2 b3 b4 b5", 1).endswith(own), True
    yield "no level is asked for", after(worlds_of(LEVELLED), "a1 b1", 1), "step b1/begun/waiting"


def words_with_level(*words):
    try:
        return request_of(words).level
    except NoWords as wrong:
        return wrong.args[0]


def of_what_asks_for_levels():
    line = f"# level: {READ_COMMITTED}\n"
    read = {
        EMPTY_STEP: None,
        line + EMPTY_STEP: READ_COMMITTED,
        f"{EMPTY_STEP}\n \t#\tlevel:serializable \r\n": SERIALIZABLE,
        f"session a # one\n{line}step s {{}}": READ_COMMITTED,
        f"session a {line}step s {{}}": None,
        f"session a step s {{ -- no\n{line}}}": None,
        f"# no level: {READ_COMMITTED}\n{EMPTY_STEP}": None,
    }
    for text, level in read.items():
        yield text, level_in(text.encode()), level
    begun = "session a\nstep s { BEGIN ISOLATION LEVEL REPEATABLE READ; }"
    refused = {
        f"# level:\n{EMPTY_STEP}": ("level", 1, 1),
        f"\n# level: read committed\n{EMPTY_STEP}": ("level", 1, 2),
        line + EMPTY_STEP + "\n" + line: ("level", 2, 3),
        line + begun: ("level", 3, 3),
        begun: None,
    }
    for text, refusal in refused.items():
        yield text, place_of_refusal(worlds_of, text), refusal
    yield "SET TRANSACTION", place_of_refusal(read_sql, b"SET TRANSACTION ISOLATION LEVEL SERIALIZABLE"), ("sql", SqlKind.SYNTAX, 16)
    yield "a record", Record("x", (line + EMPTY_STEP).encode()).text().split("\n")[2], "level read-committed"
    told = Asking((line + begun).encode()).answer("x", [])
    yield "its line", told, (3, b"", b"isofarm: x: REPEATABLE READ is not modelled (line 3)\n")
    words = [words_with_level(*words) for words in ([], *(["--level", level] for level in LEVELS), ["--level", "snapshot"], ["--level"] + LEVELS)]
    yield "words", words, [None, *LEVELS, "snapshot is no level", "serializable is no option"]
    heads = [Asking(text.encode()).answer("x", words)[1].decode().split("\n")[1] for text, words in (
        (line + EMPTY_STEP, []),
        (line + LEVELLED, []),
        (line + LEVELLED, ["--level", SERIALIZABLE]),
        (LEVELLED, []),
    )]
    yield "heads", heads, [
        "isolation level: READ COMMITTED",
        "isolation level: READ COMMITTED; SERIALIZABLE (lines 8, 10)",
        "isolation level: SERIALIZABLE; READ COMMITTED (line 7)",
        "locking: strict two-phase locking; isolation level (line 6) has no effect",
    ]


def main():
    examples = [of_insert_and_read, of_one_line, of_one_row, of_readers_and_a_writer, of_two_tables]
    examples += [of_two_rows, of_waits_aside, of_an_empty_step, of_a_falling_line]
    examples += [of_locked_rows, of_refused_locks, of_rings_of_locked_rows, of_refused_setups, of_plans, of_words_that_lock]
    examples += [of_shapes, of_lines_of_many_steps]
    examples += [of_figures_at_levels, of_levels, of_what_asks_for_levels]
    examples += [of_books, of_books_of_two_ranks, of_false_books, of_book_files, of_runs_in_files]
    compared = differences = 0
    for example in examples:
        for what, computed, expected in example():
            compared += 1
            if computed != expected:
                differences += 1
                print(f"{example.__name__}: {what}: {computed} is computed and not {expected}")
    print(f"{compared} values, {differences} differences")
    return 1 if differences else 0


if __name__ == "__main__":
    sys.exit(main())
