"""Checks that specs with up to 10^15 orders have the figures that are known of them.

usage: python3 crosscheck/class_figures.py PROGRAM|--alone [NAME..]

The specs are those of `classes/` that have a row below. With `--alone` orders are counted by layers of states (`schedules.py`), a minute for
all of them; else PROGRAM prints the classes as JSON. Of each spec are known: the permutations, and the orders that clients can
send; classes and results; how many orders and classes have each letter; and the sum of the least ranks of the classes. The numbers of orders are
known apart from the machine too: by a formula, by row queues alone (`orders_by_queues`), or from another hand.

Of PROGRAM it is looked, too, how much memory it takes for a spec in which each step writes all rows.
"""

import json
import os
import sys
from dataclasses import dataclass
from functools import cache
from math import factorial
from pathlib import Path
from subprocess import PIPE, Popen, run
from tempfile import TemporaryDirectory

from binding import bind
from class_request import JSON
from classes import Asking
from compare_shown import ALONE
from spec_file import read_spec

SPECS = Path(__file__).resolve().parent / "classes"


@dataclass(frozen=True)
class Figures:
    """What is known of a spec. Letters are told as in the JSON of classes: with the numbers of orders and of classes."""

    permutations: int
    orders: int
    classes: int
    results: int
    letters: dict
    sum_of_ranks: int


# ---- orders, apart from the machine


FREE, ENDS = None, "ends"
# What the steps of each session do: nothing that anybody hinders, ask for a row, or end the block.
BY_QUEUES = {
    "one_row": [[FREE, 1, ENDS, FREE]] * 5,
    "diamond": [[FREE, high, low, ENDS, FREE] for high, low in ((1, 2), (1, 3), (2, 4), (3, 4))],
    "disjoint": [[FREE, session, FREE, ENDS] for session in range(6)],
}
# Counted by another hand, with another program. Of the ring the number alone was known, and its steps were chosen from many so that they have it.
BY_ANOTHER_HAND = {"ring": 634_126_816, "transfers": 2_563_384, "mixed": 3_330_788, "clashing": 91_390}


def behind_step(queues, session, step):
    """The rows' queues behind a step, as pairs of a row and the sessions there, the first of which has it."""
    rows = dict(queues)
    if step == ENDS:
        rows = {row: tuple(one for one in there if one != session) for row, there in rows.items()}
    elif step != FREE:
        rows[step] = (*rows.get(step, ()), session)
    return tuple(sorted((row, there) for row, there in rows.items() if there))


def waiting_in(queues):
    return {session for _row, there in queues for session in there[1:]}


def orders_by_queues(sessions):
    """How many orders clients can send where sessions ask for rows alone, get them in the order in which they ask, and nobody is a victim."""

    @cache
    def orders(sent, queues):
        waiting = waiting_in(queues)
        going = [one for one, steps in enumerate(sessions) if sent[one] < len(steps) and one not in waiting]
        behind = (
            orders((*sent[:one], sent[one] + 1, *sent[one + 1 :]), behind_step(queues, one, sessions[one][sent[one]]))
            for one in going
        )
        return sum(behind) if going else 1

    return orders((0,) * len(sessions), ())


def orders_of_disjoint(sessions, steps):
    """How many words have so many of each of so many letters."""
    return factorial(sessions * steps) // factorial(steps) ** sessions


def wrong_orders():
    """Where what is known apart from the machine is other than the figures."""
    known = {name: orders_by_queues(sessions) for name, sessions in BY_QUEUES.items()} | BY_ANOTHER_HAND
    yield from (f"{name} has {orders} orders, apart from the machine" for name, orders in known.items() if FIGURES[name].orders != orders)
    if FIGURES["disjoint"].orders != orders_of_disjoint(6, 4):
        yield "disjoint has not 24! / 4!^6 orders"


# ---- figures


FIGURES = {
    "ring": Figures(11_732_745_024, 634_126_816, 700, 114, {"W": (633_885_372, 686), "D": (632_957_400, 516)}, 1_357_896_292_771),
    "diamond": Figures(11_732_745_024, 1_678_874_664, 75, 1, {"W": (1_335_537_800, 74)}, 24_522_617_061),
    "one_row": Figures(305_540_235_000, 28_929_668_400, 31, 1, {"W": (26_787_094_200, 30)}, 203_703_218_647),
    "disjoint": Figures(3_246_670_537_110_000, 3_246_670_537_110_000, 1, 1, {}, 0),
    "transfers": Figures(63_063_000, 2_563_384, 188, 18, {"W": (2_476_496, 174), "D": (1_193_616, 4)}, 2_681_149_592),
    "mixed": Figures(63_063_000, 3_330_788, 365, 32, {"W": (3_276_000, 351), "D": (2_928_754, 129), "R": (7_325, 24)}, 5_719_810_088),
    "clashing": Figures(756_756, 91_390, 76, 20, {"W": (91_384, 75), "D": (91_337, 69)}, 21_611_376),
}


def printed_by(program, path, *words):
    """The JSON of classes."""
    if program == ALONE:
        return json.loads(Asking(path.read_bytes()).answer(path.name, words)[1])
    return json.loads(run([program, "classes", path, *words], capture_output=True, check=True).stdout)


def results_of(classes):
    """How many results the classes have."""
    words = ("row", "inserted", "updated", "deleted", "error")
    results = [[[line for line in lines if line.startswith(words)] for lines in one["transcripts"]] + [one["final_rows"]] for one in classes]
    return len({*map(json.dumps, results)})


def figures_of(program, path):
    told = printed_by(program, path, JSON)
    classes = told["classes"]
    return Figures(
        bind(read_spec(path.read_bytes())).ranks(),
        told["orders"],
        len(classes),
        results_of(classes),
        {letter: tuple(total) for letter, total in told["totals"].items() if total and total[0]},
        sum(one["first_rank"] for one in classes),
    )


# ---- memory


# Each step tells how many steps came before it, so each order has a class; and the rows are the same behind as many steps.
ROWS, WRITERS, WRITES = 500, 3, 3
MOST_BYTES = 40_000_000


def every_row():
    """A spec in which each step writes all rows."""
    rows = "".join(f"INSERT INTO t VALUES ({key}, {key}); " for key in range(ROWS))
    sessions = (
        f"session s{session}\n" + "".join(f"step s{session}_{step} {{ UPDATE t SET v = v + 1; SELECT sum(v) FROM t; }}\n" for step in range(WRITES))
        for session in range(WRITERS)
    )
    return f"setup {{ CREATE TABLE t (id int PRIMARY KEY, v int); {rows}}}\n" + "".join(sessions)


def wrong_memory(program):
    """Where a spec in which each step writes all rows has other classes, or takes more memory."""
    with TemporaryDirectory() as folder:
        path = Path(folder) / "every_row.spec"
        path.write_text(every_row(), encoding="utf-8")
        process = Popen([program, "classes", path, "--json"], stdout=PIPE)
        told = json.loads(process.stdout.read())
        memory = os.wait4(process.pid, 0)[2].ru_maxrss * 1024
    orders = orders_of_disjoint(WRITERS, WRITES)
    print(f"every_row: {len(told['classes'])} classes, {memory} bytes", flush=True)
    if len(told["classes"]) != orders:
        yield f"every_row has a class for each of {orders} orders"
    if memory > MOST_BYTES:
        yield f"every_row takes {memory} bytes"


def main(program, *names):
    wrong = [*wrong_orders()]
    for name, known in FIGURES.items():
        if not names or name in names:
            figures = figures_of(program, SPECS / f"{name}.spec")
            print(f"{name}: {figures}", flush=True)
            wrong += [f"{name}: {known} are known"] * (figures != known)
    if program != ALONE and not names:
        wrong += wrong_memory(program)
    print("".join(f"{one}\n" for one in wrong), end="")
    print(f"{len(wrong)} differences")
    return 1 if wrong else 0


if __name__ == "__main__":
    if len(sys.argv) < 2:
        sys.exit(__doc__)
    sys.exit(main(*sys.argv[1:]))
