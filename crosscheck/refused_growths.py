"""Refuses tests each growth in turn, one in each run.

usage: python3 crosscheck/refused_growths.py [--program PATH] [--most M] [--seed N] [--count K] [--jobs N] [MODULE::TEST..]

Some tests of tests/calls accept the full answer or the named refusal, and then read what stands. They run here from the program of tests/calls.py, which is
compiled once, or from that at PATH: a number stands in it that no run comes to, where `rt try --test --fail-alloc N` has the number of the growth that is
refused. Each run here has a number of its own in that place. Each test runs for N = 1, 2, 3 .. up to the growths that it makes and one more, and has to pass
each time. How many it makes is found by the same program with an unlawful instruction where it would refuse. Those that are named run, without names all; with
--count K of them, by the seed. Where a test makes more than M growths it is refused M of them: those that the seed takes, or without one the first. The exit
status is 1 where a test fails.
"""

import argparse
import os
import re
import shutil
import signal
import subprocess
import sys
import time
from concurrent.futures import ProcessPoolExecutor
from pathlib import Path
from random import Random
from tempfile import TemporaryDirectory

from compare import ended
from wrong_bodies import stop

sys.path.insert(0, str(Path(__file__).resolve().parent.parent / "tests"))

import calls

TESTS = [
    "audits::an_audit_without_memory_is_refused_by_name",
    "books::a_text_is_written_whole_unless_memory_runs_out",
    "books::books_are_whole_unless_memory_runs_out",
    "event_trees::a_refused_list_leaves_the_tree",
    "lines::a_refused_event_leaves_the_log_and_its_forks",
    "lines::a_value_is_read_and_made_whole_unless_memory_runs_out",
    "lines::a_value_of_no_outcome_is_refused_unless_memory_runs_out",
    "lines::an_input_is_read_whole_unless_memory_runs_out",
    "lists::a_refused_call_leaves_the_list_and_its_marks",
    "marks::a_world_without_memory_goes_back_to_its_mark",
    "modes::a_refused_fork_leaves_what_is_forked",
    "no_memory::a_page_is_told_whole_unless_memory_runs_out",
    "no_memory::a_run_tells_all_unless_memory_runs_out",
    "no_memory::an_order_and_its_rank_are_told_unless_memory_runs_out",
    "no_memory::an_order_is_shown_whole_unless_memory_runs_out",
    "no_memory::answers_are_told_whole_unless_memory_runs_out",
    "no_memory::books_are_told_whole_unless_memory_runs_out",
    "no_memory::both_levels_are_told_whole_unless_memory_runs_out",
    "no_memory::classes_are_told_whole_unless_memory_runs_out",
    "no_memory::classes_of_books_are_told_whole_unless_memory_runs_out",
    "no_memory::usage_is_told_unless_memory_runs_out",
    "plans::a_step_is_bound_or_refused_as_ever_unless_memory_runs_out",
    "queues::a_refused_request_for_a_key_leaves_it",
    "queues::a_refused_step_leaves_the_table_and_its_forks",
    "read_books::a_book_without_memory_is_refused_by_name",
    "read_books::all_is_told_unless_memory_runs_out",
    "refusals::a_farm_is_whole_or_names_what_is_missing",
    "refusals::a_refused_turn_is_one_and_can_be_asked_for_again",
    "spec_texts::a_text_is_read_whole_unless_memory_runs_out",
    "spec_texts::a_text_is_refused_as_ever_unless_memory_runs_out",
    "sql_texts::want_of_memory_is_named",
    "tables::a_refused_step_leaves_the_store_and_its_forks",
    "tested_specs::specs_are_tested_whole_unless_memory_runs_out",
    "trees::a_refused_change_leaves_each_version",
    "walks::a_new_walker_gives_the_rest_where_memory_ran_out",
    "walks::a_shard_is_run_whole_unless_memory_runs_out",
    "walks::runs_follow_on_each_other_where_memory_ran_out_too",
    "worlds::a_run_without_memory_is_refused",
    "worlds::a_world_without_memory_is_spent_and_its_forks_go_on",
]
# A test with such a name is one of those above.
OF_MEMORY = re.compile(r"unless_memory|without_memory|memory_ran_out")

# The code that the number stands in which is compiled for N: where it is the growth's number, null is given.
REFUSES, UNLAWFUL = b"\x31\xc0", b"\x0f\x0b"
PLACE = re.compile(re.escape(calls.NUMBER.to_bytes(4, "little")) + b"\x75." + re.escape(REFUSES), re.DOTALL)
BEHIND = 6
# Where threads share the growths, one run makes more of them than another.
TRIES = 5
MOST_SECONDS = 60
# So many N are one piece of work.
AT_ONCE = 50
LINES_TOLD = 5
NOT_TOLD = re.compile(r"\s*$|test result: |=+$|\d+: |#\d")

# its runs, each process with a copy of its own


def begin(program, room):
    """What a process keeps: its copy of the program, where N stands in it, and an empty folder."""
    global copy, places, folder
    signal.signal(signal.SIGINT, signal.SIG_IGN)
    folder = Path(room, str(os.getpid()))
    folder.mkdir()
    copy = folder.with_suffix(".program")
    shutil.copy(program, copy)
    places = places_of(copy.read_bytes())


def places_of(program):
    return [found.start() for found in PLACE.finditer(program)]


def refused(test, number, does=REFUSES):
    """The status of a test whose growth of that number is refused, and what it printed."""
    with open(copy, "r+b") as file:
        for place in places:
            file.seek(place)
            file.write(number.to_bytes(4, "little"))
            file.seek(place + BEHIND)
            file.write(does)
    try:
        ran = subprocess.run([copy, test], cwd=folder, env={}, stdin=subprocess.DEVNULL, capture_output=True, timeout=MOST_SECONDS, check=False)
    except subprocess.TimeoutExpired:
        return None, f"was stopped after {MOST_SECONDS} seconds"
    return ran.returncode, (ran.stdout + ran.stderr).decode(errors="replace")


def makes(test, number):
    """Whether a run makes a growth of that number."""
    status, text = refused(test, number, UNLAWFUL)
    return status == -signal.SIGILL or "AddressSanitizer: ILL" in text


def growths_of(test):
    """How many growths a test makes with memory for all."""
    low, high = 0, 1
    while makes(test, high):
        low, high = high, 2 * high
    while high - low > 1:
        middle = (low + high) // 2
        low, high = (middle, high) if makes(test, middle) else (low, middle)
    while low and any(makes(test, low + 1) for _try in range(TRIES)):
        low += 1
    return low


def failures(test, numbers):
    """Each of these N with which a test fails, with its status and what it printed."""
    ends = [(number, *refused(test, number)) for number in numbers]
    return [it for it in ends if it[1] != 0]


def lines_of(text):
    """The lines that say why a test failed."""
    return [line.strip() for line in text.splitlines() if not NOT_TOLD.match(line.strip())][:LINES_TOLD]


def fit(program, tests):
    """Whether the program is what it is taken for."""
    code = program.read_bytes()
    if not places_of(code) or len(places_of(code)) != code.count(calls.NUMBER.to_bytes(4, "little")):
        raise calls.Unfit("is refused growths in another way by this kit")
    listed = subprocess.run([program, "--list"], env={}, stdin=subprocess.DEVNULL, capture_output=True, text=True, check=False).stdout
    names = re.findall(r"^(\S+): test$", listed, re.MULTILINE)
    if lacking := [test for test in tests if test not in names]:
        raise calls.Unfit(f"has no test {', '.join(lacking)}")
    if unnamed := [name for name in names if OF_MEMORY.search(name) and name not in TESTS]:
        raise calls.Unfit(f"has tests that are not named in refused_growths.py: {', '.join(unnamed)}")


def numbers_of(last, asked):
    """Which N are run of a test that makes so many growths: all and one more, which is refused nothing; or so many, the first or by the seed."""
    if last <= asked.most:
        return range(1, last + 2)
    if asked.seed is None:
        return range(1, asked.most + 1)
    return sorted(Random(asked.seed).sample(range(1, last + 1), asked.most))


def pieces_of(pool, test, numbers):
    return [pool.submit(failures, test, numbers[first : first + AT_ONCE]) for first in range(0, len(numbers), AT_ONCE)]


def told(test, last, found, most):
    """Prints what became of a test: how many growths it was refused, and how often it failed."""
    count, failed = min(last, most), len(found) + (last == 0)
    said = f"{count} of {last} growths refused, {len(found)} failures" if last else "makes no growth"
    print(f"{'FAILED' if failed else 'passed'} {test}: {said}", flush=True)
    for number, status, text in found:
        print(f"  N = {number}, status {status}: {' / '.join(lines_of(text))}", flush=True)
    return count, failed


def tell(program, tests, asked):
    """Runs tests: how many N, and how often one failed."""
    fit(program, tests)
    began = time.monotonic()
    with TemporaryDirectory() as room, ProcessPoolExecutor(asked.jobs, initializer=begin, initargs=(program, room)) as pool:
        try:
            lasts = [pool.submit(growths_of, test) for test in tests]
            jobs = [pieces_of(pool, test, numbers_of(last.result(), asked)) for test, last in zip(tests, lasts)]
            ends = [
                told(test, last.result(), [it for job in pieces for it in job.result()], asked.most)
                for test, last, pieces in zip(tests, lasts, jobs)
            ]
        finally:
            pool.shutdown(wait=False, cancel_futures=True)
    print(f"runs in {time.monotonic() - began:.0f} s", flush=True)
    return sum(count for count, _failed in ends), sum(failed for _count, failed in ends)


def wanted(asked):
    """The tests to be run."""
    for name in asked.names:
        if name not in TESTS:
            sys.exit(f"refused_growths.py: there is no {name}")
    chosen = [test for test in TESTS if not asked.names or test in asked.names]
    if asked.count is not None:
        taken = Random(asked.seed).sample(chosen, min(asked.count, len(chosen)))
        chosen = [test for test in chosen if test in taken]
    return chosen


def main():
    words = argparse.ArgumentParser(usage=__doc__.split("usage: ")[1].split("\n\n")[0])
    words.add_argument("--program", type=Path)
    words.add_argument("--most", type=int, default=1_000_000)
    words.add_argument("--jobs", type=int, default=os.cpu_count())
    words.add_argument("--seed", type=int)
    words.add_argument("--count", type=int)
    words.add_argument("names", nargs="*")
    asked = words.parse_args()
    tests = wanted(asked)
    try:
        program = asked.program or calls.program_of()[0]
        runs, failed = tell(program, tests, asked)
    except calls.Unfit as fault:
        print(f"FAILED the program of the tests {fault}", flush=True)
        runs, failed = 0, 1
    print(f"{len(tests)} tests, {runs} growths refused, {failed} failures")
    return 1 if failed else 0


if __name__ == "__main__":
    signal.signal(signal.SIGINT, stop)
    signal.signal(signal.SIGTERM, stop)
    sys.exit(ended(main))
