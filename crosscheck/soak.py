"""Gives specs and books made from a seed, whole and damaged, to all commands of the program, for so many minutes.

usage: python3 crosscheck/soak.py MINUTES [SEED] [--jobs N] [--from SET]

The seed is SEED, or a fresh one; it is printed first. As many jobs run side by side as there are cores, or N. Each makes one set of files
after another, by the numbers of sets from 0 on, or from SET on, so that a run goes on behind an earlier one of its seed: a spec of some
kind, its text with other bytes, books of its ranks, and damaged ones. Of every run holds what `rules.py` says, and of some runs that they
tell the same; of one set in four, and of short files, the answers are those of this second implementation. A set ends with its first
finding, whose files are left in `out/soak/SEED-NUMBER`, with the command lines in `command` and what was told in `told`. The last lines
count what was made and told. The exit status is 1 where there is a finding. Ctrl-C ends it, with the counts so far.
"""

import json
import multiprocessing
import os
import re
import resource
import shlex
import shutil
import signal
import sys
import traceback
from argparse import ArgumentParser, RawDescriptionHelpFormatter
from collections import Counter
from concurrent.futures import ProcessPoolExecutor, as_completed
from pathlib import Path
from random import Random
from tempfile import TemporaryDirectory
from time import monotonic

import compare
import compare_book_classes
import compare_classes
import compare_files
import compare_hostile
from books import compact
from checks import checked, without_sentence
from class_pages import read_back
from class_request import ALL_ORDERS, BOOK_FLAGS, BY_RESULT, FILTERS, FINAL_ROWS, HTML, JSON, OUTCOMES, opposite
from compare import PROGRAM, difference, fault_of
from damage import DAMAGES_OF_BYTES
from generate import KINDS, Maker, fresh_seed
from rules import called, wrong_in
from soak_tests import test
from streams import NO_COMMANDS, WRITE_FAULT
from watch import Watch

KEPT = Path(__file__).resolve().parent.parent / "out/soak"
# One set in so many is compared, and of its files books have so many ranks.
COMPARED, RANKS_COMPARED = 4, 30
# In the other sets the files are compared that are read here in no time: specs and books of so many bytes, books of so many ranks.
BYTES_OF_SPECS, BYTES_OF_BOOKS, RANKS_OF_BOOKS = 2_000, 4_000, 1_000
DAMAGED_SPECS, DAMAGED_BOOKS = 6, 10
# How long ranges are. Some have several shards.
RANGES = [0, 1, 2, 20, 20, 40, 40, 300, 3_000]
# An audit runs each order of a book, so no book with more of them is audited.
MOST_AUDITED = 20_000
# Orders are classed of specs that have at most so many.
MOST_CLASSED = 3_000
# A program that asks for more lacks memory, and the machine has to have some left.
MOST_ADDRESSES = 4 << 30
MOST_KEPT_BY_A_JOB = 25
STOP = multiprocessing.Event()


def names_in(line):
    """The names of a line of them."""
    found = re.findall(rb'"((?:[^"]|"")*)"|([^ "\n]+)', line)
    return [(quoted.replace(b'""', b'"') or plain).decode() for quoted, plain in found]


class Found(Exception):
    """What is wrong with a run. The arguments are that, and the runs that show it."""


class Ended(Exception):
    """The time is over."""


def facts_in(book):
    """The facts of a book that the program has written."""
    outcomes = [compact(outcome).encode() for outcome in book["outcomes"]]
    return {
        (rank, word, outcomes[value] if word == "ran" else value)
        for first, count, word, value in book["facts"]
        for rank in range(first, first + count)
    }


def ranks_run(book):
    """How many orders an audit of a book runs."""
    return sum(count for _first, count, word, _value in json.loads(book)["facts"] if word == "ran")


def without_name(ran, *paths):
    """What classes of these books tell, but for what stands for their path."""
    name = paths[0] if len(paths) == 1 else f"{len(paths)} books"
    return ran.status, ran.out.replace(name.encode(), b"", 1), ran.error.replace(paths[0].encode(), b"", 1)


def first_line(ran):
    """What a run tells but for the lines behind the first on standard error."""
    return ran.status, ran.out, ran.error.split(b"\n")[0]


class Soak:
    """A job: makes one set of files after another in this folder, and runs the program on them."""

    def __init__(self, seed, deadline):
        self.seed, self.deadline, self.watch = seed, deadline, Watch()
        self.counts, self.told, self.random = Counter(), Counter(), None

    def put(self, name, text):
        Path(name).write_bytes(text)
        return name

    def run(self, *words, want=None):
        if monotonic() > self.deadline or STOP.is_set():
            raise Ended
        ran = self.watch.run(*map(str, words))
        self.counts.update(["runs"] + ["compared"] * (want is not None))
        wrong = wrong_in(ran.words, ran, lambda path: Path(path).read_bytes())
        self.hold(not wrong, wrong, ran)
        self.told[self.kind_of(ran)] += 1
        if want is not None:
            got = without_sentence(ran.told) if words[0] == "check" else ran.told
            self.hold(got == want, lambda: difference(want, got), ran)
        return ran

    def hold(self, holds, what, *runs):
        if not holds:
            raise Found(what if isinstance(what, str) else what(), runs)

    def hold_same(self, told, what, *runs):
        """Answers have to be equal."""
        self.hold(all(one == told[0] for one in told), what, *runs)

    @staticmethod
    def kind_of(ran):
        command = called(ran.words) if ran.words and ran.status != 2 else "words"
        has_fault = ran.error.startswith(b"isofarm: ") and "--progress" not in ran.words and ran.status not in (0, 2)
        return f"{command}, status {ran.status}{f': {fault_of(ran.error)}' if has_fault else ''}"

    # specs

    def spec(self, path, text):
        """Gives a spec to the commands that read one. The number of its ranks is given, and whether it starts; no number where it is refused."""
        self.put(path, text)
        want = checked(text, path) if len(text) <= BYTES_OF_SPECS else None
        check, count = self.run("check", path, want=want), self.run("count", path)
        one, run = self.run("one", path, 0), self.run("run", path, 0, 1)
        if count.status:
            told = [first_line(ran) for ran in (check, count, one, run)]
            self.hold_same(told, "the commands tell different faults of a spec", check, count, one, run)
            tested = self.run("test", path, *self.random.choice([[], ["--update"]]))
            self.hold(tested.told == (3, count.error.removeprefix(b"isofarm: "), b""), "a test tells another fault of a spec", tested, count)
            return None, False
        self.hold(b"\nranks " + count.out in check.out, "check and count tell different numbers", check, count)
        self.hold_same([(ran.status, ran.error) for ran in (one, run)], "one and run tell different starts", one, run)
        return int(count.out), one.status == 0

    def starts_at_its_level(self, path, text, starts):
        """Whether it starts where a line of it may ask for a level: setups that read may wait then or not, and a level may be refused."""
        return starts if b"level:" not in text else self.run("show", path, 0).status == 0

    def orders(self, path, number, starts, is_shown):
        """Orders of a spec, at the ends, anywhere and past the end, and ranges that there are not."""
        for rank in {0, number - 1, self.random.randrange(number)}:
            self.hold((ran := self.run("one", path, rank)).status == (0 if starts else 3), "an order is not there", ran)
            self.hold((ran := self.run("order", path, rank)).status == 0, "an order is not told", ran)
            names = names_in(ran.out)
            if any("\0" in name for name in names):
                continue
            again = self.run("rank", path, "--", *names)
            self.hold(again.status == 0 and int(again.out) <= rank, "an order has no rank, or a later one", ran, again)
            self.run("rank", path, "--", *self.random.sample(names, self.random.randint(1, len(names))))
            self.shows(path, rank, names, int(again.out), is_shown)
        for rank in self.random.sample([number, number + 1, 2**32, 2**63, 2**64 - 1], 2):
            self.hold(rank < number or (ran := self.run("one", path, rank)).status == 3, "an order is there that is none", ran)
        for ends in compare_files.no_ranges(self.random, number):
            self.hold((ran := self.run("run", path, *ends)).status == 3, "a range is there that is none", ran)

    def shows(self, path, rank, names, least, starts):
        """What happens in an order, by its rank and by its names, as text and as JSON."""
        for flags in ([], ["--json"]):
            shown = self.run("show", *flags, path, rank)
            self.hold(shown.status == (0 if starts else 3), "an order is not shown", shown)
            if len(names) > 1:
                named = self.run("show", *flags, path, "--", *names)
                shown = shown if least == rank else self.run("show", *flags, path, least)
                self.hold_same([(ran.status, ran.out) for ran in (shown, named)], "an order is shown otherwise by its names", shown, named)

    def classes(self, path, number, starts):
        """All orders in classes, as text, as JSON or as a page, and those that pass a filter beside those that do not."""
        flags = [flag for flag in (ALL_ORDERS, BY_RESULT, OUTCOMES, FINAL_ROWS) if self.random.random() < 0.5] + self.random.choice([[], [JSON], [HTML]])
        ran = self.run("classes", path, *flags)
        self.hold(ran.status == (0 if starts else 3), "orders are not classed", ran)
        names = [name for name, letter in FILTERS.items() if letter != "R" and (letter != "N" or ALL_ORDERS in flags)]
        word = f"--{self.random.choice(names)}"
        runs = [self.run("classes", path, one, *flags) for one in (word, opposite(word))]
        self.hold_same([(ran.status, ran.error) for ran in (ran, *runs)], "a filter has another fault", ran, *runs)
        is_whole = not starts or sum(read_back(one.out).asked for one in runs) == read_back(ran.out).asked
        self.hold(not starts or ALL_ORDERS not in flags or read_back(ran.out).asked == number, "permutations are not all counted", ran)
        self.hold(is_whole, "a filter and its opposite have not all orders", *runs)

    # books

    def workers(self):
        return ["--workers", self.random.randint(1, 16)] if self.random.random() < 0.5 else []

    def part(self, name, path, *words):
        """A run of a range, and the path of its book."""
        ran = self.run("run", path, *words, *self.workers())
        self.hold(ran.status == 0, "a range is not run", ran)
        return ran, self.put(name, ran.out)

    def books(self, path, number):
        """Books of a range, in one run and in two, of some workers and others: what is told of them. The range's book is given."""
        few = min(number, self.random.choice(RANGES))
        first = self.random.choice([0, 0, number - few, self.random.randint(0, number - few)])
        end, middle = first + few, self.random.randint(first, first + few)
        (ran, whole), (again, _path) = self.part("whole.book", path, first, end), self.part("again.book", path, first, end, "--progress")
        (_low, low), (_high, high) = self.part("low.book", path, first, middle), self.part("high.book", path, middle, end)
        every_ran, every = self.part("every.book", path, first, end, "--every")
        joined, alone = self.run("join", high, low, high), self.run("join", whole)
        self.hold_same([one.out for one in (ran, again, joined, alone)], "books of a range differ", ran, again, joined, alone)
        self.hold(self.run("holds", whole, path, first, end).status == 0, "a book of a range does not hold it", ran)
        self.hold(self.run("holds", whole, path, first, end + 1).status == 1, "a book of a range holds one more", ran)
        self.missing(number, (first, end), whole, low, high)
        for book in (whole, every):
            self.hold((audit := self.run("audit", book)).out == b"true\n", "a book of a run is not true", audit)
        self.classes_of_books((first, end), whole, every, low, high)
        self.reports(path, number, (first, end), whole, every)
        self.fronts(*self.random.choice([ran.words, joined.words, every_ran.words]))
        return whole

    def missing(self, number, ends, whole, low, high):
        """What the book of a range does not have: the ranks before it and behind it, at once and of its halves."""
        first, end = ends
        wanted = [(0, number)] if first == end else [(0, first)] * (first > 0) + [(end, number)] * (end < number)
        lines = b"".join(b"%d %d\n" % one for one in wanted)
        for books in ([whole], [high, low]):
            ran = self.run("missing", *books, "--lines")
            self.hold((ran.status, ran.out) == (int(bool(wanted)), lines), "other ranks are to be run than those of no range", ran)
        ran, halves = self.run("missing", whole), self.run("missing", low, high)
        self.hold_same([ran.told, halves.told], "halves of a range miss other ranks than the whole", ran, halves)
        asked = number - read_back(self.run("classes", "--book", whole).out).asked
        told = [[int(word) for word in line.split(b"-")] for line in ran.out.splitlines()]
        self.hold(sum(one[-1] - one[0] + 1 for one in told) == asked, "other orders are missing than classes have", ran)

    def flags_of_books(self):
        return [flag for flag in BOOK_FLAGS if self.random.random() < 0.5]

    def classes_of_books(self, ends, whole, every, low, high):
        """What the books of a range tell in classes: at once and of its halves, and where all is run, of which no order is missing."""
        flags = self.flags_of_books()
        ran, halves = self.run("classes", "--book", whole, *flags), self.run("classes", "--book", low, high, *flags)
        all_run = self.run("classes", "--book", every, *flags)
        self.hold(ran.status == all_run.status == 0, "books of a range have no classes", ran, all_run)
        told = [without_name(ran, whole), without_name(halves, low, high)]
        self.hold_same(told, "halves of a range have other classes than the whole", ran, halves)
        self.hold(read_back(all_run.out).asked == ends[1] - ends[0], "a book of a range tells of more or fewer orders", all_run)
        if ends[0] == 0:
            self.hold_same([told[0], without_name(all_run, every)], "the orders that are skipped are in other classes", ran, all_run)

    def reports(self, path, number, ends, whole, every):
        """What is reported of the book of a range, reduced and not."""
        report, judge, other = self.run("report", whole), self.run("judge", whole, every), self.run("report", every)
        if number > 1_000_000:
            told = "too many ranks"
        else:
            told = f"missing rank {0 if ends[0] else ends[1]}" if ends != (0, number) else None
        if told:
            line = f"isofarm: {whole}: {told}\n".encode()
            self.hold_same([report.told, judge.told, (report.status, b"", line)], f"a report does not tell {told}", report, judge)
            return
        self.hold(judge.told == (0, b"matches 0\n", b""), "the orders that are skipped tell something else", judge)
        self.hold_same([report.told, other.told], "the orders that are skipped are reported with something else", report, other)
        one = self.run("one", path, self.random.randrange(number))
        self.hold(one.out in report.out, "an order is not reported as it is told alone", one, report)
        self.fronts(*report.words)

    def fronts(self, *words):
        """Where standard output takes a few bytes, it has a front of the answer."""
        whole, short = self.run(*words), self.watch.run(*words, into_short_file=True)
        is_whole = short.told == whole.told and len(whole.out) <= 1024
        is_front = short.status == 5 and short.error == WRITE_FAULT and whole.out.startswith(short.out) and short.out != whole.out
        self.counts["runs"] += 1
        self.hold(is_whole or is_front, "an output that takes a few bytes has no front of the answer", short, whole)

    def hostile(self, book, text, facts):
        """The bytes of a damaged or untrue book."""
        if self.random.random() < 0.5:
            return self.random.choice(DAMAGES_OF_BYTES)(self.random, book)
        return compare_hostile.hostile(self.random, text, facts)[1]

    def file(self, path, text, whole, number):
        """Gives a file that may be a book to the commands that read one, alone and beside a book of a spec with so many ranks."""
        self.put(path, text)
        is_small = len(text) <= BYTES_OF_BOOKS and number <= RANKS_OF_BOOKS
        join = self.run("join", path, want=compare_files.joining(path)[1] if is_small else None)
        report = self.run("report", path)
        if join.status:
            audit, judge, beside = self.run("audit", path), self.run("judge", path, path), self.run("join", whole, path)
            runs = (join, report, audit, judge, beside, self.run("classes", "--book", path, *self.flags_of_books()), self.run("missing", path))
            self.hold_same([ran.told for ran in runs], "the commands tell different faults of a book", *runs)
            return
        joined = self.put(f"joined_{path}", join.out)
        again, report_again, beside = self.run("join", joined), self.run("report", joined), self.run("join", joined, path, joined)
        self.hold_same([join.out, again.out, beside.out], "a joined book is joined to another one", join, again, beside)
        is_same = report.told == report_again.told or report_again.error == report.error.replace(path.encode(), joined.encode(), 1)
        self.hold(is_same, "a joined book has another report", report, report_again)
        flags = self.flags_of_books()
        classes, classes_again = (self.run("classes", "--book", one, *flags) for one in (path, joined))
        self.hold_same([without_name(classes, path), without_name(classes_again, joined)], "a joined book has other classes", classes, classes_again)
        judge = self.run("judge", path, joined)
        self.hold(judge.told == (report.told if report.status else (0, b"matches 0\n", b"")), "a report is not equal to itself", judge, report)
        if ranks_run(join.out) <= MOST_AUDITED:
            audits = self.run("audit", path), self.run("audit", joined)
            self.hold_same([ran.told for ran in audits], "a joined book is true where it was not", *audits)
        for words in (["join", whole, path], ["missing", whole, path], ["missing", path, "--lines"], ["classes", "--book", path, whole], ["judge", whole, path], ["judge", path, whole, joined]):
            self.run(*words)

    # sets

    def whole_set(self, make, maker):
        """A spec and its books, as they are and damaged."""
        text = make(maker)
        path = "made.spec"
        number, starts = self.spec(path, text)
        for place in range(DAMAGED_SPECS):
            self.spec(f"damaged{place}.spec", self.random.choice(DAMAGES_OF_BYTES)(self.random, text))
        self.run(*self.random.choice([["count"], ["join"], ["report"], ["one", "made.spec"]]), *["nothing"] * self.random.randint(0, 2))
        faults = self.run(*self.random.choice(NO_COMMANDS).split())
        self.hold(faults.status == 2, "faults of a command line are none", faults)
        if number is not None:
            is_shown = self.starts_at_its_level(path, text, starts)
            self.orders(path, number, starts, is_shown)
            if number <= MOST_CLASSED:
                self.classes(path, number, is_shown)
                test(self, path, is_shown)
        if not starts:
            return
        whole = self.books(path, number)
        book = Path(whole).read_bytes()
        facts = compare_files.some_of(self.random, facts_in(json.loads(book)), RANKS_COMPARED)
        for place in range(DAMAGED_BOOKS):
            self.file(f"hostile{place}.book", self.hostile(book, text, facts), whole, number)

    def compared_set(self, make, maker):
        """The answers of this second implementation, of a spec, of its books or of hostile ones."""
        kind, look = self.random.randrange(5), lambda _name, words, want: self.run(*words, want=want)
        if kind == 0:
            compare_hostile.of_seed(self.random.randrange(10**9), Path(), look, Counter())
            return
        text = make(maker)
        if kind == 1:
            text = compare_classes.with_few_orders(text, self.random.random(), MOST_CLASSED)
        path = self.put("made.spec", text)
        for words, want in self.runs_compared(kind, text, path):
            look("", words, want)

    def runs_compared(self, kind, text, path):
        """Words, and what they tell of a spec: alone, in classes, or in books and their classes."""
        if kind == 3:
            return compare_files.of_spec(self.random, Path(), text, path, RANKS_COMPARED)
        if kind == 4:
            return compare_book_classes.runs(self.random.random(), Path(), text, compare_book_classes.run_alone, RANKS_COMPARED)
        return (compare_classes if kind == 1 else compare).runs(text, self.random.random(), path)

    def one_set(self, number):
        name = f"{self.seed}-{number}"
        self.random = Random(name)
        make = self.random.choice([*KINDS.values()])
        work = self.compared_set if number % COMPARED == 0 else self.whole_set
        try:
            work(make, Maker(name))
        except Found as found:
            self.keep(name, *found.args)
        except Ended:
            pass
        except Exception:
            self.keep(name, f"the soak itself fails: {traceback.format_exc()}", [])
        made = os.listdir()
        self.counts["files"] += len(made)
        for file in made:
            os.unlink(file)

    def keep(self, name, what, runs):
        """Leaves the files that some runs read, with the command lines and what was told."""
        self.counts["findings"] += 1
        if self.counts["findings"] > MOST_KEPT_BY_A_JOB:
            return
        folder = KEPT / name
        shutil.rmtree(folder, ignore_errors=True)
        folder.mkdir(parents=True)
        for file in os.listdir():
            if not runs or any(file in ran.words for ran in runs):
                shutil.copy(file, folder)
        commands = [f"isofarm {shlex.join(ran.words)}\n" for ran in runs]
        (folder / "command").write_text("".join(commands))
        told = [f"$ {line}status {ran.status}, standard error:\n".encode() + ran.error + b"standard output:\n" + ran.out for line, ran in zip(commands, runs)]
        (folder / "told").write_bytes(b"\n".join([what.encode(errors="replace"), *told]))
        print(f"{folder}: {what.splitlines()[0][:300]}\n  {''.join(commands)[:300]}", end="" if commands else "\n", flush=True)


def job(seed, place, jobs, deadline):
    """The sets of one job, and what they counted."""
    resource.setrlimit(resource.RLIMIT_AS, (MOST_ADDRESSES, MOST_ADDRESSES))
    soak = Soak(seed, deadline)
    with TemporaryDirectory() as folder:
        Path(folder, "files").mkdir()
        os.chdir(Path(folder, "files"))
        while monotonic() < deadline and not STOP.is_set():
            soak.one_set(place)
            place += jobs
        os.chdir("/")
    return soak.counts, soak.told, place


def stop(_signal, _frame):
    STOP.set()


def main(minutes, seed, jobs, first):
    began, counts, told, after = monotonic(), Counter(), Counter(), first
    print(f"seed {seed}", flush=True)
    # The jobs and the programs that they run leave Ctrl-C to this process.
    signal.signal(signal.SIGINT, signal.SIG_IGN)
    with ProcessPoolExecutor(jobs, multiprocessing.get_context("fork")) as pool:
        running = [pool.submit(job, seed, place, jobs, began + 60 * minutes) for place in range(first, first + jobs)]
        for one in (signal.SIGINT, signal.SIGTERM):
            signal.signal(one, stop)
        for done in as_completed(running):
            of_job = done.result()
            counts, told, after = counts + of_job[0], told + of_job[1], max(after, of_job[2])
    made = [f"{counts[what]} {what}" for what in ("files", "runs", "compared", "findings")]
    print(f"{', '.join(made)}; seed {seed}, {monotonic() - began:.0f} seconds; what was told:")
    for word, number in sorted(told.items()):
        print(f"  {number:7} {word}")
    print(f"to go on with these sets: {seed} --from {after}")
    return 1 if counts["findings"] else 0


if __name__ == "__main__":
    words = "python3 crosscheck/soak.py MINUTES [SEED] [--jobs N] [--from SET]"
    parser = ArgumentParser(description=__doc__, usage=words, formatter_class=RawDescriptionHelpFormatter)
    parser.add_argument("minutes", type=float, metavar="MINUTES")
    parser.add_argument("seed", type=int, nargs="?", default=fresh_seed(), metavar="SEED")
    parser.add_argument("--jobs", type=int, default=len(os.sched_getaffinity(0)), metavar="N")
    parser.add_argument("--from", type=int, default=0, metavar="SET", dest="first")
    asked = parser.parse_args()
    sys.exit(compare.ended(main, asked.minutes, asked.seed, asked.jobs, asked.first))
