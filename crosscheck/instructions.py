"""Counts the instructions that the built program takes for small inputs, by callgrind.

usage: python3 crosscheck/instructions.py [--compare FILE] [--jobs N] [WHAT..]

Each line of the table is a command on specs of examples/, or on books of them: what it is, and how many instructions it took, its start included. A count does
not change with the load of the machine, as seconds do (speeds.py); from one machine to another it may change by what its C library does. Those whose names begin
with one of WHAT are counted, without words all. With --compare each line has the count of a table that was kept, FILE, and by how many percent today's is
more or less. Where a command has workers there is one of them; an audit has some, and its count moves by less than one percent. It needs valgrind.
"""

import argparse
import os
import re
import subprocess
import sys
from concurrent.futures import ThreadPoolExecutor
from functools import partial
from pathlib import Path
from tempfile import TemporaryDirectory

from compare import PROGRAM, ended

EXAMPLES = Path(__file__).resolve().parent.parent / "examples"
COUNTING = ["valgrind", "--tool=callgrind", "--callgrind-out-file=/dev/null"]
ALONE = ["--workers", "1"]
# Names of files that commands read, each with the words that make it.
BOOKS = {
    "low.book": ["run", "share_beside_update.spec", "0", "50"],
    "high.book": ["run", "share_beside_update.spec", "40", "90", "--every"],
    "all.book": ["run", "share_beside_update.spec"],
    "every.book": ["run", "share_beside_update.spec", "--every"],
    "transfers.book": ["run", "transfers.spec", "0", "2000"],
}
# What is counted, and its words.
COMMANDS = {
    "start: version": ["--version"],
    "check": ["check", "deadlock.spec"],
    "count": ["count", "transfers.spec"],
    "rank": ["rank", "deadlock.spec", "a1", "b1", "a2", "b2", "a3", "b3"],
    "order": ["order", "deadlock.spec", "5"],
    "one": ["one", "deadlock.spec", "5"],
    "show": ["show", "deadlock.spec", "5"],
    "show: json": ["show", "deadlock.spec", "5", "--json"],
    "run: 20 ranks": ["run", "deadlock.spec", *ALONE],
    "run: 90 ranks": ["run", "share_beside_update.spec", *ALONE],
    "run: 90 ranks, every": ["run", "share_beside_update.spec", "--every", *ALONE],
    "run: 2000 ranks": ["run", "transfers.spec", "0", "2000", *ALONE],
    "run: 2000 ranks, every": ["run", "transfers.spec", "0", "2000", "--every", *ALONE],
    "join": ["join", "low.book", "high.book"],
    "join: 2000 ranks": ["join", "transfers.book", "transfers.book"],
    "missing": ["missing", "low.book"],
    "holds": ["holds", "all.book", "share_beside_update.spec", "0", "90"],
    "report": ["report", "all.book"],
    "audit": ["audit", "all.book"],
    "judge": ["judge", "all.book", "every.book"],
    "classes: 20 orders": ["classes", "deadlock.spec"],
    "classes: 90 orders": ["classes", "share_beside_update.spec"],
    "classes: json": ["classes", "deadlock.spec", "--json"],
    "classes: page": ["classes", "deadlock.spec", "--html"],
    "classes: results, queries": ["classes", "deadlock.spec", "--by-result", "--query", "SELECT * FROM t"],
    "classes: all orders": ["classes", "deadlock.spec", "--all-orders"],
    "classes: book": ["classes", "--book", "all.book"],
    "test": ["test", "write_skew.spec", *ALONE],
}


def told(words, folder):
    """What a command prints, and what it prints on standard error."""
    ran = subprocess.run(words, cwd=folder, stdin=subprocess.DEVNULL, capture_output=True, check=False)
    if ran.returncode not in (0, 1):
        raise SystemExit(f"{' '.join(map(str, words))}: status {ran.returncode}\n{ran.stderr.decode()}")
    return ran.stdout, ran.stderr.decode()


def counted(folder, what):
    _out, error = told([*COUNTING, PROGRAM, *COMMANDS[what]], folder)
    return int(re.search(r"Collected : (\d+)", error).group(1))


def kept(path):
    """The counts of a table."""
    rows = re.findall(r"^(.*?) *\| *([\d,]+)", Path(path).read_text(), re.MULTILINE) if path else []
    return {what: int(count.replace(",", "")) for what, count in rows}


def main(asked):
    wanted = [what for what in COMMANDS if not asked.names or what.startswith(tuple(asked.names))]
    before, width = kept(asked.compare), max(map(len, COMMANDS))
    with TemporaryDirectory() as folder, ThreadPoolExecutor(asked.jobs) as pool:
        for path in EXAMPLES.iterdir():
            Path(folder, path.name).write_bytes(path.read_bytes())
        for name, words in BOOKS.items():
            Path(folder, name).write_bytes(told([PROGRAM, *words], folder)[0])
        for what, count in zip(wanted, pool.map(partial(counted, folder), wanted)):
            beside = f" | {before[what]:13,} | {100 * (count / before[what] - 1):+.1f} %" if what in before else ""
            print(f"{what:{width}} | {count:13,}{beside}", flush=True)
    return 0


if __name__ == "__main__":
    words = argparse.ArgumentParser(usage=__doc__.split("usage: ")[1].split("\n\n")[0])
    words.add_argument("--compare")
    words.add_argument("--jobs", type=int, default=os.cpu_count())
    words.add_argument("names", nargs="*", metavar="WHAT")
    sys.exit(ended(main, words.parse_args()))
