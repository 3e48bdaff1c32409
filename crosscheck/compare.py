"""Compares what `isofarm one` and `isofarm check` tell with what this second implementation tells, on specs made from seeds.

usage: python3 crosscheck/compare.py KIND FIRST_SEED SEEDS

The program is the built one, or the one whose path stands in the variable ISOFARM. The last lines count what was expected, and what the
specs had: what statements that lock rows or refuse to wait were told, their words as names, and shapes near the limits. What specs of the
kind should show and never did stands there with a 0.
"""

import os
import re
import subprocess
import sys
from collections import Counter
from functools import lru_cache, partial
from pathlib import Path
from random import Random
from tempfile import TemporaryDirectory

from binding import MAX_SESSIONS, MAX_STEPS, ShapeKind, bind, shape_fault
from binding import words as number_of_words
from checks import checked, without_sentence
from facts import shared
from generate import ALWAYS, KINDS, LOCK_WORDS, Maker
from machine import DEADLOCK, LINES, UNAVAILABLE, outcome, outcome_text, refuses_to_wait
from refusal import Refusal
from spec_file import MAX_ITEMS, read_spec
from sql import Lock, Select

BUILT = Path(__file__).resolve().parent.parent / "crates/isofarm/out/isofarm"
PROGRAM = Path(os.environ.get("ISOFARM", BUILT)).resolve()
RANKS_A_SPEC = 4
LINES_TOLD = 5
WORDS = ["waiting", "resumed", "not sent", "error: deadlock", "error: duplicate key", "error: integer out of range"]
WORDS += ["error: transaction is aborted", "error: lock not available"]
WORDS += ["warning: no transaction block", "warning: already in a transaction block"]
# The last event of each statement that has its effect.
ENDS = {"rows", "inserted", "updated", "deleted", "began", "committed", "rolledback", "locked", "set"}
# What is counted besides. Statements that lock rows or refuse to wait, and what they are told:
TOLD = [f"FOR {locks}: {told}" for locks in ("UPDATE", "SHARE") for told in ("rows", "waiting", LINES[DEADLOCK])]
TOLD += [f"FOR {locks} NOWAIT: {told}" for locks in ("UPDATE", "SHARE") for told in ("rows", LINES[UNAVAILABLE])]
TOLD += [f"LOCK NOWAIT: {told}" for told in ("locked", LINES[UNAVAILABLE])]
NAMES = [f"{word} as a name" for word in LOCK_WORDS]
SHAPES = [f"{number} {what}" for most, what in ((MAX_SESSIONS, "sessions"), (MAX_STEPS, "steps")) for number in (most - 1, most, most + 1)]
SHAPES += [f"a line of {number} steps" for number in (MAX_ITEMS - 1, MAX_ITEMS)] + ["more than 2^62 ranks"]
SHAPES += [f"no shape: {kind.name.lower().replace('_', ' ')}" for kind in ShapeKind if kind != ShapeKind.EMPTY]
# The kinds of spec that should show it.
SHOWN = {"any": TOLD + NAMES, "hindering": TOLD, "apart": TOLD, "few": TOLD, "limits": SHAPES}


@lru_cache(maxsize=2 * RANKS_A_SPEC)
def told_at(text, rank):
    """The spec of a text, and the outcome of a rank; none where there is no such rank."""
    spec = bind(read_spec(text))
    return spec, outcome(spec, rank) if rank < spec.ranks() else None


def expected(text, rank, path):
    """The exit status, and what stands on the two outputs."""
    try:
        spec, transcripts = told_at(text, rank)
    except Refusal as refusal:
        return 3, b"", refusal.line(path)
    if transcripts is None:
        return 3, b"", f"isofarm: {path}: rank out of range\n".encode()
    return 0, f"rank {rank}\n".encode() + outcome_text(spec, transcripts), b""


def ranks_of(text, seed):
    """Some ranks of a spec and sometimes one too many; rank 0 of what is no spec."""
    try:
        number = bind(read_spec(text)).ranks()
    except Refusal:
        return [0]
    random = Random(seed)
    ranks = {random.randrange(number) for _ in range(RANKS_A_SPEC)}
    ranks |= {number - 1} if random.random() < 0.1 else set()
    return sorted(ranks | ({number} if random.random() < 0.05 else set()))


def runs(text, seed, path):
    """The words of some runs of a spec, and what each tells."""
    return [(["check", path], checked(text, path))] + [(["one", path, str(rank)], expected(text, rank, path)) for rank in ranks_of(text, seed)]


def called(statement):
    """What a statement is called that locks rows for a SELECT, or refuses to wait; nothing where it does neither."""
    nowait = " NOWAIT" if refuses_to_wait(statement) else ""
    if isinstance(statement, Select) and statement.locks:
        return f"FOR {statement.locks.upper()}{nowait}"
    return f"LOCK{nowait}" if isinstance(statement, Lock) and nowait else ""


def told_to(spec, transcript):
    """Each event of a statement, behind the statement."""
    left = []
    for event in transcript:
        word = event if isinstance(event, str) else event[0]
        if word == "sent":
            left = [*spec.steps[event[1]][1]]
        elif word not in ("notsent", "done"):
            yield left[0], LINES.get(event, word)
            left = left[word in ENDS :]


def shown_by_outcome(text, rank):
    """What statements that lock rows or refuse to wait were told."""
    try:
        spec, transcripts = told_at(text, rank)
    except Refusal:
        return set()
    return {f"{called(statement)}: {told}" for transcript in transcripts or [] for statement, told in told_to(spec, transcript)}


def shown_by_names(text):
    try:
        spec = bind(read_spec(text))
    except Refusal:
        return set()
    names = {*spec.session_names, *spec.step_names, *spec.tables}.union(*(table.columns for table in spec.tables.values()))
    return {f"{name} as a name" for name in names}


def shown_by_shape(text):
    """How a file's shape is near a limit, also where it is over that."""
    try:
        file = read_spec(text)
    except Refusal:
        return set()
    counts = [len(session.steps) for session in file.sessions]
    shown = {f"{len(counts)} sessions", f"{sum(counts)} steps"} | {f"a line of {len(line)} steps" for line in file.lines}
    fault = None if file.has_lines else shape_fault(counts)
    if fault:
        shown |= {f"no shape: {fault.name.lower().replace('_', ' ')}"}
    elif not file.has_lines and number_of_words(counts) > 2**62:
        shown |= {"more than 2^62 ranks"}
    return shown


def shown_by(kind, text, seed):
    """How often a spec and the ranks of it that are run show what is counted besides."""
    shown = Counter(dict.fromkeys(SHOWN.get(kind, []), 0))
    for those in (shown_by_names(text), shown_by_shape(text), *(shown_by_outcome(text, rank) for rank in ranks_of(text, seed))):
        shown.update(those & {*TOLD, *NAMES, *SHAPES})
    return shown


# What a run tells on its way, and what classes do.
PROGRESS = re.compile(rb"isofarm: (\d+) of (\d+) shards, (\d+) of (\d+) ranks, (\d+)\.(\d) seconds\n")
STATES = re.compile(rb"isofarm: (\d+) states, (\d+) steps, (\d+)\.(\d) seconds\n")


def told(program, words, folder, settings):
    ran = subprocess.run([program, *words], cwd=folder, capture_output=True, check=False, env={**os.environ, **settings})
    return ran.returncode, ran.stdout, ran.stderr


def kind_of(out):
    """What an outcome shows, in words to be counted."""
    if out.startswith(b"sessions "):
        return ["a spec"]
    return ["an outcome"] + [word for word in WORDS if word.encode() in out]


def fault_of(error):
    """What a fault line tells, without the place or line and the names of steps. Of a word that is quoted in place of a path it says so."""
    line = re.sub(r'"(?:[^"\\]|\\.)*"', "NAME", error.decode(errors="replace").split("\n")[0])
    front, fault = line.rsplit(": ", 1)
    return "NAME: " * (front == "isofarm: NAME") + re.split(r" at \d|(?<=rank) \d| \(line \d", fault)[0].strip()


def difference(want, got):
    """Two answers, their outputs from the first line on that differs."""
    outs = [out.split(b"\n") for _status, out, _error in (want, got)]
    first = shared(*outs)
    lines = [out[first : first + LINES_TOLD] for out in outs]
    (status, _out, error), (told_status, _told, told_error) = want, got
    expected = f"expected {status} {error}, and from line {first} on {lines[0]}"
    return f"{expected}\n  but was told {told_status} {told_error} {lines[1]}"


class Comparison:
    """Runs of a program: prints where it tells something else than is expected, and counts what is expected of it."""

    def __init__(self, program, folder, kind_of_output):
        self.program, self.folder, self.kind_of_output = program, folder, kind_of_output
        self.counts, self.runs, self.differences = Counter(), 0, 0

    def look(self, name, words, want):
        got = told(self.program, words, self.folder, {})
        got = without_sentence(got) if words[0] == "check" else got
        _status, out, error = want
        self.counts.update([fault_of(error)] if error else self.kind_of_output(out))
        self.runs += 1
        if want != got:
            self.differences += 1
            print(f"{name}, {' '.join(words)}: {difference(want, got)}", flush=True)
        return got

    def end(self, first=""):
        """Prints the counts. The exit status is given."""
        print(f"{first}{self.runs} runs, {self.differences} differences; in what was expected:")
        for word, count in self.counts.most_common():
            print(f"  {count:6} {word}")
        return 1 if self.differences else 0


def compare(program, runs_of, kind_of_output, kind, first, seeds, shown_of=lambda _text, _seed: {}):
    """Compares a program on the specs of the seeds. The runs of a text are their words with what each tells. The exit status is given.
    What a text shows besides is counted too."""
    with TemporaryDirectory() as folder:
        comparison = Comparison(program, folder, kind_of_output)
        for name, seed, text in texts_of(kind, first, seeds):
            Path(folder, "made.spec").write_bytes(text)
            for words, want in runs_of(text, seed, "made.spec"):
                comparison.look(name, words, want)
            comparison.counts.update(shown_of(text, seed))
    return comparison.end()


def texts_of(kind, first, seeds):
    """The specs that belong to each comparison of the kind, and those of the seeds, each with a name and the seed by which its runs are chosen."""
    for number, text in enumerate(ALWAYS.get(kind, [])):
        yield f"spec {number} of {len(text)} bytes", number, text
    for seed in range(first, first + seeds):
        yield f"seed {seed}", seed, KINDS[kind](Maker(seed))


def usage(text):
    sys.exit(f"{text}\nKIND is one of {', '.join(KINDS)}.")


def ended(work, *arguments):
    """The exit status of work that prints. Whoever reads may stop early."""
    try:
        status = work(*arguments)
        sys.stdout.flush()
        return status
    except BrokenPipeError:
        os.dup2(os.open(os.devnull, os.O_WRONLY), sys.stdout.fileno())
        return 1


if __name__ == "__main__":
    if len(sys.argv) != 4 or sys.argv[1] not in KINDS:
        usage(__doc__)
    sys.exit(ended(compare, PROGRAM, runs, kind_of, sys.argv[1], int(sys.argv[2]), int(sys.argv[3]), partial(shown_by, sys.argv[1])))
