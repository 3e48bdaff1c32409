"""Refuses the program memory, one call of malloc or realloc after another, alone and with all after it.

usage: python3 crosscheck/memory.py FIRST_SEED SEEDS

Each run has to tell what it tells with memory, or that there is none. It is done for each command over examples and their books, for
faults of the command line and of files, and for the specs of the seeds. What holds of tests of specs, which also write files, stands in
`memory_of_tests.py`. It needs gcc.
"""

import json
import subprocess
import sys
from pathlib import Path
from shlex import split
from tempfile import TemporaryDirectory

from compare import PROGRAM, PROGRESS, STATES, ended, told
from generate import KINDS, Maker
from memory_of_tests import WORDS as OF_TESTS
from memory_of_tests import Tested

TOP = Path(__file__).resolve().parent.parent
NO_MEMORY = (4, b"", b"isofarm: no memory\n")
WORDS = [[], ["--help"], ["one", "x"], ["one", "first.spec", "x"], ["one", "first.spec", "2"], ["one", "no.spec", "0"]]
WORDS += [["one", "first.spec", "0"], ["one", "deadlock.spec", "5"], ["one", "lost_update.spec", "1"], ["one", "names.spec", "0"]]

# Two halves of all ranks, their join, a book of another spec, and a spec with a fault.
BOOKS = {"low.book": "run deadlock.spec 0 9", "high.book": "run deadlock.spec 9 20 --every", "all.book": "join low.book high.book"}
BOOKS["other.book"] = "run lost_update.spec"
WRONG = b"session a\n\tstep s {}\n\tstep {}\n"
# A spec with two lines that ask for a level, and a level that is not modelled.
LEVELS = b"# level: serializable\nsession a step s { BEGIN ISOLATION LEVEL REPEATABLE READ; }\n# level: serializable\n"
OF_BOOKS = ["rank deadlock.spec a1 b1 a2", "rank deadlock.spec a2 a1", "order deadlock.spec 3", "order wrong.spec 0"]
OF_BOOKS += ["show deadlock.spec 5", "show deadlock.spec a1 b1 a2 b2 a3 b3 --json", "show deadlock.spec 20", "show wrong.spec 0"]
OF_BOOKS += ["check deadlock.spec", "check wrong.spec", "count deadlock.spec", "run deadlock.spec 0 20", "run deadlock.spec 0 21"]
OF_BOOKS += ["join low.book high.book", "join all.book wrong.spec", "report all.book", "report low.book", "run deadlock.spec 0 20 --workers 1"]
OF_BOOKS += ["run deadlock.spec 0 20 --workers 1 --progress"]
OF_BOOKS += ["run deadlock.spec --workers 1", "missing low.book", "missing high.book --lines", "missing all.book", "missing all.book clash.book"]
OF_BOOKS += ["missing all.book wrong.spec", "join - low.book -"]
OF_BOOKS += ["holds low.book deadlock.spec 0 9", "holds low.book deadlock.spec 0 10", "holds low.book wrong.spec 0 1"]
OF_BOOKS += ["audit all.book", "audit wrong.spec", "judge all.book all.book", "judge all.book low.book", "judge all.book other.book --show"]
OF_BOOKS += ["classes deadlock.spec", "classes deadlock.spec --by-result --brief", "classes deadlock.spec --progress", "classes wrong.spec"]
OF_BOOKS += ["classes deadlock.spec --deadlock=b --no-error --outcomes --final-rows", "classes deadlock.spec --deadlock=c"]
OF_BOOKS += ["classes deadlock.spec --anomaly --query 'SELECT * FROM t ORDER BY v DESC' --expect 'SELECT v FROM t WHERE id = 2' 42"]
OF_BOOKS += ["classes deadlock.spec --json --all-orders --query 'SELECT * FROM t WHERE v < 42' --expect 'SELECT v FROM t WHERE id = 2' 42"]
OF_BOOKS += ["classes deadlock.spec --json --by-result --brief", "classes deadlock.spec --json --deadlock=c"]
OF_BOOKS += ["classes lost_update.spec --html", "classes deadlock.spec --html --deadlock=b --expect 'SELECT v FROM t WHERE id = 2' 42"]
OF_BOOKS += ["classes --book all.book", "classes --book high.book low.book --ranks --outcomes", "classes --book low.book --json --ranks"]
OF_BOOKS += ["classes --book all.book clash.book", "classes --book all.book wrong.spec"]
OF_BOOKS += ["show lost_update.spec 1 --level read-committed", "classes lost_update.spec --level read-committed", "classes wrong.spec --level serializable"]
OF_BOOKS += ["classes lost_update.spec --levels", "classes write_skew.spec --levels --final-rows --progress", "classes wrong.spec --levels"]
OF_BOOKS += ["check levels.spec", "classes levels.spec", "classes levels.spec --levels", "show levels.spec 0 --level serializable"]
OF_BOOKS += ["test", "test all.book --workers 0", "test - -"]


def of_another_rank(book):
    """A book of one fact: the first rank has an outcome that it has not."""
    value = json.loads(book)
    *_run, number = value["facts"][0]
    return json.dumps(value | {"facts": [[0, 1, "ran", 0]], "outcomes": [value["outcomes"][number - 1]]}).encode()


def make_books(folder):
    """Puts into the folder what the commands over books find there."""
    Path(folder, "wrong.spec").write_bytes(WRONG)
    Path(folder, "levels.spec").write_bytes(LEVELS)
    for name in ("deadlock.spec", "lost_update.spec", "write_skew.spec"):
        Path(folder, name).write_bytes((TOP / "examples" / name).read_bytes())
    for name, words in BOOKS.items():
        _status, out, _error = told(PROGRAM, words.split(), folder, {})
        Path(folder, name).write_bytes(out)
    Path(folder, "clash.book").write_bytes(of_another_rank(Path(folder, "low.book").read_bytes()))


def told_at_last(words, folder, settings):
    """What a run tells, but for how far it is, which is left out where there is no memory for it."""
    status, out, error = told(PROGRAM, words, folder, settings)
    return status, out, STATES.sub(b"", PROGRESS.sub(b"", error))


def look_at(words, folder):
    """A function that runs words with some settings and gives what else is told than with memory, or nothing."""
    with_memory = told_at_last(words, folder, {})

    def other(settings):
        answer = told_at_last(words, folder, settings)
        return None if answer in (with_memory, NO_MEMORY) else answer

    return other


def others(look, library):
    """How many calls there are, and the runs that tell something else."""
    count = Path(library).with_name("count")
    look({"LD_PRELOAD": library, "COUNT": str(count)})
    calls, found = int(count.read_text()), []
    for all_after in ({}, {"REFUSE_ALL": "1"}):
        for call in range(1, calls + 1):
            answer = look({"LD_PRELOAD": library, "REFUSE": str(call), **all_after})
            if answer is not None:
                found.append((call, bool(all_after), answer))
    return calls, found


def main(first, seeds):
    calls = differences = 0
    with TemporaryDirectory() as folder:
        library = str(Path(folder, "refuse_memory.so"))
        source = Path(__file__).with_name("refuse_memory.c")
        subprocess.run(["gcc", "-shared", "-fPIC", "-o", library, source, "-ldl"], check=True)
        make_books(folder)
        runs = [(words, TOP / "examples") for words in WORDS] + [(split(words), folder) for words in OF_BOOKS]
        for kind, make in KINDS.items():
            for seed in range(first, first + seeds):
                name = f"{kind}{seed}.spec"
                Path(folder, name).write_bytes(make(Maker(seed)))
                runs.append((["one", name, "0"], folder))
        looks = [(words, look_at(words, place)) for words, place in runs]
        tested = Tested(Path(folder, "tested"))
        looks += [(["test", *split(words)], tested.look(split(words))) for words in OF_TESTS]
        for words, look in looks:
            number, found = others(look, library)
            calls += number
            differences += len(found)
            for call, all_after, answer in found:
                print(f"{words}: call {call}{' and all after it' if all_after else ''} refused: {answer}")
    print(f"{len(looks)} programs, {calls} calls refused, {differences} other answers")
    return 1 if differences else 0


if __name__ == "__main__":
    if len(sys.argv) != 3:
        sys.exit(__doc__)
    sys.exit(ended(main, int(sys.argv[1]), int(sys.argv[2])))
