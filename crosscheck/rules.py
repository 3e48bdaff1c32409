"""What holds of each run of the program, whatever it is given: its status, its two outputs, its memory and its time."""

import re

from checks import FAULTS as MOST_FAULTS
from checks import place_lines, without_sentence
from compare import PROGRESS
from streams import progress_fault
from watch import MOST_MEMORY

MOST_SECONDS = 10
N = "(?:0|[1-9][0-9]*)"
# A number with a comma before each three digits.
M = "(?:0|[1-9][0-9]{0,2}(?:,[0-9]{3})*)"
# A name in quotes, in which a quote and a backslash are marked.
NAME = r'"(?:[^"\\]|\\.)*"'
# Classes of books are another command than those of a spec.
CLASSES_OF_BOOKS = "classes --book"
OF_SPECS = {"one", "check", "count", "rank", "order", "show", "classes", "run"}
OF_BOOKS, OF_REPORTS = {"join", "missing", "holds", "report", "audit", "judge", CLASSES_OF_BOOKS}, {"report", "judge"}
COMMANDS = OF_SPECS | OF_BOOKS
# A test tells of specs on standard output, and those faults that are of none on standard error.
TEST = "test"
NAMED, UNNAMED = True, False
# A fault: its status, its text, whether a path stands before it, and the commands that tell it. There is memory, so that none lacks it.
FAULTS = [
    (3, f"(?P<by>spec) error [1-9] at (?P<place>{N})", NAMED, OF_SPECS),
    (3, f"(?P<by>sql) error [1-7] at (?P<place>{N})", NAMED, OF_SPECS),
    (3, f"(?P<by>bind) error [2-8] at (?P<place>{N})", NAMED, OF_SPECS),
    (3, f"start error [1-3] at {N}", NAMED, {"one", "show", "classes", "run"}),
    (3, f"(?:no such level|a second level|REPEATABLE READ is not modelled) \\(line {N}\\)", NAMED, {"check", "show", "classes"}),
    (3, "rank out of range", NAMED, {"one", "order", "show"}),
    (3, f"no step {NAME}", NAMED, {"rank", "show"}),
    (3, f"step {NAME} (?:twice|left out|before {NAME})", NAMED, {"rank", "show"}),
    (3, "no such line", NAMED, {"rank", "show"}),
    (3, f"no session {NAME}", NAMED, {"classes"}),
    (3, "no serial orders", NAMED, {"classes"}),
    (3, f"too many different states: more than {N}; classes --sample N looks at random orders", NAMED, {"classes"}),
    (3, f"{NAME}: (?:sql error [1-6] at {N}|not one SELECT|bind error [234] at {N}|no value)", UNNAMED, {"classes"}),
    (3, "shard error [12]", NAMED, {"run"}),
    (3, "book error [1-8]", NAMED, OF_BOOKS),
    (3, "book error 8", UNNAMED, {"run", "join"}),
    (3, "books of different specs", NAMED, {"join", "missing", CLASSES_OF_BOOKS}),
    (3, "too many ranks", NAMED, OF_REPORTS),
    (1, f"(?:missing|clash at) rank {N}", NAMED, OF_REPORTS),
    (1, f"clash at rank {N}", NAMED, {"missing", CLASSES_OF_BOOKS}),
    (5, "read fault", NAMED, COMMANDS),
    (3, "no specs", NAMED, {TEST}),
    (3, "too many specs", UNNAMED, {TEST}),
    (5, "write fault", UNNAMED, COMMANDS | {TEST}),
]
LEVELS = rb"(?:locking: strict two-phase locking; isolation levels? \(lines? %(n)s(?:, %(n)s)*\) (?:has|have) no effect\n)?"
FAULTS = [(status, re.compile(text), is_named, commands) for status, text, is_named, commands in FAULTS]
AT_LEVEL = rb"(?:isolation level: (?:READ COMMITTED|SERIALIZABLE)(?:; (?:READ COMMITTED|SERIALIZABLE) \(lines? %(n)s(?:, %(n)s)*\))?\n)?"
UNSEEN = rb"(?:Shares have 95%% intervals by Wilson\. About <?[\d.]+%% of such orders are in classes not seen \(Good and Turing\)\.\n)?"
CLASSES_HEAD = rb"[^\n]+: (?:%(m)s of )?%(m)s orders? in %(m)s (?:class(?:es)?|results?)(?: \([^\n]*\))?\n" + LEVELS + AT_LEVEL + UNSEEN
# An object of classes, and one with expectations; what stands before it and behind it on a page.
OBJECT, EXPECTING = rb'\{"format":2,[^\n]*\}', rb'\{"format":2,[^\n]*"expectations":\[\{[^\n]*\}'
PAGE_FRONT, PAGE_BACK = rb'<!doctype html>\n.+<script type="application/json" id="classes">', rb"</script><script.+</html>\n"
MISSING = rb"(?:; 1 order is missing, rank %(n)s|; %(m)s orders are missing, the first of rank %(n)s)?\n"
BOOKS_HEAD = rb"[^\n]+: (?:%(m)s of )?%(m)s orders? in %(m)s class(?:es)?" + MISSING + LEVELS + rb"Books have no final rows: S and R are not known\.\n"
BOOK = rb'\{"facts":\[.*\],"format":2,"outcomes":\[.*\],"spec":".*"\}\n'
DIFFERING = (b"orders", b"letters", b"results left out", b"gone", b"new", b"other numbers")
DIFFERS = rb"differs: results gone %(n)s, new %(n)s, with other numbers %(n)s" + b"".join(rb"(?:\n  " + part + rb"(?:\n    [^\n]+)+)?" for part in DIFFERING)
NO_RESULT = rb"(?:only the head of the record differs|differs, and what is accepted is no record of this version)"
REFUSED = rb"(?:(?:spec error [1-9]|sql error [1-7]|bind error [2-8]|start error [1-3]) at %(n)s|too many different states: more than %(n)s; classes --sample N looks at random orders|(?:no such level|a second level|REPEATABLE READ is not modelled) \(line %(n)s\))"
IDLE = [b"isolation level", b"SET", b"NOT NULL", b"teardown", b"marker"]
# What stands on standard output where no fault is told.
ANSWERS = {
    ("one", 0): rb"rank %(n)s\nsession .+\n",
    ("check", 0): rb"sessions %(n)s\nsteps %(n)s\nranks %(n)s\n" + b"".join(b"(?:no effect: " + kind + b", lines(?: %(n)s)+\n)?" for kind in IDLE),
    ("count", 0): rb"%(n)s\n",
    ("rank", 0): rb"%(n)s\n",
    ("order", 0): rb"[^ \n][^\n]*\n",
    ("show", 0): rb"\{\"format\":1,[^\n]*\}\n|[^ \n].*\n",
    ("classes", 0): OBJECT + rb"\n|" + PAGE_FRONT + OBJECT + PAGE_BACK + rb"|" + CLASSES_HEAD + rb"\n.+\n",
    ("classes", 1): EXPECTING + rb"\n|" + PAGE_FRONT + EXPECTING + PAGE_BACK + rb"|" + CLASSES_HEAD + rb"\nexpect .+\n",
    (CLASSES_OF_BOOKS, 0): rb'\{"format":2,[^\n]*"missing":[^\n]*\}\n|' + BOOKS_HEAD + rb"\n.+\n",
    ("run", 0): BOOK,
    ("join", 0): BOOK,
    ("missing", 0): rb"",
    ("missing", 1): rb"(?:%(n)s(?:-%(n)s)?\n)+|(?:%(n)s %(n)s\n)+",
    ("holds", 0): rb"true\n",
    ("holds", 1): rb"another spec\n|missing rank %(n)s\n",
    ("report", 0): rb"rank 0\nsession .+\n",
    ("audit", 0): rb"true\n",
    ("audit", 1): rb"false at rank %(n)s\n",
    # Tests here are of one spec.
    (TEST, 0): rb"[^\n]+: (?:as )?accepted\n",
    (TEST, 1): rb"[^\n]+: (?:no accepted text|" + NO_RESULT + rb"|" + DIFFERS + rb")\n",
    (TEST, 3): rb"[^\n]+: " + REFUSED + rb"\n",
    ("judge", 0): rb"matches %(n)s\n",
    ("judge", 1): rb"(?:%(n)s differs at rank %(n)s session [0-7]\n)+(?:nearest is %(n)s\naccepted: .+\nhere: .+\n)?",
}
ANSWERS = {one: re.compile(pattern.replace(b"%(n)s", N.encode()).replace(b"%(m)s", M.encode()), re.DOTALL) for one, pattern in ANSWERS.items()}


def called(words):
    """The command that words name."""
    return CLASSES_OF_BOOKS if words[0] == "classes" and "--book" in words else words[0]


def fault_told(words, status, line):
    """The fault that a line tells, as a match and the path that it names; none where no such fault has this status and these words."""
    for fault_status, text, is_named, commands in FAULTS:
        for path in {*words[1:]} if is_named else {None}:
            begins = f"isofarm: {path}: " if is_named else "isofarm: "
            told = text.fullmatch(line.removeprefix(begins).removesuffix("\n")) if line.startswith(begins) and line.endswith("\n") else None
            if told and status == fault_status and called(words) in commands:
                return told, path
    return None


def wrong_in_fault(words, status, error, bytes_of):
    """What is wrong with standard error where a fault is told."""
    line = error.split(b"\n")[0] + b"\n"
    found = fault_told(words, status, line.decode(errors="replace"))
    if not found:
        return "the first line of standard error is no fault line of this command and status"
    told, path = found
    places = b""
    if words[0] == "check" and "place" in told.groupdict():
        text, (_status, _out, error) = bytes_of(path), without_sentence((status, b"", error))
        places = place_lines(text, int(told["place"]), path)
        rest = error.removeprefix(line).removeprefix(places)
        if rest and error.startswith(line + places):
            return wrong_in_others(text, path, rest)
    first = places.split(b"\n")[0].decode()
    return None if error == line + places else f"behind the fault line stands something else than {f'the place {first}' if first else 'nothing'}"


def wrong_in_others(text, path, told):
    """What is wrong with what stands behind the first fault of a check: other faults, without their sentences."""
    before, count = -1, 0
    while told:
        found = re.match(rb"also " + re.escape(path.encode()) + rb":([0-9]+):([0-9]+)\n", told)
        if not found:
            return "behind the place of the first fault stands no other one"
        lines = text.split(b"\n")
        line, column = int(found[1]), int(found[2])
        if not 1 <= line <= len(lines):
            return f"the file has no line {line}"
        place = sum(len(one) + 1 for one in lines[: line - 1]) + len(lines[line - 1].decode()[: column - 1].encode())
        want = b"also " + place_lines(text, place, path)
        if not told.startswith(want):
            return f"another fault is not told as one of line {line}, column {column}"
        if place <= before:
            return "other faults are not in the order of their places"
        before, count, told = place, count + 1, told.removeprefix(want)
    return None if count < MOST_FAULTS else f"{count} other faults are told"


def progress_of(words, error, seconds):
    """Standard error without the lines of progress, and what is wrong with these."""
    rest = PROGRESS.sub(b"", error)
    if rest == error and rest:
        return rest, None
    ends = [int(word) for word in words[2:] if word.isdigit()][:2]
    lines = error.removesuffix(rest)
    return rest, progress_fault(lines, *ends, seconds)


def wrong_in_answer(words, ran, bytes_of):
    """What is wrong with the status and the outputs of a run."""
    status, out, error = ran.told
    if status == 2:
        return None if not out and error.startswith(b"error: ") and error.endswith(b"\n") else "status 2, but no such lines"
    if status not in (0, 1, 3, 5):
        return f"status {status} is none that this run may have"
    if "--progress" in words:
        error, wrong = progress_of(words, error, ran.seconds)
        if wrong:
            return f"progress: {wrong}"
    if error:
        if status == 0:
            return "something stands on standard error behind status 0"
        if out and error != b"isofarm: write fault\n":
            return "something stands on standard output beside a fault"
        return wrong_in_fault(words, status, error, bytes_of)
    pattern = ANSWERS.get((called(words), status))
    if not pattern:
        return f"status {status} without a fault line"
    return None if pattern.fullmatch(out) else "standard output has another form"


def wrong_in(words, ran, bytes_of):
    """What is wrong with a run, or nothing. `bytes_of` gives the bytes of a file."""
    if ran.is_stopped:
        return "it did not end"
    if ran.told[0] < 0:
        return f"signal {-ran.told[0]}"
    if ran.memory > MOST_MEMORY:
        return f"it took {ran.memory} bytes of memory"
    if ran.processor_seconds > MOST_SECONDS:
        return f"it took {ran.processor_seconds:.1f} processor seconds"
    return wrong_in_answer(words, ran, bytes_of)
