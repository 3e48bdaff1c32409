"""Reads back what `isofarm classes` prints, text, JSON or a page, and says what is wrong with its form, whatever is told."""

import json
import re
from decimal import ROUND_HALF_UP, Decimal

from class_values import BY_ANSWERS, BY_OUTCOMES, BY_SHOWS, FORMAT, LETTERS, objects_in
from classes import BENEATH, MEANINGS, OF_ALL, OF_RESULTS, OF_SENT
from machine import ABORTED, DEADLOCK, FAULTS, LINES, OUT_OF_RANGE
from moments import WAITS
from shown import HIDDEN, LEFT_IN, json_text

FRONT, DOCTYPE = b'{"format":', b"<!doctype html>"
HEAD = re.compile(r"(.*): (?:([\d,]+) of )?([\d,]+) (orders?) in ([\d,]+) (class|classes|result|results)(?: \((.*)\)|; (.*))?")
# Samples have a column of intervals.
TOTAL = re.compile(r"  ([WDENSR])  +([\d,]+|-)  +(<?[\d.]+%|-)(?:  +(?:[\d.]+-[\d.]+%|-))?  +([\d,]+|-)  .+")
ROW = re.compile(r" {0,9}(\d+)  +([\d,]+)  +(<?[\d.]+%)(?:  +[\d.]+-[\d.]+%)?  ([WDENSR.]{4,6})  +(\d+)  (.+)")
COUNTS = r"([\d,]+) orders? in ([\d,]+) class(?:es)?"
BOTH_HEAD = re.compile(rf"(.*): {COUNTS} at SERIALIZABLE, {COUNTS} at READ COMMITTED")
NUMBERS = r"  +([\d,]+|-)  +(<?[\d.]+%|-)  +([\d,]+|-)"
BOTH_TOTAL = re.compile(rf"  ([WDESR]){NUMBERS}{NUMBERS}  (.+)")
ONLY = re.compile(r"only at READ COMMITTED: ([\d,]+) of ([\d,]+) results?")
HOLDS = re.compile(r"expect .*: (?:holds in|no counterexample in) ([\d,]+) (?:of [\d,]+ )?orders?")
FAILED = re.compile(r"  FAILED in ([\d,]+) of [\d,]+ orders?")
LEVELS = re.compile(r"locking: strict two-phase locking; isolation levels? \(lines? ([\d, ]+)\) (has|have) no effect")
LEVEL = r"READ COMMITTED|SERIALIZABLE"
ASKED_LEVEL = re.compile(rf"isolation level: ({LEVEL})(?:; (?:{LEVEL}) \(lines? ([\d, ]+)\))?")
MISSING = re.compile(r"(1) order is missing, rank (\d+)|([2-9]|[\d,]{2,}) orders are missing, the first of rank (\d+)")
MARKUP = {*"<>&\u2028\u2029"}
STRING = re.compile(r'"(?:[^"\\]|\\.)*"')
MEMBERS = ["format", "name", "orders", "asked", "sessions", "steps", "level_lines", "by", "totals", "expectations", "queries"]
OF_CLASS = ["first_rank", "orders", "letters", "order", "transcripts"]
OF_STEP, OF_EXPECTATION, OF_TABLE = ["name", "session", "sql"], ["select", "values", "holds_in", "first"], ["table", "rows"]
SENT, NOT_SENT = "step ", "not sent "
ANSWERING = ("row ", "rows ", "inserted ", "updated ", "deleted ", "error: ")
OF_BOOKS = "WDEN"
ERRORS = {LINES[fault] for fault in FAULTS if fault not in (DEADLOCK, ABORTED)}


def number(text):
    return int(text.replace(",", ""))


# ---- JSON


def step_named(line):
    """The name of the step that a line tells as sent or as not sent; none where it tells something else."""
    front = next((front for front in (SENT, NOT_SENT) if line.startswith(front)), None)
    return front and line.removeprefix(front)


class ClassObject:
    """A class as the JSON has it."""

    def __init__(self, value):
        self.value = value
        self.first_rank, self.orders, self.shown, self.transcripts = (value[name] for name in ("first_rank", "orders", "letters", "transcripts"))
        self.letters = self.shown.replace(".", "")

    def ranges(self):
        """The ranges of its ranks; none where they are not told."""
        return [(first, last) for first, last in self.value.get("ranks", [])]

    def sees(self, place, values):
        """Whether the query at this place sees one row of these values."""
        return self.value["query_rows"][place] == [f"row {'|'.join(values)}", "rows 1"]

    def letters_told(self):
        """Letters, each with whether its first order has it by its transcripts; by results others of its orders may have W, N and S."""
        lines = {line for session in self.transcripts for line in session}
        yield "D", LINES[DEADLOCK] in lines
        yield "E", not lines.isdisjoint(ERRORS)
        if "open" in self.value or "final_rows" not in self.value:
            yield "W", "waiting" in lines
            yield "N", any(line.startswith(NOT_SENT) for line in lines)
        if "open" in self.value:
            yield "S", any(standing == WAITS for _session, standing in self.value["open"])

    def result(self):
        """The result of its first order."""
        return json.dumps([[[line for line in session if line.startswith(ANSWERING)] for session in self.transcripts], self.value["final_rows"]])

    def alike(self):
        """What its orders have alike, and those of no other class."""
        is_whole = "open" in self.value or "final_rows" not in self.value
        return json.dumps([self.transcripts, self.value.get("final_rows"), self.value.get("open")]) if is_whole else self.result()


class ReadObject:
    """The JSON of classes as it is read back."""

    def __init__(self, out):
        self.text, self.value = out, json.loads(out)
        self.orders, self.asked, self.by = self.value["orders"], self.value["asked"], self.value["by"]
        self.by_result, self.of_books, self.is_sample = self.by == BY_ANSWERS, self.by == BY_OUTCOMES, "sample" in self.value
        self.steps, self.totals, self.queries = (self.value[name] for name in ("steps", "totals", "queries"))
        self.expectations = self.value["expectations"]
        self.has_classes = "classes" in self.value
        self.rows = [*map(ClassObject, self.value.get("classes", []))]
        self.has_ranks = any("ranks" in row.value for row in self.rows)

    def letters(self):
        """The letters that have a place: of permutations N too."""
        if self.by_result or self.of_books:
            return OF_RESULTS if self.by_result else OF_BOOKS
        return OF_SENT if self.totals["N"] is None else OF_ALL

    def members(self):
        """Its members before the classes."""
        more = {"asked": ["sample"] * self.is_sample + ["missing"] * self.of_books, "steps": ["levels"] * ("levels" in self.value)}
        return [name for one in MEMBERS for name in [one, *more.get(one, [])]]

    # what is wrong with it

    def wrong_text(self):
        if not self.text.endswith("\n") or "\n" in self.text[:-1]:
            yield "is not one line"
        if MARKUP & {*self.text}:
            yield "has a character that may end a script"
        if re.search(r"\s", STRING.sub("", self.text[:-1])):
            yield "has a space outside of its strings"
        if json_text(self.value) + "\n" != self.text:
            yield "is spelled otherwise than what is read back"

    def wrong_members(self):
        """Members stand in their order, and all classes have the same ones."""
        of_class = OF_CLASS + ["final_rows"] * (not self.of_books) + ["open"] * (self.by == BY_SHOWS) + ["query_rows"]
        of_class += ["ranks"] * (self.has_ranks and self.of_books)
        tables = [table for row in self.rows for table in row.value.get("final_rows", [])]
        several = [([self.value], self.members() + ["classes"] * self.has_classes), ([self.totals], [*LETTERS])]
        several += [(self.steps, OF_STEP), (self.expectations, OF_EXPECTATION), ([row.value for row in self.rows], of_class), (tables, OF_TABLE)]
        if any([*one] != members for those, members in several for one in those):
            yield "members are missing, strange or in another order"
        if self.value["format"] != FORMAT or self.by not in (BY_SHOWS, BY_ANSWERS, BY_OUTCOMES):
            yield "another format, or another grouping"
        if self.value["level_lines"] != sorted({*self.value["level_lines"]}):
            yield "lines of levels do not rise"
        if "levels" in self.value and self.value["level_lines"]:
            yield "levels are asked for, and have no effect"

    def wrong_totals(self):
        for letter, total in self.totals.items():
            if letter not in self.letters() and total is not None:
                yield f"{letter} is told by {self.by}"
            if total and ((total[0] == 0) != (total[1] == 0) or not total[1] <= total[0] <= self.asked):
                yield f"{letter} has fewer orders than classes, or more than are asked for"
            if letter in self.letters() and self.has_classes:
                yield from self.wrong_total(letter, total)

    def wrong_total(self, letter, total):
        """Of results, some orders have S or R and others not."""
        having = [row.orders for row in self.rows if letter in row.letters]
        if not total:
            if letter != "R" or having:
                yield f"{letter} is not told, or has a class"
        elif total[1] != len(having) or (total[0] != sum(having) and not (self.by_result and letter in "SR")):
            yield f"{letter} has not so many orders or classes as its rows"
        elif not len(having) <= total[0] <= sum(having):
            yield f"{letter} has more orders than its rows, or not one in each"

    def wrong_letters(self, row):
        """The characters stand for the letters, and for those that its order tells."""
        if len(row.shown) != len(self.letters()) or any(one not in (letter, ".") for one, letter in zip(row.shown, self.letters())):
            yield f"{row.shown} has not the letters in their places"
        # Results, and classes of orders that clients can send, have no place for some letters.
        if any((letter in row.shown) != is_so for letter, is_so in row.letters_told() if letter in self.letters()):
            yield f"{row.shown} is not what the order of rank {row.first_rank} tells"

    def wrong_order(self, row):
        """Each session is told its steps of the order. Without permutation lines an order has each step once, or ends where the others cannot be sent."""
        order = row.value["order"]
        own = [[step for step in order if self.steps[step]["session"] == session] for session in range(len(self.value["sessions"]))]
        named = [[*filter(None, map(step_named, lines))] for lines in row.transcripts]
        # What books tell need not be true.
        if not self.of_books and named != [[self.steps[step]["name"] for step in steps] for steps in own]:
            yield f"the order of rank {row.first_rank} has other steps than its sessions are told"
        if self.totals["R"] and any(steps != [step for step, one in enumerate(self.steps) if one["session"] == at][: len(steps)] for at, steps in enumerate(own)):
            yield f"the order of rank {row.first_rank} has not the first steps of each session"
        waiting = {session for session, standing in row.value.get("open", []) if standing == WAITS}
        short = {self.steps[step]["session"] for step in {*range(len(self.steps))} - {*order}}
        if self.totals["R"] and not self.by_result and short - waiting:
            yield f"the order of rank {row.first_rank} ends where a step can be sent"

    def wrong_ends(self, row):
        """Final rows of the same tables, sessions that stand somehow, and what each query sees: rows and their number, or an error."""
        sessions = [session for session, _standing in row.value.get("open", [])]
        if sessions != sorted({*sessions}) or any(standing not in LEFT_IN for _session, standing in row.value.get("open", [])):
            yield f"sessions have not ended otherwise than there is a way, or twice, at rank {row.first_rank}"
        names = [[table["table"] for table in one.value.get("final_rows", [])] for one in (row, self.rows[0])]
        if names[0] != names[1]:
            yield f"other tables have final rows at rank {row.first_rank}"
        for lines in row.value["query_rows"]:
            is_rows = lines[-1:] == [f"rows {len(lines) - 1}"] and all(line.startswith("row ") for line in lines[:-1])
            if not is_rows and lines != [LINES[OUT_OF_RANGE]]:
                yield f"a query sees {lines}"
        if len(row.value["query_rows"]) != len(self.queries):
            yield f"more or fewer queries at rank {row.first_rank}"

    def wrong_ranges(self):
        """Ranges rise and do not touch, have as many ranks as the class has orders, and no rank is in two classes."""
        ends = sorted(one for row in self.rows for one in row.ranges())
        if any(first <= last for (_first, last), (first, _last) in zip(ends, ends[1:])) or any(last >= self.orders for _first, last in ends):
            yield "ranges of two classes have a rank in common, or one that there is not"
        for row in self.rows:
            ranges = row.ranges()
            rises = all(last + 1 < first for (_first, last), (first, _last) in zip(ranges, ranges[1:]))
            if ranges and (ranges[0][0] != row.first_rank or not rises or sum(last - first + 1 for first, last in ranges) != row.orders):
                yield f"{ranges} are no ranges of the class of rank {row.first_rank}"

    def wrong_rows(self):
        ranks = [row.first_rank for row in self.rows]
        # The permutation of rank 0 may drop a step where another one can be sent: then no order that clients can send begins it.
        has_rank_0 = self.asked == self.orders and not self.is_sample and (self.of_books or self.totals["R"] is None or self.totals["N"] is not None)
        if ranks != sorted({*ranks}) or (has_rank_0 and ranks[:1] != [0]):
            yield "first ranks do not rise, or not from 0"
        if sum(row.orders for row in self.rows) != self.asked:
            yield "all orders asked for are not so many as the classes have"
        if self.is_sample and self.value["sample"]["seen_once"] != sum(row.orders == 1 for row in self.rows):
            yield "not so many classes have one order as are told to"
        yield from self.wrong_ranges()
        for row in self.rows:
            yield from self.wrong_letters(row)
            yield from self.wrong_order(row)
            yield from self.wrong_ends(row)
        if len({row.alike() for row in self.rows}) < len(self.rows):
            yield "two classes are the same"

    def held_by_rows(self, one):
        """In how many orders an expectation holds by what a query of the same SELECT sees, and the first one in which it does not."""
        place = self.queries.index(one["select"])
        missing = [row for row in self.rows if not row.sees(place, one["values"])]
        return self.asked - sum(row.orders for row in missing), missing[0].first_rank if missing else None

    def wrong_expectations(self):
        for one in self.expectations:
            if (one["first"] is None) != (one["holds_in"] == self.asked) or not 0 <= one["holds_in"] <= self.asked:
                yield "an expectation has a first order where it has none, or holds in other orders"
            if self.has_classes and one["first"] is not None and one["first"] not in [row.first_rank for row in self.rows]:
                yield "the first order that is not as expected is no first one of a class"
            if self.has_classes and one["select"] in self.queries and self.held_by_rows(one) != (one["holds_in"], one["first"]):
                yield f"{one} is told otherwise than a query sees it"

    def wrong_missing(self):
        """Of books: all orders are known or missing, and no class has the first that is missing. Nothing is queried or expected."""
        missing = self.value["missing"] or {"orders": 0, "first": None}
        if [*missing] != ["orders", "first"] or self.asked + missing["orders"] != self.orders or (missing["orders"] == 0) != (missing["first"] is None):
            yield "orders that are known and those that are missing are not all orders"
        if any(first <= missing["first"] <= last for row in self.rows for first, last in row.ranges() if missing["first"] is not None):
            yield "the first rank that is missing has a class"
        if self.queries or self.expectations or any(row.value["query_rows"] for row in self.rows):
            yield "books are queried, or something is expected of them"

    def wrong(self, status):
        if status != any(one["first"] is not None for one in self.expectations):
            yield "another status"
        yield from self.wrong_text()
        yield from self.wrong_members()
        yield from self.wrong_totals()
        yield from self.wrong_expectations()
        yield from self.wrong_missing() if self.of_books else ()
        yield from self.wrong_rows() if self.has_classes else ()

    # what it tells

    def kinds(self):
        """In words to be counted."""
        yield {BY_ANSWERS: "JSON by results", BY_OUTCOMES: "JSON of books"}.get(self.by, "JSON")
        found = {
            "all permutations": not self.of_books and self.totals["N"] is not None,
            "a sample": self.is_sample,
            "R is not known": not self.of_books and self.totals["R"] is None,
            "a character by its number": "\\u00" in self.text,
            "a character behind a backslash": bool(re.search(r"\\[^u]", self.text)),
            "brief": not self.has_classes,
            "lines of levels": bool(self.value["level_lines"]),
            "a level that is asked for": "levels" in self.value,
            "other levels beside it": bool(self.value.get("levels", {}).get("other_lines")),
            "no order": self.asked == 0,
            "some orders": 0 < self.asked < self.orders,
            "holds in no order": any(one["holds_in"] == 0 < self.asked for one in self.expectations),
            "holds in some orders": any(0 < one["holds_in"] < self.asked for one in self.expectations),
            "holds in all orders": any(one["holds_in"] == self.asked > 0 for one in self.expectations),
            "ranks": self.has_ranks,
            "a session that has not ended": any(row.value.get("open") for row in self.rows),
            "an order that is shorter than all steps": any(self.totals["R"] and len(row.value["order"]) < len(self.steps) for row in self.rows),
            "a query": bool(self.queries),
            "a query that fails": any([LINES[OUT_OF_RANGE]] in row.value["query_rows"] for row in self.rows),
        }
        yield from (f"JSON: {word}" for word, is_so in found.items() if is_so)
        yield from (f"JSON: {letter}" for letter, total in self.totals.items() if total and total[0])


# ---- the text, alone and beside the JSON of the same classes


class ReadText:
    """A text as it is read back."""

    def __init__(self, out):
        self.text, self.lines = out, out.removesuffix("\n").split("\n")
        self.head = HEAD.fullmatch(self.lines[0])
        if not self.head:
            raise ValueError(f"no head: {self.lines[0]}")
        self.asked, self.orders, self.classes = number(self.head[2] or self.head[3]), number(self.head[3]), number(self.head[5])
        self.totals = {one[1]: one for line in self.lines if (one := TOTAL.fullmatch(line))}
        self.rows = [one for line in self.lines if (one := ROW.fullmatch(line))]
        self.expectations = [number(one[1]) for line in self.lines if (one := HOLDS.fullmatch(line) or FAILED.fullmatch(line))]
        self.is_failed = any(FAILED.fullmatch(line) for line in self.lines)
        # An order's outcome has texts as they are.
        self.has_outcomes = any(line.startswith(f"{BENEATH}session ") for line in self.lines)

    def wrong(self, status):
        """What is wrong with its form."""
        if status != self.is_failed:
            yield "another status"
        if (self.head[4] == "order") != (self.orders == 1) or (self.head[6] in ("class", "result")) != (self.classes == 1):
            yield "the head has a word for one where there are several, or for several where there is one"
        if not self.has_outcomes and any(line.endswith(" ") or {*map(ord, line)} & HIDDEN for line in self.lines):
            yield "a line ends with a blank, or shows what is not seen"
        if not self.has_outcomes and (not self.text.endswith("\n") or "\n\n\n" in self.text or self.text.endswith("\n\n")):
            yield "an empty line stands where none belongs"
        if self.rows and [int(row[1]) for row in self.rows] != [*range(1, self.classes + 1)]:
            yield "classes are not numbered"
        # A name in quotes may have blanks and marks of its own.
        steps = [step for row in self.rows if '"' not in row[6] for step in row[6].split(" ")]
        marks = {mark for step in steps for mark in step[len(step.rstrip("-:!")) :]}
        if any(f"{mark} {word}" not in self.lines[-1] for mark, word in MEANINGS.items() if mark in marks):
            yield "a mark is not explained"
        if sum(bool(LEVELS.fullmatch(line) or ASKED_LEVEL.fullmatch(line)) for line in self.lines) > 1:
            yield "levels are told twice"

    def level_lines(self):
        found = LEVELS.fullmatch(self.lines[1])
        return [int(one) for one in found[1].split(", ")] if found else []

    def levels(self):
        """The level that is asked for, and the lines with another one, as JSON has them; nothing where none is."""
        found = ASKED_LEVEL.fullmatch(self.lines[1])
        return found and {"default": found[1].lower().replace(" ", "-"), "other_lines": [*map(int, found[2].split(", "))] if found[2] else []}

    def missing(self):
        """How many orders are missing, and the first of them; nothing where none is."""
        found = MISSING.fullmatch(self.head[8] or "")
        return found and {"orders": number(found[1] or found[3]), "first": int(found[2] or found[4])}

    def kinds(self):
        """In words to be counted."""
        yield "a text by results" if self.head[6].startswith("result") else "a text"
        found = {
            "all permutations": "all permutations" in (self.head[7] or ""),
            "a sample": "sample of" in (self.head[7] or ""),
            "R is not known": "R" in self.totals and self.totals["R"][2] == "-",
            "levels": bool(self.level_lines()),
            "a level that is asked for": bool(self.levels()),
            "missing orders": bool(self.head[8]),
            "brief": not self.rows and self.classes > 0,
            "no order": self.asked == 0,
            "filters": "--" in (self.head[7] or ""),
            "a share that is not told": "<0.1%" in self.text,
            "a name that is cut": "~" in self.text,
            "a character by its number": "\\u{" in self.text,
            "100 classes and more": self.classes > 99,
            "a thousand and more": self.orders > 999,
            "an expectation that holds": any(HOLDS.fullmatch(line) for line in self.lines),
            "an expectation that fails": self.is_failed,
            "outcomes": self.has_outcomes,
        }
        yield from (f"text: {word}" for word, is_so in found.items() if is_so)


def share_of(orders, of):
    """A share by another arithmetic than that of `classes.py`."""
    part = (Decimal(100 * orders) / of).quantize(Decimal("0.1"), ROUND_HALF_UP) if of else Decimal("0.0")
    return "<0.1%" if orders and not part else f"{part}%"


def wrong_beside(text, read, is_brief):
    """What a text tells otherwise than the JSON of the same words."""
    value = read.value
    if (text.asked, text.orders, text.classes) != (value["asked"], value["orders"], len(value["classes"])):
        yield "the head has other numbers than the JSON"
    if (text.level_lines(), text.levels(), text.missing()) != (value["level_lines"], value.get("levels"), value.get("missing")):
        yield "the head has other levels, other lines of levels, or other missing orders"
    if [letter for letter, one in text.totals.items() if one[2] != "-"] != [letter for letter, total in read.totals.items() if total is not None]:
        yield "the totals have other letters than the JSON"
    for letter, total in read.totals.items():
        line = text.totals.get(letter)
        if total is not None and line and (number(line[2]), line[3], number(line[4])) != (total[0], share_of(total[0], read.asked), total[1]):
            yield f"the total of {letter} is another one than that of the JSON"
    told = [one["holds_in"] if one["first"] is None else read.asked - one["holds_in"] for one in read.expectations]
    if text.expectations != told:
        yield "expectations are told otherwise than in the JSON"
    rows = [(row.orders, share_of(row.orders, read.asked), row.shown, row.first_rank) for row in read.rows]
    if not is_brief and [(number(row[2]), row[3], row[4], int(row[5])) for row in text.rows] != rows:
        yield "the rows are others than those of the JSON"


# ---- both levels


class ReadLevels:
    """The text of both levels as it is read back."""

    def __init__(self, out):
        self.lines = out.removesuffix("\n").split("\n")
        self.head = BOTH_HEAD.fullmatch(self.lines[0])
        self.totals = [one for line in self.lines if (one := BOTH_TOTAL.fullmatch(line))]
        self.only = next(one for line in self.lines if (one := ONLY.fullmatch(line)))
        self.rows = [one for line in self.lines if (one := ROW.fullmatch(line))]
        self.number = number(self.only[1])

    def counts(self):
        """Of each level how many orders and classes there are."""
        return [(number(self.head[2]), number(self.head[3])), (number(self.head[4]), number(self.head[5]))]

    def wrong(self, status):
        """What is wrong with its form."""
        if status:
            yield "another status"
        if "".join(one[1] for one in self.totals) != OF_SENT:
            yield "other letters have totals, or they stand in another order"
        if self.rows and [int(row[1]) for row in self.rows] != [*range(1, self.number + 1)]:
            yield "results are not numbered, or others than so many"
        names = self.lines[self.lines.index("") + 1]
        if not names.startswith(f"{'':6}SERIALIZABLE ") or {one.end(4) for one in self.totals} != {names.find("READ COMMITTED") - 2}:
            yield "the name of a level stands not where its columns begin"

    def kinds(self):
        """In words to be counted."""
        yield "a text of both levels"
        (one, other), letters = self.counts(), {row[1]: row for row in self.totals}
        found = {
            "other orders at each level": one[0] != other[0],
            "no result that READ COMMITTED alone has": self.number == 0,
            "an anomaly at READ COMMITTED alone": letters["R"][2] == "0" != letters["R"][5],
            "an anomaly at both": "0" not in (letters["R"][2], letters["R"][5]) and letters["R"][2] != "-",
            "R is not known": letters["R"][2] == "-",
            "another level in the file": ASKED_LEVEL.fullmatch(self.lines[1]) is not None,
            "brief": not self.rows and self.number > 0,
        }
        yield from (f"both levels: {word}" for word, is_so in found.items() if is_so)


def wrong_of_both(text, sides, results):
    """What a text of both levels tells otherwise than the JSON of each level, by classes and by results."""
    read = ReadLevels(text)
    if read.counts() != [(side.orders, len(side.rows)) for side in sides]:
        yield "the head has other numbers than the JSON of each level"
    for one in read.totals:
        for side, cells in zip(sides, (one.groups()[1:4], one.groups()[4:7]), strict=True):
            total = side.totals[one[1]]
            if cells != (("-", "-", "-") if total is None else (f"{total[0]:,}", share_of(total[0], side.asked), f"{total[1]:,}")):
                yield f"the total of {one[1]} is another one than that of the JSON of its level"
    known = {row.result() for row in results[0].rows}
    only = [row for row in results[1].rows if row.result() not in known]
    if (read.number, number(read.only[2])) != (len(only), len(results[1].rows)):
        yield "other results are those of READ COMMITTED alone"
    rows = [(f"{row.orders:,}", share_of(row.orders, results[1].asked), row.shown, f"{row.first_rank}") for row in only]
    if read.rows and [one.groups()[1:5] for one in read.rows] != rows:
        yield "the rows are not those that the JSON of READ COMMITTED alone has"


# ---- whatever it is


def read_back(out):
    """What `isofarm classes` printed: a text, that of both levels, an object, or the object of a page that a browser opens."""
    text = objects_in(out.decode())[0] if out.startswith(DOCTYPE) else out.decode()
    if BOTH_HEAD.match(text):
        return ReadLevels(text)
    return (ReadObject if text.startswith(FRONT.decode()) else ReadText)(text)


def kinds_of(out):
    return ["page of a browser"] * out.startswith(DOCTYPE) + [*read_back(out).kinds()]
