"""The JSON of the classes of orders, and the page that a browser opens, from the page of a spec or of books (`classes.py`, `book_classes.py`)."""

from functools import cache
from pathlib import Path
from subprocess import run
from tempfile import TemporaryDirectory

from class_request import BRIEF, RANKS
from shown import Order, json_text, lines_value, open_value, show_json, steps_value, tables_value

FORMAT, LETTERS = 2, "WDENSR"
# By what orders are grouped.
BY_SHOWS, BY_ANSWERS, BY_OUTCOMES = "shows", "answers", "outcomes"
MAKE = Path(__file__).resolve().parent.parent / "page" / "make"
# Of so many classes a page has the first order.
MOST_SHOWN = 1_000


# ---- JSON


def expectation_value(page, one):
    missing = page.missing(one)
    return {"select": one.select, "values": one.values, "holds_in": page.holds_in(one), "first": missing[0].first_rank if missing else None}


def class_value(page, one):
    spec, ending = page.classes.spec, one.ending
    value = {
        "first_rank": one.first_rank,
        "orders": one.orders,
        "letters": page.letters_of(one),
        "order": page.classes.first_order(one),
        "transcripts": [lines_value(spec, events) for events in ending.transcripts],
    }
    if page.by != BY_OUTCOMES:
        value["final_rows"] = tables_value(ending.final_rows)
    if page.by == BY_SHOWS:
        value["open"] = open_value(ending.standing)
    value["query_rows"] = [lines_value(spec, page.classes.seen(text, one)) for text in page.request.queries]
    if page.request.has(RANKS):
        value["ranks"] = one.ranges
    return value


def missing_value(page):
    """How many orders no book tells, and the first of them; none where all are told."""
    return {"orders": page.orders_missing, "first": page.classes.first_missing} if page.orders_missing else None


def classes_value(page, statements):
    """What stands in the object, beside these statements of each step."""
    spec, request = page.classes.spec, page.request
    value = {"format": FORMAT, "name": page.path, "orders": page.classes.orders, "asked": page.orders}
    if page.is_sample:
        value["sample"] = {"seed": request.seed, "seen_once": page.seen_once()}
    if page.by == BY_OUTCOMES:
        value["missing"] = missing_value(page)
    value |= {
        "sessions": spec.session_names,
        "steps": steps_value(spec, statements),
        **page.levels.value(),
        "level_lines": page.levels.lines_without_effect,
        "by": page.by,
        "totals": {letter: page.total(letter) for letter in LETTERS},
        "expectations": [expectation_value(page, one) for one in request.expectations],
        "queries": request.queries,
    }
    if not request.has(BRIEF):
        value["classes"] = [class_value(page, one) for one in page.rows]
    return value


def classes_json(page, statements):
    return json_text(classes_value(page, statements)) + "\n"


# ---- the page that a browser opens: the JSON of classes and of their first orders, between parts that are the same on each page


@cache
def parts():
    """What is the same on each page, by the names of the parts: as the page's own files have it, and not the program."""
    with TemporaryDirectory() as folder:
        run([MAKE, "parts", folder], check=True, stdout=2)
        return {path.name: path.read_text() for path in Path(folder).iterdir()}


def page_html(text, path, classes, ranks, level):
    """The page of a spec's text with the JSON of its classes, and that of the orders of these ranks, at this level."""
    part = parts()
    objects = [show_json(Order(text, path, rank, level)).removesuffix("\n") for rank in ranks[:MOST_SHOWN]]
    data = part["between"].join([classes.removesuffix("\n"), *objects])
    return part["front"] + part["style"] + part["middle"] + data + part["back_begin"] + part["script"] + part["back_end"]


def objects_in(page):
    """What stands in a page: the JSON of classes and that of each order, each with a line feed as it is printed alone. None where it is no page."""
    part = parts()
    front, back = part["front"] + part["style"] + part["middle"], part["back_begin"] + part["script"] + part["back_end"]
    if not (page.startswith(front) and page.endswith(back)):
        return None
    return [f"{one}\n" for one in page[len(front) : len(page) - len(back)].split(part["between"])]
