"""What holds of classes, of the two ways in which orders are counted, and of pages and JSON. Each of these yields what is wrong."""

import json
from itertools import permutations

from class_pages import ReadObject, ReadText, wrong_beside, wrong_of_both
from class_request import ALL_ORDERS, BOTH_LEVELS, BRIEF, BY_RESULT, FILTERS, FINAL_ROWS, HTML, JSON, LEVEL, OUTCOMES, QUERY, opposite, request_of
from class_values import objects_in
from classes import BOTH, ClassPage
from facts import ranks_with
from machine import ABORTED, DEADLOCK, FAULTS, OUT_OF_RANGE
from moment_laws import lines_told
from moments import NOT_SENT, WAITS, shown
from schedules import Ending, is_dropped, lines_run, one_by_one, serial_results_one_by_one
from shown import Order, marks, show_json, value_text
from sql import LEAST, MOST

# Of so many permutations all are run one by one, and of so many sessions all serial orders are led from moment to moment.
MOST_ONE_BY_ONE, MOST_SESSIONS = 3_000, 4
CLASSES_LOOKED_AT, FILTERS_LOOKED_AT, ORDERS_LOOKED_AT, CLASSES_SHOWN = 4, 3, 20, 3
LEFT_OUT_OF_TEXTS = (JSON, BRIEF, HTML)


# ---- the two ways in which orders are counted


def counted(endings):
    """What can be compared: each ending with how many orders have it and the least rank."""
    return {ending: (one.orders, one.first_rank) for ending, one in endings.items()}


def wrong_ways(classes):
    """What is counted otherwise one by one than by layers."""
    if counted(classes.endings) != counted(one_by_one(classes.spec, classes.all_orders)):
        yield f"{'permutations' if classes.all_orders else 'orders'} are counted otherwise one by one"
    if classes.serial != serial_results_one_by_one(classes.spec):
        yield "serial orders have other results one by one"


def wrong_numbers(sent, every):
    """What does not hold of the orders that clients can send beside all permutations."""
    steps = len(sent.spec.steps)
    whole = {ending: one for ending, one in counted(sent.endings).items() if ending.steps() == steps}
    if whole != {ending: one for ending, one in counted(every.endings).items() if "N" not in ending.letters}:
        yield "the permutations of which every step is sent are not the orders that have all steps"
    if every.orders != every.spec.ranks():
        yield "permutations are not all counted"
    if any("N" in ending.letters for ending in sent.endings):
        yield "a step of an order is not sent"
    if any("S" not in ending.letters for ending in sent.endings if ending.steps() < steps):
        yield "an order has not all steps, and nobody waits"


# ---- classes beside moments


def ending_by_moments(spec, led):
    """How an order ends, put together from its moments."""
    sessions = range(len(spec.session_names))
    transcripts = tuple(tuple(event for moment in led.moments if moment.session == session for event in moment.events) for session in sessions)
    return Ending(transcripts, tuple((name, tuple(map(tuple, rows))) for name, rows in led.left), tuple(led.standing))


def letters_by_moments(led):
    """The letters of an order but for R, as its moments tell them."""
    events = {event for moment in led.moments for event in moment.events}
    has = {
        "W": any(moment.want for moment in led.moments if moment.kind != NOT_SENT),
        "D": any(moment.ring for moment in led.moments),
        "E": bool(events & ({*FAULTS} - {DEADLOCK, ABORTED})),
        "N": any(moment.kind == NOT_SENT for moment in led.moments),
        "S": WAITS in led.standing,
    }
    return {letter for letter, is_so in has.items() if is_so}


def serial_results_by_moments(spec):
    """The results of all serial orders: the sessions in any order, each with all its steps."""
    for sessions in permutations(range(len(spec.session_names))):
        order = [step for session in sessions for step, (owner, _statements) in enumerate(spec.steps) if owner == session]
        yield ending_by_moments(spec, shown(spec, order)).result


def wrong_first_orders(classes, random):
    """The first order of a class has its rank, and ends as the class does where it is led from moment to moment."""
    spec = classes.spec
    for one in random.sample(classes.all, min(len(classes.all), CLASSES_LOOKED_AT)):
        order = classes.first_order(one)
        if ranks_with(spec, [spec.steps[step][0] for step in order]).start != one.first_rank:
            yield f"the first order of rank {one.first_rank} has another rank"
        led = shown(spec, order)
        if ending_by_moments(spec, led) != one.ending:
            yield f"the first order of rank {one.first_rank} ends otherwise, led from moment to moment"
        if letters_by_moments(led) != {*one.letters} - {"R"}:
            yield f"the first order of rank {one.first_rank} has other letters, led from moment to moment"
        told, letters = "".join(marks(led.moments)), one.letters
        if (":" in told, "-" in told) != ("W" in letters, "N" in letters) or ({*letters} & {"D", "E"} and "!" not in told):
            yield f"the first order of rank {one.first_rank} has the marks {told} and the letters {[*letters]}"


def wrong_orders(classes, random):
    """Any order is in the class of what it ends in where it is led from moment to moment, and not below its first rank."""
    spec, by_ending = classes.spec, {one.ending: one for one in classes.all}
    number = spec.ranks()
    wanted = {*random.sample(range(number), min(number, ORDERS_LOOKED_AT))}
    for rank, (line, worlds) in enumerate(lines_run(spec)):
        if rank in wanted:
            sent = len(line) if classes.all_orders else next((at for at, step in enumerate(line) if is_dropped(worlds[at], step)), len(line))
            if not all(is_dropped(worlds[sent], step) for step in line[sent:]):
                continue
            one = by_ending.get(ending_by_moments(spec, shown(spec, line[:sent])))
            if one is None or one.first_rank > rank:
                yield f"the order of rank {rank} is in no class, or below its first rank"


def wrong_anomalies(classes):
    """A class has R where it has none of D, E, N and S and its result is none of those of serial orders."""
    serial = {*serial_results_by_moments(classes.spec)}
    for one in classes.all:
        is_anomaly = not {"D", "E", "N", "S"} & {*one.letters} and one.ending.result not in serial
        if ("R" in one.letters) != is_anomaly:
            yield f"the class of rank {one.first_rank} has R where it has not, or has it not"


# ---- filters and results


def filter_words(classes, random):
    """Some filters that may be asked for."""
    names = [name for name in FILTERS if (name != "not-sent" or classes.all_orders) and (name != "anomaly" or not classes.is_lined)]
    words = [f"--{no}{name}" for name in names for no in ("", "no-")]
    words += [f"--{no}deadlock={name}" for no in ("", "no-") for name in classes.spec.session_names]
    return random.sample(words, FILTERS_LOOKED_AT)


def passes(spec, word, ending, letters):
    """Whether an order with this ending and these letters passes a filter, by its word alone."""
    name, has_session, session = word.removeprefix("--").removeprefix("no-").partition("=")
    is_so = DEADLOCK in ending.transcripts[spec.session_names.index(session)] if has_session else FILTERS[name] in letters
    return is_so == (not word.startswith("--no-"))


def page_of(classes, words):
    return ClassPage(classes, "made.spec", request_of([ALL_ORDERS] * classes.all_orders + words))


def wrong_filters(classes, random):
    """A filter and its opposite have all orders and no class in common, several have the classes that pass all, and results have their orders."""
    words, spec = filter_words(classes, random), classes.spec
    for word in words:
        page, other = page_of(classes, [word]), page_of(classes, [opposite(word)])
        if page.orders + other.orders != classes.orders or {one.first_rank for one in page.rows} & {one.first_rank for one in other.rows}:
            yield f"{word} and its opposite have not all orders"
    for some in ([], words[:1], words[:2], words):
        page, results = page_of(classes, some), page_of(classes, [*some, BY_RESULT])
        passing = [one.first_rank for one in classes.all if all(passes(spec, word, one.ending, one.letters) for word in some)]
        if [one.first_rank for one in page.rows] != passing:
            yield f"with {some} are other classes than those that pass"
        yield from (f"{some} by result: {wrong}" for wrong in wrong_results(page, results))


def wrong_results(page, results):
    """Results have the orders of all classes that end so, the first of these, and their letters."""
    joint = {}
    for one in page.rows:
        joint.setdefault(one.ending.result, []).append(one)
    want = [(several[0].first_rank, sum(one.orders for one in several)) for several in joint.values()]
    if [(one.first_rank, one.orders) for one in results.rows] != want:
        yield "they are not those of its classes"
    for letter in "DESR":
        total, of_results = page.total(letter), results.total(letter)
        if (total is None) != (of_results is None) or (total and (total[0] != of_results[0] or total[1] < of_results[1])):
            yield f"{letter} has other orders, or more results than classes"


# ---- queries


def plain_queries(table, name, rows, random):
    """Queries of a table without a condition but for its key, each with what is to be seen of these rows."""
    column = random.choice(table.columns)
    place = table.columns.index(column)
    yield f"SELECT * FROM {name}", [*rows]
    yield f"SELECT count(*) FROM {name}", [(len(rows),)]
    yield f"SELECT {column} FROM {name} ORDER BY {column}", sorted(row[place : place + 1] for row in rows)
    if not table.is_text[column]:
        total = sum(row[place] for row in rows)
        yield f"SELECT sum({column}) FROM {name}", [(total,)] if LEAST <= total <= MOST else None
    if table.key and rows:
        row = random.choice(rows)
        yield f"SELECT * FROM {name} WHERE {table.key} = {value_text(row[table.columns.index(table.key)])}", [row]


def wrong_queries(classes, random):
    """What is seen without a condition is what the final rows are: all of them, one by its key, their number, a sum, and rows in an order."""
    for one in random.sample(classes.all, min(len(classes.all), CLASSES_LOOKED_AT)):
        for name, rows in one.ending.final_rows:
            for text, want in plain_queries(classes.spec.tables[name], name, rows, random):
                events = classes.seen(text, one)
                rows_told = [("row", row) for row in want or []]
                if events != ([OUT_OF_RANGE] if want is None else [*rows_told, ("rows", len(rows_told))]):
                    yield f"{text} sees {events} where {rows} are the final rows"


# ---- texts, JSON and pages of the same words


def without(words, *left_out):
    return [word for word in words if word not in left_out]


def wrong_beside_words(read, path, request):
    """Names, SELECTs and values stand as they were given, and there is what was asked for."""
    expectations = [(one["select"], one["values"]) for one in read.expectations]
    wanted = [(one.select, one.values) for one in request.expectations]
    if (read.value["name"], read.queries, expectations) != (path, request.queries, wanted):
        yield "JSON has not the words that were given"
    if (read.by_result, read.has_classes) != (request.has(BY_RESULT), not request.has(BRIEF)):
        yield "JSON has something else than was asked for"


def wrong_beside_order(read, row, order):
    """A class beside the JSON that `show` prints of its first rank. Behind a short order that has the steps that are not sent too."""
    if any(read.value[name] != order[name] for name in ("name", "sessions", "steps")):
        yield "JSON has other sessions or steps than that of an order"
    length = len(row.value["order"])
    if (row.value["order"], row.value["final_rows"]) != (order["order"][:length], order["left"]) or row.value.get("open", order["open"]) != order["open"]:
        yield f"JSON has another end than that of the order of rank {row.first_rank}"
    dropped = [order["sessions"].index(read.value["sessions"][read.steps[step]["session"]]) for step in order["order"][length:]]
    told = [[*lines_told(order, session)] for session in range(len(order["sessions"]))]
    told = [lines[: len(lines) - dropped.count(session)] for session, lines in enumerate(told)]
    if row.transcripts != told:
        yield f"JSON has other transcripts than that of the order of rank {row.first_rank}"


def wrong_of_levels(asking, path):
    """What is wrong with the text of both levels beside the JSON of each."""
    values = [[asking.answer(path, [LEVEL, level, JSON, *more]) for level in BOTH] for more in ([], [BY_RESULT])]
    if not asking.answer(path, [BOTH_LEVELS])[1]:
        if all(value[1] for several in values for value in several):
            yield "both levels are refused, and neither of them is"
        return
    sides, results = ([ReadObject(value[1].decode()) for value in several] for several in values)
    for more in ([], [BRIEF]):
        yield from wrong_of_both(asking.answer(path, [BOTH_LEVELS, *more])[1].decode(), sides, results)


def wrong_pages(asking, path, words, random):
    """What is wrong with the text, the JSON and the page of these words beside one another. What is refused is refused alike."""
    plain = without(words, *LEFT_OUT_OF_TEXTS)
    text, value = asking.answer(path, plain), asking.answer(path, [*plain, JSON])
    if (text[0], bool(text[1]), text[2]) != (value[0], bool(value[1]), value[2]):
        yield "JSON has another status or another fault than the text"
    if not text[1]:
        return
    read, request = ReadObject(value[1].decode()), request_of(plain)
    yield from read.wrong(value[0])
    yield from wrong_beside_words(read, path, request)
    # What stands beneath a class may look like a line of another part.
    bare = ReadText(asking.answer(path, without(plain, OUTCOMES, FINAL_ROWS))[1].decode())
    yield from bare.wrong(text[0])
    yield from wrong_beside(bare, read, False)
    brief = asking.answer(path, [*plain, BRIEF])[1].decode()
    if not text[1].decode().startswith(brief) or value[1].decode().partition(',"classes":')[0] + "}\n" != asking.answer(path, [*plain, BRIEF, JSON])[1].decode():
        yield "what is brief is not the front of the whole"
    queries = [word for one in read.expectations for word in (QUERY, one["select"])]
    yield from ReadObject(asking.answer(path, [*plain, JSON, *queries])[1].decode()).wrong(value[0])
    for row in random.sample(read.rows, min(len(read.rows), CLASSES_SHOWN)):
        yield from wrong_beside_order(read, row, json.loads(show_json(Order(asking.text, path, row.first_rank, asking.level))))
    if HTML in words:
        first, *orders = objects_in(asking.answer(path, [*plain, HTML])[1].decode())
        if first != value[1].decode() or orders != [show_json(Order(asking.text, path, row.first_rank, asking.level)) for row in read.rows[:1_000]]:
            yield "the page has another JSON than is printed alone"

