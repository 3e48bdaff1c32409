"""What `isofarm show` prints of an order: its text, and its JSON.

usage: python3 crosscheck/shown.py SPEC [--json] [--level LEVEL] RANK|STEP..
"""

import sys
from argparse import ArgumentParser
from pathlib import Path

import sql
from levels import bind_at, levels_of
from machine import FAULTS, LEVELS, printed, written
from moments import HOLDS, NOT_SENT, RESUMED, WAITS, shown
from orders import NoOrder, rank_of, spelled
from refusal import Refusal
from spec_file import read_spec
from tokens import WHITE

MOST_RANK = 2**64 - 1
WIDTH = 80
LEAST_CELL, LEAST_LEFT = 18, 4
MOST_NAMED = 3  # more sessions have shorter names
OF_STEPS, OF_SESSIONS, OF_STEPS_OF_MANY, OF_SESSIONS_OF_MANY, OF_LEGEND = 12, 14, 7, 9, 24
# The first and the last of each run of characters that show nothing or steer a terminal.
HIDDEN_RUNS = [
    (int(run.split("-")[0], 16), int(run.split("-")[-1], 16))
    for run in (
        "0-1f 7f-9f ad 34f 61c 115f-1160 17b4-17b5 180b-180f 200b-200f 2028-202e 2060-206f 3164 fe00-fe0f feff ffa0 "
        "fff0-fffb 1bca0-1bca3 1d173-1d17a e0000-e0fff"
    ).split()
]
HIDDEN = {number for first, last in HIDDEN_RUNS for number in range(first, last + 1)}
RAILS = {"out": " ", "in": "|", "failed": "!", WAITS: ":"}
MEANINGS = {"|": "| in a transaction", ":": ": waits", "!": "! failed, up to the end of its block"}
LEFT_IN = {"in": "is in a transaction", "failed": "is in a failed block", WAITS: "waits"}


# ---- what a spec's text has


def one_line(block):
    """The tokens of a block as they are written, a blank where white space or comments stand between two; so white space in quotes too."""
    line, place = b"", 0
    while (token := sql.token_at(block, place)).kind != "end":
        between = b" " if line and token.start > place else b""
        line += between + bytes(ord(" ") if byte in WHITE else byte for byte in block[token.start : token.end])
        place = token.end
    return line.decode()


def statements_of(file):
    """Of each step of a spec file its statements on one line."""
    return [one_line(block.text) for session in file.sessions for _name, block in session.steps]


class Order:
    """An order of a spec file, with what is shown of it."""

    def __init__(self, text, path, rank, level=None):
        file = read_spec(text)
        self.spec, self.path, self.rank = bind_at(text, file, level), path, rank
        self.line = self.spec.line(rank)
        self.statements, self.levels = statements_of(file), levels_of(text, file, self.spec.level)
        self.shown = shown(self.spec, self.line)


# ---- texts, widths and cuts


def visible(text):
    return "".join(f"\\u{{{ord(one):x}}}" if ord(one) in HIDDEN else one for one in text)


def cut(text, most):
    return text if len(text) <= most else text[: most - 1] + "~"


def shortened(names, most):
    short = [cut(name, most) for name in names]
    numbered = [f"{cut(name, most - 1 - len(str(number)))}#{number}" for number, name in enumerate(names)]
    mixed = [numbered[number] if short.count(one) > 1 else one for number, one in enumerate(short)]
    return mixed if len({*mixed}) == len(mixed) else numbered


def pieces(text, most):
    """A text cut behind each blank, and behind each so many characters from the last cut on."""
    piece = ""
    for one in text:
        piece += one
        if one == " " or len(piece) == most:
            yield piece
            piece = ""
    if piece:
        yield piece


def broken(text, width, first, more):
    lines = [" " * first]
    for piece in pieces(text, width - more):
        if len(lines[-1] + piece.removesuffix(" ")) <= width:
            lines[-1] += piece
        else:
            lines.append(" " * more + piece)
    return [line.rstrip(" ") for line in lines]


# ---- words


def value_text(value):
    return written(value).decode()


def row_text(row):
    return "|".join(map(value_text, row))


def place_text(resource):
    return resource[0] if len(resource) == 1 else f"{resource[0]}[{value_text(resource[1])}]"


def want_text(want):
    text = f"wants {want.wants} on {visible(place_text(want.resource))}"
    if want.has is None:
        return text
    return text + (f", has {want.has}" if want.asks == want.wants else f": has {want.has} and asks {want.asks}")


def reason_text(names, edge):
    return f"{names[edge.session]} holds {edge.mode}" if edge.why == HOLDS else f"{names[edge.session]} is ahead, for {edge.mode}"


def rows_text(events):
    return visible(", ".join(row_text(event[1]) for event in events if word_of(event) == "row")) or "no row"


def stale_text(spec, writer, stale):
    return f"{visible(spec.step_names[stale.step])} read {rows_text(stale.told)}; {writer} committed {rows_text(stale.told_now)}"


def word_of(event):
    return event if isinstance(event, str) else event[0]


# ---- the lanes


def ring_lines(names, ring, width):
    sessions = [hop.session for hop in ring] + [ring[0].session]
    yield from broken("ring " + " > ".join(names[session] for session in sessions), width, 2, 4)
    for hop in ring:
        wants = f"{names[hop.session]} wants {hop.wants} on {visible(place_text(hop.resource))}:"
        reason = reason_text(names, hop.edge)
        if 2 + len(f"{wants} {reason}") <= width:
            yield f"  {wants} {reason}"
        else:
            yield from broken(wants, width, 2, 4)
            yield from broken(reason, width, 4, 6)


def wanting_lines(names, front, want, width):
    for note in [front + want_text(want)] + [reason_text(names, edge) for edge in want.edges]:
        yield from broken(note, width, 2, 4)


def note_lines(names, moment, event, width):
    if event == "waiting":
        yield from wanting_lines(names, "", moment.want, width)
    elif word_of(event) == "notsent":
        yield from wanting_lines(names, "still ", moment.want, width)
    elif event in FAULTS and moment.ring:
        yield from ring_lines(names, moment.ring, width)
    elif event in FAULTS and moment.lacks:
        yield from wanting_lines(names, "", moment.lacks, width)


def own_lines(spec, names, moment, width):
    """The lines of a moment in its session's lane, each with its rail."""
    lines = []
    for event in moment.events:
        if word_of(event) in ("sent", "done"):
            continue
        rail = "!" if event in FAULTS else ":" if word_of(event) in ("waiting", "notsent") else "|"
        texts = broken(visible(printed(spec, event).decode()), width, 0, 2)
        lines += [(rail, line) for line in [*texts, *note_lines(names, moment, event, width)]]
    return lines or [("!" if moment.status == "failed" else "|", "done")]


def standing_behind(moment):
    return WAITS if moment.want else moment.status


class Lanes:
    """Rows of lanes: what stands at the left, and for each session its rail and a text."""

    def __init__(self, order):
        self.order, spec = order, order.spec
        self.count = len(spec.session_names)
        has_many = self.count > MOST_NAMED
        names = [visible(name) for name in spec.session_names]
        self.steps = shortened([visible(name) for name in spec.step_names], OF_STEPS_OF_MANY if has_many else OF_STEPS)
        self.left = max([LEAST_LEFT, *(len(self.steps[step]) + 1 for step in order.line)])
        self.cell = max(LEAST_CELL, (WIDTH - self.left) // self.count)
        self.text = self.cell - 3
        self.heads = shortened(names, self.text)
        self.names = shortened(names, OF_SESSIONS_OF_MANY if has_many else OF_SESSIONS)
        self.columns = self.left + self.cell * self.count

    def rows(self):
        """The left and the cells of each row."""
        yield "", [(" ", head) for head in self.heads]
        rails = [RAILS[status] for status, _locks in self.order.shown.begun]
        for moment in self.order.shown.moments:
            lines = {session: self.other_lines(rail, moment, session) for session, rail in enumerate(rails)}
            lines[moment.session] = own_lines(self.order.spec, self.names, moment, self.text)
            rails[moment.session] = RAILS[standing_behind(moment)]
            left = "" if moment.kind == RESUMED else self.steps[moment.step]
            for row in range(max(map(len, lines.values()))):
                cells = [(rail, "") for rail in rails]
                for session, own in lines.items():
                    cells[session] = own[row] if row < len(own) else cells[session]
                yield left if row == 0 else "", cells

    def other_lines(self, rail, moment, session):
        """What stands in the lane of another session: why it waits now, and which of its reads are stale."""
        notes = ["now " + reason_text(self.names, edge) for other, edges in moment.still if other == session for edge in edges]
        notes += [stale_text(self.order.spec, self.names[moment.session], one) for one in moment.stale if one.session == session]
        return [(rail, line) for note in notes for line in broken(note, self.text, 2, 4)]

    def row_text(self, left, cells):
        return left.ljust(self.left) + "".join(f"{rail} {text}".ljust(self.cell) for rail, text in cells)


# ---- the parts of the text


def marks_text(found):
    """The marks of each step, in their order."""
    return ["".join(mark for mark in "-:!" if mark in one) for one in found]


def marks(moments):
    """Of each step of the order what becomes of it: whether it is not sent, waits, fails."""
    found, last = [], {}
    for moment in moments:
        if moment.kind != RESUMED:
            found.append(set())
        if moment.kind == NOT_SENT:
            found[-1].add("-")
            continue
        if moment.kind != RESUMED:
            last[moment.session] = found[-1]
        last[moment.session].update({":"} if moment.want else set(), {"!"} if {*moment.events} & {*FAULTS} else set())
    return marks_text(found)


def head_lines(order, lanes):
    columns = f", {lanes.columns} columns wide" if lanes.columns > WIDTH else ""
    yield from broken(f"{visible(order.path)}: rank {order.rank} of {order.spec.ranks()}{columns}", WIDTH, 0, 0)
    for line in order.levels.head_lines():
        yield from broken(line, WIDTH, 0, 0)
    names = [visible(spelled(order.spec.step_names[step])) for step in order.line]
    yield from broken(" ".join(map("".join, zip(names, marks(order.shown.moments), strict=True))), WIDTH, 0, 0)


def waiting_lines(order, names):
    for name, want in zip(names, order.shown.wants, strict=True):
        if want:
            words = [want_text(want), *(reason_text(names, edge) for edge in want.edges)]
            yield from broken(f"{name} still waits at the end: {', '.join(words)}", WIDTH, 0, 2)


def left_lines(left, standing, names):
    for table, rows in left:
        yield from broken(f"left in {visible(table)}", WIDTH, 0, 2)
        for row in rows:
            yield from broken(visible(row_text(row)), WIDTH, 2, 4)
        if not rows:
            yield "  nothing"
    for session, one in enumerate(standing):
        if one in LEFT_IN:
            yield from broken(f"{names[session]} {LEFT_IN[one]}", WIDTH, 0, 2)


def key_lines(rows):
    rails = {rail for _left, cells in rows for rail, _text in cells}
    if rails & {*MEANINGS}:
        yield "   ".join(meaning for rail, meaning in MEANINGS.items() if rail in rails)


def legend_lines(order):
    names = shortened([visible(name) for name in order.spec.step_names], OF_LEGEND)
    steps = sorted({*order.line})
    widest = max(len(names[step]) for step in steps)
    for step in steps:
        yield cut(f"{names[step].ljust(widest)}  {visible(order.statements[step])}", WIDTH)


def show_text(order):
    lanes = Lanes(order)
    rows, names = list(lanes.rows()), [visible(name) for name in order.spec.session_names]
    parts = [
        head_lines(order, lanes),
        (lanes.row_text(*row) for row in rows),
        waiting_lines(order, names),
        left_lines(order.shown.left, order.shown.standing, names),
        key_lines(rows),
        legend_lines(order),
    ]
    texts = ["".join(f"{line.rstrip(' ')}\n" for line in part) for part in parts]
    return "\n".join(text for text in texts if text)


# ---- JSON


ESCAPES = {'"': '\\"', "\\": "\\\\", "\b": "\\b", "\t": "\\t", "\n": "\\n", "\f": "\\f", "\r": "\\r"}
BY_NUMBER = {*map(chr, range(32)), *"<>&\u2028\u2029"}


def json_string(text):
    return '"' + "".join(ESCAPES.get(one) or (f"\\u{ord(one):04x}" if one in BY_NUMBER else one) for one in text) + '"'


def json_text(value):
    """A value as JSON without spaces. Members of objects stand in their order."""
    if value is None:
        return "null"
    if isinstance(value, str):
        return json_string(value)
    if isinstance(value, int):
        return str(value)
    if isinstance(value, dict):
        return "{" + ",".join(f"{json_string(name)}:{json_text(one)}" for name, one in value.items()) + "}"
    return "[" + ",".join(map(json_text, value)) + "]"


def tables_value(tables):
    return [{"table": name, "rows": [row_text(row) for row in rows]} for name, rows in tables]


def edge_value(edge):
    return [edge.session, edge.why, edge.mode]


def want_value(want):
    there = {} if want.has is None else {"has": want.has, "asks": want.asks}
    return {"on": place_text(want.resource), "wants": want.wants, **there, "for": [edge_value(edge) for edge in want.edges]}


def lines_value(spec, events):
    """Of each event its line of the outcome text, without the blanks before it."""
    return [printed(spec, event).decode() for event in events]


def told_lines(spec, moment):
    return lines_value(spec, moment.events[1:] if word_of(moment.events[0]) == "sent" else moment.events)


def steps_value(spec, statements):
    steps = zip(spec.step_names, spec.steps, statements, strict=True)
    return [{"name": name, "session": session, "sql": text} for name, (session, _statements), text in steps]


def open_value(standing):
    return [[session, one] for session, one in enumerate(standing) if one in LEFT_IN]


def moment_value(spec, moment):
    value = {
        "session": moment.session,
        "kind": moment.kind,
        "step": moment.step,
        "told": told_lines(spec, moment),
        "locks": [change and [place_text(change[0]), change[1]] for change in moment.changes],
        "status": moment.status,
    }
    if moment.want:
        value["want"] = want_value(moment.want)
    if moment.ring:
        value["ring"] = [[hop.session, hop.wants, place_text(hop.resource), edge_value(hop.edge)] for hop in moment.ring]
    if moment.lacks:
        value["lacks"] = want_value(moment.lacks)
    value["still"] = [[session, [edge_value(edge) for edge in edges]] for session, edges in moment.still]
    if moment.stale:
        value["stale"] = [[one.session, one.step, lines_value(spec, one.told), lines_value(spec, one.told_now)] for one in moment.stale]
    return value


def show_value(order):
    spec, told = order.spec, order.shown
    return {
        "format": 1,
        "name": order.path,
        "rank": order.rank,
        "orders": spec.ranks(),
        **order.levels.value(),
        "sessions": spec.session_names,
        "steps": steps_value(spec, order.statements),
        "order": order.line,
        "begun": [{"status": status, "locks": [[place_text(resource), mode] for resource, mode in locks]} for status, locks in told.begun],
        "first": tables_value(told.first),
        "moments": [moment_value(spec, moment) for moment in told.moments],
        "left": tables_value(told.left),
        "open": open_value(told.standing),
    }


def show_json(order):
    return json_text(show_value(order)) + "\n"


# ---- the command


def rank_word(words):
    """The rank that the words of an order are: one whole number. None where they are names."""
    is_number = len(words) == 1 and words[0].isascii() and words[0].isdigit() and int(words[0]) <= MOST_RANK
    return int(words[0]) if is_number else None


def order_of(text, path, words, level):
    """The order that the words name. Raises a Refusal, or NoOrder with what a fault line tells."""
    spec, rank = bind_at(text, read_spec(text), level), rank_word(words)
    if rank is None:
        rank = rank_of(spec, words)
    elif rank >= spec.ranks():
        raise NoOrder("rank out of range")
    return Order(text, path, rank, level)


def answer(text, path, words, as_json, level=None):
    """The exit status, and what stands on the two outputs."""
    try:
        order = order_of(text, path, words, level)
    except Refusal as refusal:
        return 3, b"", refusal.line(path)
    except NoOrder as wrong:
        return 3, b"", f"isofarm: {path}: {wrong.args[0]}\n".encode()
    return 0, (show_json if as_json else show_text)(order).encode(), b""


if __name__ == "__main__":
    parser = ArgumentParser(usage=__doc__)
    parser.add_argument("path")
    parser.add_argument("--json", action="store_true")
    parser.add_argument("--level", choices=LEVELS)
    parser.add_argument("order", nargs="+")
    given = parser.parse_intermixed_args()
    status, out, error = answer(Path(given.path).read_bytes(), given.path, given.order, given.json, given.level)
    sys.stdout.buffer.write(out)
    sys.stderr.buffer.write(error)
    sys.exit(status)
