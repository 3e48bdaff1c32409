"""Reads back what pages of classes show in each browser, and compares it with what this second implementation tells.

usage: python3 crosscheck/compare_pages.py PROGRAM [SEED [SEEDS]]

Pages are put together by `page/make` of what the program tells as JSON: of the examples, of the specs of `page_specs/` (one has markup, script,
escapes and marks of direction in its names and texts), and of specs made from seeds. In each browser that is here each class is picked; its
row, each cell of its timeline with its statements, words, bars of locks and arrows, the sentences of the cell, and final rows are read and
compared. Nothing of a spec may run, and nothing may be asked for; keys alone reach everything; each control has a name, each cell its heads;
and text stands out from its ground by 4.5 to 1 in both themes. The last line counts.
"""

import json
import os
import re
import subprocess
import sys
from collections import Counter
from concurrent.futures import ThreadPoolExecutor
from dataclasses import dataclass
from pathlib import Path
from random import Random
from tempfile import TemporaryDirectory

from browser import BrowserFault, Chromium, there
from classes import Asking, share
from compare import ended
from compare_shown import MORE
from generate import Maker, fresh_seed
from orders import spelled
from refusal import Refusal
from shown import Order, marks_text, show_value, visible

TOP = Path(__file__).resolve().parent.parent
MAKE = TOP / "page" / "make"
SPECS = Path(__file__).resolve().parent / "page_specs"
# The most rows of a SELECT that a cell shows, and rows of a table.
MOST_SHOWN, MOST_LEFT = 6, 50
# Of pages with more classes so many are read, without sentences and places.
MOST_READ_WHOLE, READ_OF_MANY = 40, 100
# What stands before each order of a page.
BETWEEN = b'</script><script type="application/json" class="order">'
# Classes of a seed's spec.
MOST_CLASSES = 30
LEAST_CONTRAST = 4.5
FAULTS_TOLD = 5
LEVELS = ["READ COMMITTED", "SERIALIZABLE"]
WORDS = {"W": "waits", "D": "deadlock", "E": "error", "N": "not sent", "S": "waits for ever", "R": "anomaly"}
OPEN = {"in": "is in a transaction", "failed": "is in a failed block"}
BLOCKS = {"in": "is in a transaction", "failed": "is in a failed block, which takes COMMIT and ROLLBACK alone,", "out": "has no transaction open"}
# Words of `isofarm classes` with which pages are made beside those without words.
OF_EXAMPLES = {
    "deadlock": [["--by-result"], ["--deadlock", "--no-stuck"], ["--query", "SELECT v FROM t WHERE id = 1", "--expect", "SELECT sum(v) FROM t", "32"], ["--all-orders"]],
    "lost_update": [["--expect", "SELECT * FROM t", "1", "12", "--query", "SELECT * FROM t"], ["--stuck"]],
    "share_beside_update": [["--no-anomaly"], ["--by-result", "--all-orders"]],
    "many": [["--by-result"]],
}


# ---- what a page has to show


def number(count):
    return f"{count:,}"


def plural(count, word, words=None):
    return f"{number(count)} {word if count == 1 else words or word + 's'}"


def found_text(lines):
    """What a query finds, on one line."""
    return ", ".join(line.removeprefix("row ") for line in lines if not line.startswith("rows ")) or "no row"


def listed(texts):
    return texts[0] if len(texts) == 1 else f"{', '.join(texts[:-1])} and {texts[-1]}" if texts else ""


def wants(it):
    text = f"wants {it['wants']} on {it['on']}"
    if "has" not in it:
        return text
    return text + (f", has {it['has']}" if it["asks"] == it["wants"] else f": has {it['has']} and asks {it['asks']}")


def values_of(row):
    return re.findall(r"'(?:[^']|'')*'|[^|]+", row)


def key_of(value):
    return value[1:-1].replace("''", "'").encode() if value.startswith("'") else int(value)


def rises(values):
    keys = [*map(key_of, values)]
    return all(one < other for one, other in zip(keys, keys[1:]))


@dataclass
class Stand:
    """How things stand at a moment."""

    before: list
    during: list
    after: list
    got: list
    status: list
    waits: list
    edges: list
    since: list


class Timeline:
    """What the timeline of an order has to show, by the values that `show` tells of it."""

    def __init__(self, value):
        self.value, self.names = value, value["sessions"]
        self.steps = value["steps"]
        self.stands = [*self.all_stands()]

    def all_stands(self):
        held = [dict(map(tuple, one["locks"])) for one in self.value["begun"]]
        since = [dict.fromkeys(one) for one in held]
        status = [one["status"] for one in self.value["begun"]]
        waits, edges = [None] * len(held), [[] for _ in held]
        for at, moment in enumerate(self.value["moments"]):
            mine = moment["session"]
            before, during, got = [*map(dict, held)], [*map(dict, held)], []
            if moment["kind"] == "resumed":
                waits[mine] = None
            for lock in moment["locks"]:
                if lock is None:
                    held[mine].clear()
                    continue
                on, mode = lock
                if held[mine].get(on) != mode:
                    got.append((on, mode))
                if on not in held[mine]:
                    since[mine][on] = moment["step"]
                held[mine][on] = during[mine][on] = mode
            status[mine] = moment["status"]
            if moment["told"][-1] == "waiting":
                waits[mine], edges[mine] = (at, moment["step"], moment["want"]), moment["want"]["for"]
            for session, its_edges in moment["still"]:
                edges[session] = its_edges
            yield Stand(before, during, [*map(dict, held)], got, [*status], [*waits], [*edges], [*map(dict, since)])

    def reason(self, edge):
        session, why, mode = edge
        return f"{self.names[session]} holds {mode}" if why == "holds" else f"{self.names[session]} is ahead, for {mode}"

    def step(self, step):
        return self.steps[step]["name"]

    def way(self, moment):
        return " \u2192 ".join(self.names[session] for session in [hop[0] for hop in moment["ring"]] + [moment["session"]])

    # cells

    def rows(self):
        """The head and the cells of each moment."""
        for row, moment in enumerate(self.value["moments"]):
            head = f"\u21b3 {self.step(moment['step'])} goes on" if moment["kind"] == "resumed" else self.step(moment["step"])
            yield [visible(head), [self.cell(row, moment, session) for session in range(len(self.names))]]

    def cell(self, row, moment, session):
        stand, mine = self.stands[row], moment["session"] == session
        lines = [*self.own_lines(moment, stand)] if mine else []
        still = next((edges for one, edges in moment["still"] if one == session), [])
        lines += [("why", f"now {self.reason(edge)}") for edge in still]
        stale = [("why", text) for text in self.stale(moment, session)]
        lines += stale
        return {
            "kinds": sorted(self.kinds(moment, stand, session, bool(still or stale))),
            "lines": [[kind, visible(text)] for kind, text in lines],
            "locks": sorted(
                [on, mode, on not in stand.before[session], on not in stand.after[session]] for on, mode in stand.during[session].items()
            ),
            "arrows": sorted(self.arrows(moment, session, still)),
        }

    def stale(self, moment, session):
        """What a session read that the moment made stale."""
        for one, step, was, now in moment.get("stale", []):
            if one == session:
                yield f"{self.step(step)} read {found_text(was)}; {self.names[moment['session']]} committed {found_text(now)}"

    def kinds(self, moment, stand, session, says):
        mine, waits = moment["session"] == session, stand.waits[session]
        fails = mine and any(line.startswith("error: ") for line in moment["told"])
        if waits:
            yield "stands"
        if waits and (mine or says):
            yield "says"
        if fails:
            yield "refused"
        elif stand.status[session] == "failed" and not waits:
            yield "broken"
        if stand.status[session] == "out" and not waits and not mine and not stand.after[session]:
            yield "outside"

    def own_lines(self, moment, stand):
        statement = self.steps[moment["step"]]["sql"]
        if moment["kind"] == "sent" and statement:
            yield "sql", statement
        told = [line for line in moment["told"] if line != "done"]
        rows = [line for line in told if line.startswith("row ")]
        cut = rows[MOST_SHOWN:] if len(rows) > MOST_SHOWN + 1 else []
        place = 0
        for line in told:
            if line.startswith("row "):
                place += 1
                if place <= len(rows) - len(cut):
                    yield "told", line
                elif place == len(rows):
                    yield "told", f"and {len(cut)} rows more"
            else:
                yield from self.told_lines(moment, line)
        if not told:
            yield "told", "done"
        if stand.got:
            yield "had", "  ".join(f"+{mode} {on}" for on, mode in stand.got)

    def told_lines(self, moment, line):
        if line == "waiting":
            yield from self.wanting("waits", moment["want"])
        elif line.startswith("not sent "):
            yield from self.wanting("not sent still", moment["want"])
        elif line == "error: deadlock" and "ring" in moment:
            yield "told", f"deadlock ring {self.way(moment)}"
            for session, mode, on, edge in moment["ring"]:
                yield "why", f"{self.names[session]} wants {mode} on {on}: {self.reason(edge)}"
        elif line == "error: lock not available" and "lacks" in moment:
            yield from self.wanting("lock not available", moment["lacks"])
        else:
            yield "told", line.removeprefix("error: ")

    def wanting(self, front, want):
        yield "told", f"{front} {wants(want)}"
        yield from (("why", self.reason(edge)) for edge in want["for"])

    def arrows(self, moment, session, still):
        edges = [*still]
        if moment["session"] == session and moment["told"][-1] == "waiting":
            edges += moment["want"]["for"]
        yield from ([edge[0], edge[1]] for edge in edges)
        for one, _mode, _on, edge in moment.get("ring", []):
            if one == session:
                yield [edge[0], f"ring {edge[1]}"]

    # sentences

    def long_reasons(self, edges, on, stand):
        return listed([*(self.long_reason(edge, on, stand) for edge in edges)])

    def long_reason(self, edge, on, stand):
        session, why, mode = edge
        if why == "ahead":
            return f"{self.names[session]} waits there too, for {mode}, and is ahead"
        since = stand.since[session].get(on, "")
        behind = "" if since == "" else " since its setup" if since is None else f" since {self.step(since)}"
        return f"{self.names[session]} holds {mode} there{behind}"

    def end_of_wait(self, row, session):
        moments = self.value["moments"]
        ends = [at for at, moment in enumerate(moments) if at > row and moment["session"] == session and moment["kind"] == "resumed"]
        if not ends:
            return "It waits for ever."
        cause = [moment for moment in moments[: ends[0]] if moment["kind"] != "resumed"][-1]
        return f"It goes on after {self.step(cause['step'])}."

    def sentences(self, row, session):
        moment, stand, who = self.value["moments"][row], self.stands[row], self.names[session]
        earlier, mine, step = self.stands[row - 1] if row else stand, moment["session"] == session, self.step(moment["step"])
        if mine and moment["kind"] == "notsent":
            yield f"{step} is not sent, for good: {who} still waits."
        elif mine:
            yield f"{step}{' goes on' if moment['kind'] == 'resumed' else ''}: {self.steps[moment['step']]['sql'] or 'no statement'}"
        if mine and "ring" in moment:
            hops = [f"{self.names[one]} wants {mode} on {on}, and {self.long_reason(edge, on, earlier)}. " for one, mode, on, edge in moment["ring"]]
            yield f"To wait would close the ring {self.way(moment)}, so {who} is refused and all that its transaction did is undone. {''.join(hops)}"
        if mine and "lacks" in moment:
            lacks = moment["lacks"]
            yield f"Its request does not wait, so it is refused: it {wants(lacks)}. {self.long_reasons(lacks['for'], lacks['on'], earlier)}."
        if stand.waits[session]:
            at, waiting, it = stand.waits[session]
            reasons = self.long_reasons(stand.edges[session], it["on"], stand)
            yield f"{who} waits with {self.step(waiting)}: it {wants(it)}. {reasons}. {self.end_of_wait(at, session)}"
        yield from (f"{text}." for text in self.stale(moment, session))
        held = listed([f"{mode} on {on}" for on, mode in stand.after[session].items()]) or "no lock"
        freed = "Its locks were let go. " if mine and None in moment["locks"] else ""
        yield f"{freed}Then {who} {BLOCKS[stand.status[session]]} and holds {held}."

    # final rows

    def ends(self):
        last = self.stands[-1]
        for session, waits in enumerate(last.waits):
            if waits:
                yield f"waits for ever {self.names[session]}: it {wants(waits[2])}; {', '.join(map(self.reason, last.edges[session]))}."
        for session, how in self.value["open"]:
            if how in OPEN:
                yield f"{self.names[session]} {OPEN[how]}."

    def keys(self, table, before, now):
        """By what rows are told apart: the column that rises and has most of the locked keys, the first of several; else the whole row."""
        locks = [lock for one in [*self.value["begun"], *self.value["moments"]] for lock in one["locks"] if lock]
        locked = {on[len(table) + 1 : -1] for on, _mode in locks if on.startswith(f"{table}[")}
        count = len((before + now)[0]) if before + now else 0
        columns = [at for at in range(count) if rises([row[at] for row in before]) and rises([row[at] for row in now])]
        if columns:
            key = max(columns, key=lambda at: (len(locked & {row[at] for row in before + now}), -at))
            return [row[key] for row in before], [row[key] for row in now]
        return tuple([(tuple(row), rows[:at].count(row)) for at, row in enumerate(rows)] for rows in (before, now))

    def tables(self):
        for table, first in zip(self.value["left"], self.value["first"], strict=True):
            before, now = [*map(values_of, first["rows"])], [*map(values_of, table["rows"])]
            old, keys = self.keys(table["table"], before, now)
            rows = []
            for key, row in zip(keys, now, strict=True):
                was = before[old.index(key)] if key in old else None
                cells = [[visible(one), was is None or was[at] != one, visible(was[at]) if was and was[at] != one else ""] for at, one in enumerate(row)]
                rows.append(["" if was else "new", cells])
            rows += [["gone", [[visible(one), False, ""] for one in row]] for key, row in zip(old, before, strict=True) if key not in keys]
            more = len(rows) - MOST_LEFT
            yield [f"final rows of {table['table']}{'' if now else ': no row'}", rows[:MOST_LEFT], f"and {plural(more, 'row')} more" if more > 0 else ""]


class Wanted:
    """What a page has to show of a spec's classes, with these words."""

    def __init__(self, text, name, words):
        self.asking, self.text, self.name, self.known = Asking(text), text, name, {}
        self.value = json.loads(self.asking.answer(name, [*words, "--json"])[1])
        self.classes, self.total = self.value["classes"], self.value["orders"]
        self.by_result = self.value["by"] == "answers"
        self.word, self.of_word = ("result", "results") if self.by_result else ("class", "classes")

    def timeline(self, at):
        if at not in self.known:
            value = show_value(Order(self.text, self.name, self.classes[at]["first_rank"]))
            # Behind its end a short order has no steps; those of its rank that are not sent are left out.
            is_short = len(self.classes[at]["order"]) < len(value["order"])
            moments = [moment for moment in value["moments"] if not is_short or moment["kind"] != "notsent"]
            self.known[at] = Timeline({**value, "moments": moments, "order": self.classes[at]["order"]})
        return self.known[at]

    def figures(self):
        counts = [plural(self.total, "order"), plural(len(self.value["steps"]), "step"), plural(len(self.value["sessions"]), "session")]
        is_part = self.value["asked"] != self.total
        front = f"{number(self.value['asked'])} of " if is_part else ""
        return f"{front}{counts[0]} of {counts[1]} in {counts[2]}{' asked for' if is_part else ''}, {plural(len(self.classes), self.word, self.of_word)}"

    def filters(self):
        for letter, total in self.value["totals"].items():
            if total is not None:
                told = f"{plural(total[0], 'order')}, {plural(total[1], self.word, self.of_word)}"
                yield [letter, WORDS[letter], share(total[0], self.value["asked"]), told, total[0] == 0]
            elif letter == "R":
                yield [letter, WORDS[letter], "-", "not known", True]

    def expected(self):
        for one in self.value["expectations"]:
            text = f"{'holds' if one['first'] is None else 'failed'} {one['select']} = {', '.join(one['values'])}"
            text += f" holds in {number(one['holds_in'])} of {plural(self.value['asked'], 'order')}"
            if one["first"] is not None:
                place = [each["first_rank"] for each in self.classes].index(one["first"])
                text += f"; first fails at rank {one['first']}, in {self.word} {place + 1}"
            yield visible(text)
        if levels := self.levels():
            yield levels

    def levels(self):
        """What the page says of levels; nothing where none is asked for and the file has none."""

        def told(lines):
            return f"(line{'s' * (len(lines) > 1)} {', '.join(map(str, lines))})"

        if asked := self.value.get("levels"):
            level, other = LEVELS if asked["default"] == "read-committed" else LEVELS[::-1]
            return f"Isolation level: {level}" + (f"; {other} {told(asked['other_lines'])}" if asked["other_lines"] else "") + "."
        return f"Isolation levels have no effect {told(self.value['level_lines'])}." if self.value["level_lines"] else ""

    def marked(self, at):
        """The steps of a class's order, with the marks that its moments have."""
        value = self.timeline(at).value
        found, last = [], {}
        for moment in value["moments"]:
            if moment["kind"] != "resumed":
                found.append(set())
            its = last.get(moment["session"]) if moment["kind"] == "resumed" else found[-1]
            if moment["kind"] == "notsent":
                its.add("-")
                continue
            last[moment["session"]] = its
            its.update({":"} if moment["told"][-1] == "waiting" else (), {"!"} if any(line.startswith("error: ") for line in moment["told"]) else ())
        names = [visible(spelled(value["steps"][step]["name"])) for step in value["order"]]
        return " ".join(map("".join, zip(names, marks_text(found), strict=True)))

    def row(self, at):
        one = self.classes[at]
        tags = [word for letter, word in WORDS.items() if letter in one["letters"]]
        return {
            "number": str(at + 1),
            "order": self.marked(at),
            "tags": tags or ["nobody waits" if not self.by_result else "result of a serial order" if self.value["totals"]["R"] else "no error"],
            "seen": [visible(f"query {found_text(lines)}") for lines in one["query_rows"]],
            "count": f"{number(one['orders'])} {share(one['orders'], self.value['asked'])}",
        }

    def where(self, one):
        return f"rank {one['first_rank']}, " + ("its only order" if one["orders"] == 1 else f"the first of {plural(one['orders'], 'order')}")

    def of_class(self, at, is_whole):
        """What is read of a class; with sentences where it is read whole."""
        one, timeline = self.classes[at], self.timeline(at)
        queries = [f"query {query}: {found_text(lines)}" for query, lines in zip(self.value["queries"], one["query_rows"], strict=True)]
        sentences = [
            [[visible(text) for text in timeline.sentences(row, session)] for session in range(len(timeline.names))] for row in range(len(timeline.stands))
        ]
        return {
            "row": self.row(at),
            "what": f"{self.word.capitalize()} {number(at + 1)} of {number(len(self.classes))}",
            "where": self.where(one),
            "heads": ["Step", *(visible(f"session {name}") for name in timeline.names)],
            "rows": [*timeline.rows()],
            "ends": [visible(text) for text in [*timeline.ends(), *queries]],
            "tables": [*timeline.tables()],
            "sentences": sentences if is_whole else None,
        }


# ---- what is read of a page

# Functions that read: the text of an element but for marks that are only seen, or only heard; a class; the whole page.
READING = r"""
(() => {
  const $ = id => document.getElementById(id);
  const textOf = (node, but) => node.nodeType === 3 ? node.data : but && node.matches(but) ? '' : [...node.childNodes].map(one => textOf(one, but)).join('');
  const kinds = ['stands', 'says', 'refused', 'broken', 'outside'];
  const lockOf = bar => [bar.dataset.on, bar.classList[1], bar.classList.contains('from'), bar.classList.contains('to')];
  const arrowOf = one => [Number(one.dataset.to), one.className.replace(/^arrow (left|right) /, '')];
  const less = (a, b) => JSON.stringify(a) < JSON.stringify(b) ? -1 : 1;
  const cellOf = td => ({
    kinds: kinds.filter(one => td.classList.contains(one)).sort(),
    lines: [...td.children].filter(one => !one.matches('.lock, .arrow')).map(one => [one.classList[0], textOf(one)]),
    locks: [...td.querySelectorAll('.lock')].map(lockOf),
    arrows: [...td.querySelectorAll('.arrow')].map(arrowOf),
  });
  // An arrow's end is at the bar that stands in the way, or at the lane of who is ahead; no two bars of a cell have one place.
  const misplaced = row => [...row.querySelectorAll('td')].flatMap(td => {
    const places = [...td.querySelectorAll('.lock')].map(bar => Math.round(bar.getBoundingClientRect().left));
    const wrong = new Set(places.filter((one, at) => places.some((other, place) => place !== at && Math.abs(one - other) < 5)));
    const arrows = [...td.querySelectorAll('.arrow')].filter(one => {
      const lane = row.children[1 + Number(one.dataset.to)], at = one.getBoundingClientRect();
      const bar = [...lane.querySelectorAll('.lock')].find(bar => bar.dataset.on === one.dataset.on);
      const box = bar && one.className.includes('holds') ? bar.getBoundingClientRect() : lane.getBoundingClientRect();
      const gap = one.classList.contains('right') ? box.left - at.right : at.left - box.right;
      return one.className.includes('holds') ? !bar || gap < -3 || gap > 5 : Math.abs(gap) > lane.getBoundingClientRect().width;
    });
    return [...[...wrong].map(one => `bars at ${one}`), ...arrows.map(one => one.className)];
  });
  const sentencesOf = td => {
    td.dispatchEvent(new FocusEvent('focusin', { bubbles: true }));
    return [...$('inspector').children].map(one => textOf(one));
  };
  const rowOf = tr => ({
    number: textOf(tr.cells[0]), order: textOf(tr.querySelector('.order'), '.hidden'), tags: [...tr.querySelectorAll('.tags span')].map(one => textOf(one)),
    seen: [...tr.querySelectorAll('.seen')].map(one => textOf(one)), count: textOf(tr.cells[2]),
  });
  const valueOf = td => [textOf(td, '.was'), td.classList.contains('other'), textOf(td.querySelector('.was') || document.createTextNode('')).replace(/^was /, '')];
  const tableOf = table => {
    const rows = [...table.rows], more = rows.length && rows.at(-1).cells[0].colSpan > 1 ? textOf(rows.pop()) : '';
    return [textOf(table.caption), rows.map(tr => [textOf(tr.querySelector('.sign') || document.createTextNode('')), [...tr.querySelectorAll('td:not(.sign)')].map(valueOf)]), more];
  };
  window.readClass = async (at, whole) => {
    const tr = $(`class-${at}`);
    tr.click();
    // A playground asks for the order.
    while (!$('moments').rows.length && $('absent').hidden) await new Promise(done => setTimeout(done, 2));
    const rows = [...$('moments').rows];
    return {
      row: rowOf(tr), what: textOf($('what')), where: textOf($('where')), heads: [...$('heads').children].map(one => textOf(one)),
      rows: rows.map(row => [textOf(row.querySelector('th')), [...row.querySelectorAll('td')].map(cellOf)]),
      ends: [...$('ends').querySelectorAll('p')].map(one => textOf(one)), tables: [...$('ends').querySelectorAll('table')].map(tableOf),
      sentences: whole ? rows.map(row => [...row.querySelectorAll('td')].map(sentencesOf)) : null,
      misplaced: whole ? rows.flatMap(misplaced) : [],
    };
  };
  window.readPage = () => ({
    name: textOf($('name')), title: document.title, figures: textOf($('figures')), expected: $('expected').hidden ? [] : [...$('expected').children].map(one => textOf(one)),
    filters: [...$('filters').children].map(one => [one.dataset.letter, ...['word', 'share', 'counts'].map(part => textOf(one.querySelector(`.${part}`))), one.disabled]),
  });
  return true;
})()
"""

# Each element whose text does not stand out from its ground: texts, and the colours of grounds behind them, with stripes.
CONTRAST = r"""
(() => {
  const parse = colour => { const [, r, g, b, a] = colour.match(/rgba?\((\d+), (\d+), (\d+)(?:, ([\d.]+))?\)/); return [+r, +g, +b, a === undefined ? 1 : +a]; };
  const linear = one => one / 255 <= 0.04045 ? one / 255 / 12.92 : ((one / 255 + 0.055) / 1.055) ** 2.4;
  const light = ([r, g, b]) => 0.2126 * linear(r) + 0.7152 * linear(g) + 0.0722 * linear(b);
  const between = (a, b) => { const [x, y] = [light(a), light(b)].sort((a, b) => b - a); return (x + 0.05) / (y + 0.05); };
  const grounds = element => {
    const found = [];
    for (let one = element; one; one = one.parentElement) {
      const style = getComputedStyle(one);
      for (const stripe of style.backgroundImage.match(/rgba?\([^)]*\)/g) || []) if (parse(stripe)[3] === 1) found.push(parse(stripe));
      const colour = parse(style.backgroundColor);
      if (colour[3] === 1) { found.push(colour); break; }
    }
    return found;
  };
  const wrong = [];
  for (const element of document.body.querySelectorAll('*')) {
    if (element.closest('script, noscript, .hidden') || !element.getClientRects().length || getComputedStyle(element).visibility !== 'visible') continue;
    if (![...element.childNodes].some(node => node.nodeType === 3 && node.data.trim())) continue;
    const ink = parse(getComputedStyle(element).color);
    for (const ground of grounds(element)) if (between(ink, ground) < %s) wrong.push(`${element.className || element.tagName} ${between(ink, ground).toFixed(2)}`);
  }
  return [...new Set(wrong)];
})()
"""

# What has no name, or no head.
NAMELESS = r"""
(() => {
  const named = one => (one.getAttribute('aria-label') || (one.labels && [...one.labels].map(label => label.textContent).join('')) || one.textContent).trim();
  const textOf = id => document.getElementById(id) && document.getElementById(id).textContent.trim();
  const labelled = one => one.getAttribute('aria-label') || (one.getAttribute('aria-labelledby') || '').split(' ').every(textOf);
  const wrong = [...document.querySelectorAll('button, select, textarea, summary, a')].filter(one => !one.hidden && !named(one)).map(one => `${one.tagName} ${one.id}`);
  for (const grid of document.querySelectorAll('table[role=grid]')) {
    const heads = [...grid.tHead.querySelectorAll('th[scope=col]')];
    if (!labelled(grid)) wrong.push('a grid without a name');
    if (heads.some(head => !head.textContent.trim())) wrong.push('a head without a word');
    for (const row of grid.tBodies[0].rows) {
      if (row.cells.length !== heads.length && row.cells[0].colSpan === 1) wrong.push('a row has not a cell for each head');
      if (grid.id === 'timeline' && (row.cells[0].scope !== 'row' || !row.cells[0].textContent.trim())) wrong.push('a row without a head');
    }
  }
  return [...new Set(wrong)];
})()
"""
# What each control is called, and what has the focus.
CONTROLS = """[...document.querySelectorAll('button, summary, select, textarea')].filter(one => !one.disabled && one.getClientRects().length)
  .map(one => one.id || one.dataset.letter || one.tagName + ' ' + one.textContent)"""
FOCUSED = """(({ id, dataset, tagName, textContent }) =>
  tagName === 'BODY' ? '' : id || dataset.letter || (dataset.row ? `${dataset.row},${dataset.session}` : `${tagName} ${textContent}`))(document.activeElement)"""


# ---- comparing


def sorted_locks(read):
    """What was read of a class, with locks and arrows in one order."""
    for _head, cells in read["rows"]:
        for cell in cells:
            cell["locks"].sort()
            cell["arrows"].sort()
    return read


def differing(want, got, at=""):
    """Where two values differ first, or None."""
    if isinstance(want, dict) and isinstance(got, dict):
        return next(filter(None, (differing(want[name], got.get(name), f"{at}.{name}") for name in want)), None)
    if isinstance(want, list) and isinstance(got, list) and len(want) == len(got):
        return next(filter(None, (differing(one, other, f"{at}[{place}]") for place, (one, other) in enumerate(zip(want, got)))), None)
    return None if want == got else f"{at}: {want!r} was to be shown, and {got!r} is"


def as_json(value):
    """A value with lists for tuples, as it comes from a page."""
    return json.loads(json.dumps(value))


class Reading:
    """The pages, read in one browser."""

    def __init__(self, browser, seed):
        self.browser, self.random, self.counts, self.found = browser, Random(seed), Counter(), []

    def wrong(self, page, text):
        self.found.append(text)
        if len(self.found) <= FAULTS_TOLD:
            print(f"{self.browser.name}, {page}: {text}", flush=True)

    def read(self, page, path, wanted):
        """Opens a page and compares all that it shows."""
        self.browser.open(path)
        title = f"{visible(wanted.name)}: {plural(wanted.total, 'order')}, {plural(len(wanted.classes), wanted.word, wanted.of_word)}"
        self.read_open(page, wanted, {"name": visible(wanted.name), "title": title})

    def read_open(self, page, wanted, heads):
        """Compares all that the page shows that is open."""
        browser, count = self.browser, len(wanted.classes)
        self.counts["pages"] += 1
        browser.wait_for(f"document.querySelectorAll('#rows tr').length >= {max(1, count)}")
        browser.run(READING)
        want = {**heads, "figures": wanted.figures(), "expected": [*wanted.expected()], "filters": [*wanted.filters()]}
        self.compare(page, as_json(want), browser.run("readPage()"))
        is_whole = count <= MOST_READ_WHOLE
        read_places = [*range(count)] if is_whole else sorted(self.random.sample(range(count), min(count, READ_OF_MANY)))
        for first in range(0, len(read_places), 50):
            places = read_places[first : first + 50]
            each = f"for (const at of {json.dumps([*places])}) got.push(await readClass(at, {json.dumps(is_whole)}));"
            read = browser.run(f"(async () => {{ const got = []; {each} return got; }})()")
            for at, got in zip(places, read, strict=True):
                self.counts["classes"] += 1
                self.counts["cells"] += sum(len(cells) for _head, cells in got["rows"])
                self.compare(f"{page}, class {at + 1}", as_json(wanted.of_class(at, is_whole)) | {"misplaced": []}, sorted_locks(got))
        for text in [*browser.wrong(), *(f"asks for {one}" for one in browser.asked_for()), *browser.run(NAMELESS)]:
            self.wrong(page, text)
        if browser.run("'broken' in window"):
            self.wrong(page, "a text of the spec has run")

    def compare(self, page, want, got):
        text = differing(want, got)
        if text:
            self.wrong(page, text)

    # what is looked at once

    def policy(self, path):
        """A script and a style that are put into the page are refused."""
        self.browser.open(path)
        ran = "(() => { for (const [tag, text] of [['script', 'window.broken = 9'], ['style', 'body { display: none }']]) "
        ran += "{ const one = document.createElement(tag); one.textContent = text; document.body.append(one); } return 'broken' in window; })()"
        if self.browser.run(ran) or len(self.browser.wait_for("refused.length > 1 && refused")) != 2:
            self.wrong("policy", "a script or a style that is put into the page is taken")

    def contrast(self, path):
        """Texts stand out in both themes, whatever is picked and pressed."""
        self.browser.open(path)
        press = "document.querySelector('[data-letter=W]').click()"
        steps = [*(f"document.getElementById('class-{at}')?.click()" for at in (0, 2, 5)), "document.querySelector('#moments td').focus()", press, press]
        for theme in ("dark", "light"):
            self.browser.run("(document.getElementById('theme').click(), 1)")
            for step in steps:
                self.browser.run(f"({step}, 1)")
                for text in self.browser.run(CONTRAST % LEAST_CONTRAST):
                    self.wrong(f"{theme} theme", f"does not stand out: {text}")

    def reach(self, keys):
        """What has the focus behind each press of a key."""
        for key in keys:
            self.browser.key(key)
            yield self.browser.run(FOCUSED)

    def keys(self, path):
        """Keys alone reach everything, and do what they are said to do."""
        browser = self.browser
        browser.open(path)
        controls = browser.run(CONTROLS)
        tabs = [*self.reach(["Tab"] * (len(controls) + 2))]
        missing = {*controls, "class-0", "0,0"} - {*tabs}
        if missing:
            self.wrong("keys", f"Tab does not reach {missing}: {tabs}")
        # From the cell back to the classes, and on from there.
        end = browser.run("document.querySelectorAll('#rows tr').length - 1")
        steps = [("Escape", "class-0"), ("ArrowDown", "class-1"), ("ArrowUp", "class-0"), ("End", f"class-{end}"), ("Home", "class-0"), ("PageDown", f"class-{min(10, end)}")]
        steps += [("PageUp", f"class-{max(0, min(10, end) - 10)}"), ("ArrowDown", "class-1"), ("Enter", "0,0"), ("ArrowRight", "0,1"), ("ArrowDown", "1,1"), ("ArrowLeft", "1,0")]
        steps += [("ArrowUp", "0,0"), ("ArrowUp", "0,0"), ("Escape", "class-1")]
        browser.run("(document.querySelector('#moments td').focus(), 1)")
        for (key, want), got in zip(steps, self.reach(key for key, _want in steps)):
            if want != got:
                self.wrong("keys", f"{key} leads to {got}, not to {want}")
        if browser.run("document.querySelector('[aria-selected=true]').id + document.getElementById('what').textContent") != f"class-1Class 2 of {end + 1}":
            self.wrong("keys", "the class with the focus is not the one that is shown")
        # A filter, by the bar of blanks: with, without, either. The focus stays on it.
        browser.run("(document.querySelector('[data-letter=W]').focus(), 1)")
        counts = []
        for _press in range(3):
            browser.key(" ")
            counts.append(browser.run("document.querySelectorAll('#rows tr').length"))
        if counts[0] + counts[1] != counts[2] or not all(counts) or browser.run(FOCUSED) != "W":
            self.wrong("keys", f"a filter shows {counts} classes")
        browser.run("(document.getElementById('by-size').focus(), 1)")
        browser.key("Enter")
        counted = browser.run("[...document.querySelectorAll('#rows tr')].map(one => Number(one.cells[2].textContent.split(' ')[0].replace(/,/g, '')))")
        if counted != sorted(counted, reverse=True) or browser.run("document.getElementById('by-size').parentElement.getAttribute('aria-sort')") != "descending":
            self.wrong("keys", "classes do not stand by their size")

    def link(self, path):
        """A link opens its class, and picking a class makes one."""
        self.browser.open(path, "#class=3")
        if self.browser.run("document.getElementById('what').textContent").split()[1] != "3":
            self.wrong("link", "does not open its class")
        self.browser.run("(document.getElementById('class-1').click(), 1)")
        try:
            self.browser.wait_for("location.hash === '#class=2'", 5)
        except BrowserFault:
            self.wrong("link", "is not made of a class that is picked")

    def absent(self, path, wanted, kept):
        """Of a class whose moments are not in the page it tells the command that prints them, and final rows."""
        front, *orders = path.read_bytes().split(BETWEEN)
        back = orders[-1][orders[-1].index(b"</script>") :]
        short = path.with_suffix(".short.html")
        short.write_bytes(BETWEEN.join([front, *orders[:kept]]) + back)
        self.browser.open(short, f"#class={kept + 1}")
        self.browser.run(READING)
        read = self.browser.run(f"readClass({kept}, false)")
        told = self.browser.run("document.getElementById('absent').textContent")
        if not told.endswith(f"isofarm show {wanted.name} {wanted.classes[kept]['first_rank']}") or read["rows"]:
            self.wrong("absent", f"of a class without moments it tells {told}")
        left = [
            [f"final rows of {table['table']}", [["", [[one, False, ""] for one in values_of(row)]] for row in table["rows"]], ""]
            for table in wanted.classes[kept]["final_rows"]
        ]
        self.compare("absent", as_json(left), read["tables"])
        if self.browser.run(f"readClass({kept - 1}, false)")["rows"] == [] or self.browser.run("!document.getElementById('absent').hidden"):
            self.wrong("absent", "of a class with moments there are none")

    def heard(self, path):
        """One who does not see the page is told of grids, heads, cells and buttons, each with its name."""
        self.browser.open(path)
        nodes = self.browser.accessible()
        roles = Counter(node["role"] for node in nodes)
        for role in ("grid", "gridcell", "columnheader", "rowheader", "row", "button"):
            if not roles[role]:
                self.wrong("accessibility", f"there is no {role}")
        for node in nodes:
            if node["role"] in ("grid", "columnheader", "rowheader", "button", "group", "region") and not node["name"].strip():
                self.wrong("accessibility", f"a {node['role']} has no name")


# ---- pages


def specs(seed, seeds):
    """A name, the bytes of a spec, and the words of a page."""
    for path in sorted(SPECS.glob("*.spec")) + sorted((TOP / "examples").glob("*.spec")):
        for words in [[], *OF_EXAMPLES.get(path.stem, [])]:
            yield path.name, path.read_bytes(), words
    for kind in MORE:
        made = 0
        for number_of in range(seed, seed + 20 * seeds):
            text = MORE[kind](Maker(number_of))
            if made < seeds and is_small(text):
                made += 1
                yield f"{kind}-{number_of}.spec", text, []


def is_small(text):
    """Whether a text is a spec with few orders and classes."""
    try:
        asking = Asking(text)
        return asking.spec.ranks() <= 500 and 1 < len(asking.classes(False).all) <= MOST_CLASSES
    except Refusal:
        return False


def assembled(program, folder, name, text, words):
    (folder / name).write_bytes(text)
    ran = subprocess.run([MAKE, "page", name, *words], cwd=folder, env={**os.environ, "ISOFARM": str(program)}, capture_output=True, check=False)
    if ran.returncode:
        raise SystemExit(f"page/make: {name}: {ran.stderr.decode()}")
    path = folder / f"{name}{''.join(words)[:40]}.html".replace("/", "_").replace(" ", "_")
    path.write_bytes(ran.stdout)
    return path


def page_of(program, folder, name, text, words):
    """What a page is called, where it lies, and what it has to show."""
    return " ".join([name, *words]), assembled(program, folder, name, text, words), Wanted(text, name, words)


def read_in(kind, pages, seed):
    """Reads all pages in a browser of a kind."""
    paths = {page: path for page, path, _wanted in pages}
    hostile, deadlock, many = paths["hostile.spec"], paths["deadlock.spec"], paths["many.spec"]
    asked = paths["deadlock.spec " + " ".join(OF_EXAMPLES["deadlock"][2])]
    with kind() as browser:
        reading = Reading(browser, seed)
        for page, path, wanted in pages:
            reading.read(page, path, wanted)
        reading.policy(hostile)
        reading.absent(deadlock, next(wanted for page, _path, wanted in pages if page == "deadlock.spec"), 4)
        reading.link(deadlock)
        for path in (deadlock, asked):
            reading.keys(path)
        for path in (deadlock, asked, many):
            reading.contrast(path)
        if kind is Chromium:
            reading.heard(deadlock)
    return reading


def main(program, seed, seeds):
    browsers = there()
    if not browsers:
        print("0 pages: there is no browser here")
        return 0
    with TemporaryDirectory() as name, ThreadPoolExecutor(len(browsers)) as pool:
        pages = [page_of(Path(program).resolve(), Path(name), *one) for one in specs(seed, seeds)]
        readings = [*pool.map(lambda kind: read_in(kind, pages, seed), browsers)]
    found = sum(len(reading.found) for reading in readings)
    counts = sum((reading.counts for reading in readings), Counter())
    told = ", ".join(f"{counts[word]} {word}" for word in ("pages", "classes", "cells"))
    print(f"{told} in {' and '.join(one.name for one in browsers)}, {found} differences")
    return 1 if found else 0


if __name__ == "__main__":
    if not 2 <= len(sys.argv) <= 4:
        sys.exit(__doc__)
    sys.exit(ended(main, sys.argv[1], int(sys.argv[2]) if len(sys.argv) > 2 else fresh_seed(), int(sys.argv[3]) if len(sys.argv) > 3 else 2))
