"""Makes files out of a book, from a random source: other spellings of it, and texts that are mostly no book any more.

Each call takes the source and the value of the book's JSON, and gives the bytes of a file. What one of `DAMAGES` makes may still be
a book: that is for a reader to say.
"""

import re
from functools import wraps

from binding import bind
from books import compact, leads_to
from spec_file import read_spec
from worked import empty_steps

BLANKS = ["", "", "", " ", "\n", "\t", "\r\n "]
NUMBERS = [0, 1, 2, 3, 5, 255, 256, 15_000_001, 30_000_000, 30_000_001]
NUMBERS += [2**63 - 1, 2**63, 2**64 - 2, 2**64 - 1, 2**64, -1, -(2**63) - 1]
VALUES = [*NUMBERS, 0.0, 1.5, True, None, "", "ran", "swap", "done", [], [[]], {}]
VALUES += [["sent", 0], ["row", []], ["row", [2**63]], ["rows", 2**64], ["failed", 5], ["failed", 6]]
# Shapes of no spec: one session more than there may be, and too many ranks.
NO_SPECS = [empty_steps([1] * 9), empty_steps([4] * 7)]
TOKENS = "[ ] { } , : 0 1 -0 01 1.0 1e0 1e400 18446744073709551615 18446744073709551616 -1 null true NaN Infinity".split(" ")
TOKENS += ['"', '""', '"ran"', '"swap"', '"done"', '"\\ud800"', '"\\ud83d\\ude00"', '"\\x41"', '"\x01"', "'ran'"]
TOKENS += ["\ufeff", "\x0b", "/**/"]
TOKEN = re.compile(r'"(?:[^"\\]|\\.)*"|[-+.\w]+|[^\w\s]')


def text_of(book):
    return f"{compact(book)}\n".encode()


# ---- the same book


def by_number(letter):
    """A letter by its number, or by the two that stand for it."""
    units = letter.encode("utf-16-be")
    return "".join(f"\\u{units[place : place + 2].hex()}" for place in range(0, len(units), 2))


def spelled_text(random, text):
    often = random.choice([0.0, 0.0, 0.05, 1.0])
    letters = [by_number(letter) if random.random() < often else compact(letter)[1:-1] for letter in text]
    return f'"{"".join(letters)}"'


def spelled_value(random, value):
    """A text of a value: blanks anywhere, members in any order, one of them twice, and letters by their numbers."""
    if isinstance(value, str):
        return spelled_text(random, value)
    if not isinstance(value, dict | list):
        return compact(value)
    blank = lambda: random.choice(BLANKS)
    if isinstance(value, list):
        items = [spelled_value(random, item) for item in value]
    else:
        members = random.sample(sorted(value.items()), len(value))
        hidden = [(name, random.choice(VALUES)) for name, _item in members[:1] if random.random() < 0.3]
        spelled_members = [(spelled_text(random, name), spelled_value(random, item)) for name, item in hidden + members]
        items = [f"{name}{blank()}:{blank()}{item}" for name, item in spelled_members]
    opening, closing = "[]" if isinstance(value, list) else "{}"
    return opening + ",".join(f"{blank()}{item}{blank()}" for item in items) + closing


def spelled(random, book):
    return f"{random.choice(BLANKS)}{spelled_value(random, book)}{random.choice(BLANKS)}".encode()


# ---- other bytes


def with_other_bytes(random, text):
    text = bytearray(text)
    for _ in range(random.choice([1, 1, 2, 3])):
        text[random.randrange(len(text))] = random.choice([random.randrange(256), *b'0123456789[]{},:"\\'])
    return bytes(text)


def with_a_flipped_bit(random, text):
    text = bytearray(text)
    text[random.randrange(len(text))] ^= 1 << random.randrange(8)
    return bytes(text)


def cut_off(random, text):
    return text[: random.choice([0, 1, len(text) - 2, len(text) - 1, random.randrange(len(text))])]


def cut_out(random, text):
    start, end = sorted(random.randrange(len(text)) for _ in range(2))
    return text[:start] + text[random.choice([start + 1, end]) :]


def grown(random, text):
    return text + random.choice([b"\n\n", b" ", b"\x00", b"\x0b", b"}", b",", b"null", text])


# What is done to the bytes of any file that has some.
DAMAGES_OF_BYTES = [with_other_bytes, with_a_flipped_bit, cut_off, cut_out, grown]


def of_bytes(damage):
    """The same, of the text of a book."""
    return wraps(damage)(lambda random, book: damage(random, text_of(book)))


def in_another_encoding(random, book):
    return text_of(book).decode().encode(random.choice(["utf-8-sig", "utf-16", "utf-16-le", "cp1252"]), "replace")


def too_deep(random, book):
    """Arrays in a member that no book has, about as deep as is read."""
    depth = random.choice([125, 126, 127, 128, 5000])
    return text_of(book)[:-2] + b',"deep":' + b"[" * depth + b"]" * depth + b"}\n"


def with_other_tokens(random, book):
    text = text_of(book).decode()
    for _ in range(random.choice([1, 1, 1, 2])):
        start, end = random.choice([found.span() for found in TOKEN.finditer(text)] or [(0, 0)])
        token = random.choice(["", text[start:end] * 2, f",{text[start:end]}", *[random.choice(TOKENS)] * 4])
        text = text[:start] + token + text[end:]
    return text.encode()


# ---- other members


def of_another_format(random, book):
    number = book["format"]
    formats = [0, 3, 4, 3 - number, 2**64 - 1, 2**64, -1, float(number), str(number), None, True, [number]]
    return text_of(book | {"format": random.choice(formats)})


def of_another_spec(random, book):
    text = book["spec"]
    cut = text[: random.randrange(len(text) + 1)]
    lines = f"{text}\npermutation s0_0"
    others = ["", cut, text + "\n", "\n" + text, lines, text + " session extra step extra {}", "session a step s {}"]
    return text_of(book | {"spec": random.choice([*others, random.choice(NO_SPECS)])})


def with_other_members(random, book):
    """A member lost, of another kind, of another name, or one too many; another value than an object."""
    name = random.choice(sorted(book))
    lost = {other: value for other, value in book.items() if other != name}
    value = random.choice(VALUES)
    books = [lost, book | {name: value}, lost | {name.upper(): book[name]}, book | {"more": value}]
    books += [book | {"outcomes": []}, {"format": 3}, {"format": 1}, {"format": 2}, [book], value]
    return text_of(random.choice(books))


def with_a_hidden_member(random, book):
    """A member before another one of its name, which hides it: it has to be JSON all the same."""
    value = random.choice([random.choice(TOKENS), '"\\ud800"', '[{"\\udc00":0}]'])
    return f'{{"{random.choice(sorted(book))}":{value},'.encode() + text_of(book)[1:]


def with_a_later_member(random, book):
    """A member behind another one of its name: the later one counts, and it may still be a book."""
    name = random.choice(sorted(book))
    lawful = {"facts": book["facts"][1:], "format": 3 - book["format"], "outcomes": [], "spec": f"\n{book['spec']}"}[name]
    value = random.choice([lawful, lawful, book[name], random.choice(VALUES)])
    return text_of(book)[:-2] + f',"{name}":{compact(value)}}}\n'.encode()


# ---- other facts


def changed(random, value):
    """A value with another one somewhere in it."""
    if not isinstance(value, list) or not value or random.random() < 0.1:
        return random.choice(VALUES)
    place, kind = random.randrange(len(value)), random.random()
    if kind < 0.1:
        return value[:place] + value[place + 1 :]
    if kind < 0.2:
        return value[:place] + [random.choice([value[place], random.choice(VALUES)])] + value[place:]
    return value[:place] + [changed(random, value[place])] + value[place + 1 :]


def with_a_changed_fact(random, book):
    return text_of(book | {"facts": changed(random, book["facts"])})


def with_a_changed_outcome(random, book):
    if book["format"] == 1:
        return with_a_changed_fact(random, book)
    return text_of(book | {"outcomes": changed(random, book["outcomes"])})


def with_another_number(random, book):
    """One of a fact's own numbers, or two, near what it was or far from it."""
    facts = [[*fact] for fact in book["facts"]]
    for fact in random.sample(facts, min(len(facts), random.choice([1, 1, 2]))):
        places = [place for place, value in enumerate(fact) if isinstance(value, int)]
        for place in random.sample(places, random.choice([1, 1, len(places)])):
            fact[place] = random.choice([fact[place] + 1, fact[place] - 1, random.choice(NUMBERS)])
    return text_of(book | {"facts": facts})


def reordered(random, items):
    """Items in another order, one of them lost, or one of them twice."""
    if not items:
        return items
    place, other = (random.randrange(len(items)) for _ in range(2))
    exchanged = [*items]
    exchanged[place], exchanged[other] = items[other], items[place]
    twice = items[: other + 1] + [items[place]] + items[other + 1 :]
    lost = items[:place] + items[place + 1 :]
    return random.choice([exchanged, twice, lost, items[::-1], random.sample(items, len(items))])


def with_facts_in_another_order(random, book):
    return text_of(book | {"facts": reordered(random, book["facts"])})


def with_outcomes_in_another_order(random, book):
    if book["format"] == 1:
        return with_facts_in_another_order(random, book)
    return text_of(book | {"outcomes": reordered(random, book["outcomes"])})


def with_cut_runs(random, book):
    """A run in two parts that touch, overlap or leave a gap, side by side or each in its place."""
    if book["format"] == 1 or not book["facts"]:
        return with_facts_in_another_order(random, book)
    some = random.sample(range(len(book["facts"])), min(len(book["facts"]), 3))
    place = max(some, key=lambda place: book["facts"][place][1])
    first, count, word, number = book["facts"][place]
    cut = random.randint(0, count)
    begin = first + cut + random.choice([0, 0, -1, 1])
    parts = [[first, cut, word, number], [begin, first + count - begin, word, number]]
    facts = book["facts"][:place] + parts + book["facts"][place + 1 :]
    in_order = sorted(facts, key=lambda run: (run[0], *run[2:]))
    return text_of(book | {"facts": random.choice([facts, in_order])})


def with_a_longer_run(random, book):
    """A run with some ranks more at its front or its end, of which not all need to lead to where it does."""
    if book["format"] == 1 or not book["facts"]:
        return with_another_number(random, book)
    place = random.randrange(len(book["facts"]))
    first, count, word, number = book["facts"][place]
    before, behind = random.choice([(0, 1), (0, 3), (0, 20), (min(1, first), 0)])
    run = [first - before, before + count + behind, word, number]
    return text_of(book | {"facts": book["facts"][:place] + [run] + book["facts"][place + 1 :]})


def with_a_hostile_run(random, book):
    """A run of ranks that are none or are too many, beside the others or in the place of one."""
    if book["format"] == 1:
        return with_another_number(random, book)
    facts, place = book["facts"], random.randint(0, len(book["facts"]))
    first, _count, word, number = random.choice(facts or [[0, 1, "swap", 0]])
    count = random.choice([2**64 - 1, 30_000_001, 30_000_000, random.choice(NUMBERS)])
    run = [random.choice([first, first, random.choice(NUMBERS)]), count, word, number]
    return text_of(book | {"facts": facts[:place] + [run] + facts[place + random.randint(0, 1) :]})


def in_order(facts):
    """Facts by their ranks, those that ran first, and then by what they name."""
    named = lambda value: value if isinstance(value, int) else compact(value).encode()
    return sorted(facts, key=lambda fact: (fact[0], fact[-2], named(fact[-1])))


def with_a_swap_that_leads_nowhere(random, book):
    """A swap in its place among the facts, of letters that do not fall or that are not there."""
    spec = bind(read_spec(book["spec"].encode()))
    rank = random.choice([0, spec.ranks() - 1, random.randrange(spec.ranks())])
    places = [place for place in (*range(30), 254, 255) if leads_to(spec, rank, place) is None]
    swap = [rank, "swap", random.choice(places)] if book["format"] == 1 else [rank, 1, "swap", random.choice(places)]
    return text_of(book | {"facts": in_order([*book["facts"], swap])})


def of_other_sessions(random, outcome):
    """An outcome whose sessions are exchanged, or one of them lost or twice, one that is not there, or steps that are none of its own."""
    steps = [event for events in outcome for event in events if event[0] in ("sent", "notsent")]
    place = random.randrange(len(outcome))
    told = [*outcome[place], *random.sample(steps, min(len(steps), 1))]
    return random.choice([reordered(random, outcome), [*outcome, []], outcome[:place] + [told] + outcome[place + 1 :]])


def with_an_outcome_of_other_sessions(random, book):
    outcomes = book["outcomes"] if book["format"] == 2 else [fact[2] for fact in book["facts"] if fact[1] == "ran"]
    if not outcomes:
        return with_another_number(random, book)
    outcome = random.choice(outcomes)
    other = of_other_sessions(random, outcome)
    if book["format"] == 2:
        return text_of(book | {"outcomes": [other if one is outcome else one for one in outcomes]})
    return text_of(book | {"facts": [[other if value is outcome else value for value in fact] for fact in book["facts"]]})


DAMAGES = [*map(of_bytes, DAMAGES_OF_BYTES), in_another_encoding, too_deep, with_other_tokens]
DAMAGES += [of_another_format, of_another_spec, with_other_members, with_a_hidden_member, with_a_later_member]
DAMAGES += [with_a_swap_that_leads_nowhere, with_an_outcome_of_other_sessions]
DAMAGES += [with_a_changed_fact, with_a_changed_outcome, with_another_number, with_facts_in_another_order]
DAMAGES += [with_outcomes_in_another_order, with_cut_runs, with_a_longer_run, with_a_hostile_run]
