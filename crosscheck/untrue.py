"""Makes lawful books that say something else than the one they are made of, from a random source.

Each call of `UNTRUE` takes the source, and the text of the spec and the facts of a book, and gives such a text and facts. A reader
takes them. Whether they are true, and what they report, is for an audit and a report to say.
"""

import json
import re

from binding import bind
from books import compact, leads_to, values
from refusal import Refusal
from spec_file import read_spec

U64 = 2**64
RANKS_LOOKED_AT = 20
ENDED = [b"COMMIT", b"ROLLBACK"]


def spec_of(text):
    return bind(read_spec(text))


# ---- facts that a reader takes


def any_event(random, spec, session):
    """An event that a transcript of the session may have by its form."""
    step = random.choice([step for step, (owner, _statements) in enumerate(spec.steps) if owner == session])
    shown = [0, -1, 2**63 - 1, -(2**63), "", "it's", "a|b\n", '"\\/\t\x01\x7f', "é\u2028\U0001f600"]
    row = random.sample(shown, random.randrange(4))
    counts = [[word, random.choice([0, 1, U64 - 1])] for word in ("rows", "inserted", "updated", "deleted")]
    plain = ["began", "committed", "rolledback", "locked", "set", "waiting", "resumed", "done"]
    numbered = [["warned", random.randint(1, 2)], ["failed", random.randint(1, 5)], ["sent", step], ["notsent", step]]
    return random.choice([*plain, *counts, *numbered, ["row", row], ["row", row]])


def any_outcome(random, spec):
    sessions = range(len(spec.session_names))
    return [[any_event(random, spec, session) for _ in range(random.randrange(5))] for session in sessions]


def falling_places(spec, rank):
    return [place for place in range(len(spec.steps)) if leads_to(spec, rank, place) is not None]


def false_fact(random, spec, outcomes):
    """A fact that a reader takes, of a rank at the front or anywhere: an outcome of any rank or of none, or a swap of any steps."""
    rank = random.choice([0, min(1, spec.ranks() - 1), random.randrange(spec.ranks())])
    places = falling_places(spec, rank)
    if places and random.random() < 0.5:
        return rank, "swap", random.choice(places)
    if outcomes and random.random() < 0.5:
        return rank, "ran", random.choice(outcomes)
    return rank, "ran", compact(any_outcome(random, spec)).encode()


# ---- one fact in the place of another


def outcomes_of(facts):
    return sorted({value for _rank, word, value in facts if word == "ran"})


def some_fact(random, facts):
    """A fact at an end or anywhere. There is one."""
    in_order = sorted(facts)
    return random.choice([in_order[0], in_order[-1], random.choice(in_order), random.choice(in_order)])


def without(facts, rank):
    return {fact for fact in facts if fact[0] != rank}


def with_one_more(random, text, facts):
    return text, facts | {false_fact(random, spec_of(text), outcomes_of(facts))}


def with_one_lost(random, text, facts):
    return text, facts - {some_fact(random, facts)}


def with_another_outcome(random, text, facts):
    """A rank that has the outcome of another one in the place of all its facts, where there is one."""
    rank, _word, value = some_fact(random, facts)
    others = [outcome for outcome in outcomes_of(facts) if outcome != value]
    return text, without(facts, rank) | {(rank, "ran", random.choice(others))} if others else facts


def with_another_event(random, text, facts):
    """An outcome with an event more, one less or another one: at one rank, or wherever a fact names it."""
    outcomes = outcomes_of(facts)
    if not outcomes:
        return with_one_more(random, text, facts)
    old = random.choice(outcomes)
    told = json.loads(old)
    session = random.randrange(len(told))
    place = random.randint(0, len(told[session]))
    events = random.choice([[], [any_event(random, spec_of(text), session)]])
    told[session][place : place + random.randint(0, 1)] = events
    named = sorted(fact for fact in facts if fact[2] == old)
    named = named if random.random() < 0.5 else random.sample(named, 1)
    return text, facts - {*named} | {(rank, "ran", compact(told).encode()) for rank, _word, _value in named}


def with_another_swap(random, text, facts):
    """A fact in whose place a rank is told by a swap of any letters that fall."""
    fact = some_fact(random, facts)
    places = [place for place in falling_places(spec_of(text), fact[0]) if place != fact[2]]
    return text, facts - {fact} | {(fact[0], "swap", random.choice(places))} if places else facts


def led_astray(random, text, facts):
    """A rank that is told by nothing but a swap, which leads to a rank with another outcome, where there is one."""
    spec, told = spec_of(text), values(spec_of(text), facts)
    ranks = sorted({fact[0] for fact in facts})
    for rank in random.sample(ranks, min(len(ranks), RANKS_LOOKED_AT)):
        for place in falling_places(spec, rank):
            lower = leads_to(spec, rank, place)
            if told.get(lower) and told[lower] != told[rank]:
                return text, without(facts, rank) | {(rank, "swap", place)}
    return with_another_outcome(random, text, facts)


def with_two_others(random, text, facts):
    """Two such changes, so that the least rank counts."""
    for change in random.choices([with_one_more, with_another_outcome, with_another_event, with_another_swap], k=2):
        text, facts = change(random, text, facts) if facts else with_one_more(random, text, facts)
    return text, facts


# ---- the same facts of another spec


def fits(text, facts):
    """Whether this is a spec of which facts of the same sessions, steps and ranks may be told."""
    try:
        number = spec_of(text).ranks()
    except Refusal:
        return False
    return all(rank < number for rank, _word, _value in facts)


def one_replaced(random, text, pattern, others):
    """A text with another word in one of the places where a pattern fits, if there is one."""
    places = [found.span() for found in re.finditer(pattern, text)]
    if not places:
        return text
    start, end = random.choice(places)
    return text[:start] + random.choice(others) + text[end:]


def of_a_changed_spec(random, text, facts):
    """A spec with another number, or with another end of a block: most facts are still true, or none."""
    for _ in range(RANKS_LOOKED_AT):
        number = one_replaced(random, text, rb"(?<=[ (])\d(?=[,); ])", [b"%d" % digit for digit in range(10)])
        other = random.choice([number, one_replaced(random, text, rb"COMMIT|ROLLBACK", ENDED), one_replaced(random, text, rb"BEGIN", ENDED)])
        if other != text and fits(other, facts):
            return other, facts
    return of_a_refused_start(random, text, facts)


def of_a_refused_start(_random, text, facts):
    """A spec that does not start, since its first setup leaves a block open. No fact of it is true."""
    return b"setup { BEGIN; }\n" + text, facts


def as_it_is(_random, text, facts):
    return text, facts


UNTRUE = [with_one_more, with_one_lost, with_another_outcome, with_another_event, with_another_swap, led_astray, with_two_others]
UNTRUE += [of_a_changed_spec, of_a_refused_start, as_it_is]
