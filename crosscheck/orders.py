"""Orders by the names of their steps: their text, their ranks, and what is wrong with those that have none.

An order is refused by the first name that no step has; where the file has no permutation lines by the first step that was sent before, or
before which an earlier one of its session was not sent, and then by the first step that is left out; else as none of the lines.
"""

import re

from facts import ranks_with

PLAIN = re.compile("[A-Za-z_\x80-\U0010ffff][A-Za-z_\x80-\U0010ffff0-9$]*")
KEYWORDS = {"notices", "permutation", "session", "setup", "step", "teardown"}


class NoOrder(Exception):
    """What is wrong with an order, in words."""


def spelled(name):
    """A name as a spec file has it."""
    return name if PLAIN.fullmatch(name) and name not in KEYWORDS else '"' + name.replace('"', '""') + '"'


def order_text(spec, rank):
    return " ".join(spelled(spec.step_names[step]) for step in spec.line(rank)) + "\n"


def quoted(name):
    """A name as a fault line has it."""
    escapes = {'"': '\\"', "\\": "\\\\", "\t": "\\t", "\r": "\\r", "\n": "\\n", "\0": "\\0", "'": "'"}
    return '"' + "".join(escapes.get(one, one if one.isprintable() else f"\\u{{{ord(one):x}}}") for one in name) + '"'


def step_named(spec, name):
    if name not in spec.step_names:
        raise NoOrder(f"no step {quoted(name)}")
    return spec.step_names.index(name)


def before(spec, step):
    """The earlier steps of a step's session."""
    return [other for other in range(step) if spec.steps[other][0] == spec.steps[step][0]]


def rank_of(spec, names):
    """The least rank at which the steps of these names are sent in this order."""
    steps = [step_named(spec, name) for name in names]
    if spec.lines is not None:
        if steps not in spec.lines:
            raise NoOrder("no such line")
        return spec.lines.index(steps)
    for place, step in enumerate(steps):
        sent, name = steps[:place], quoted(names[place])
        if step in sent:
            raise NoOrder(f"step {name} twice")
        for due in before(spec, step):
            if due not in sent:
                raise NoOrder(f"step {name} before {quoted(spec.step_names[due])}")
    for step, name in enumerate(spec.step_names):
        if step not in steps:
            raise NoOrder(f"step {quoted(name)} left out")
    return ranks_with(spec, [spec.steps[step][0] for step in steps]).start


def orders(random, spec):
    """Orders of names, most of which are spoilt."""
    names = [spec.step_names[step] for step in spec.line(random.randrange(spec.ranks()))]
    yield names
    other = [*names]
    random.shuffle(other)
    yield other
    yield names[: random.randrange(1, len(names) + 1)]
    place = random.randrange(len(names) + 1)
    yield names[:place] + [random.choice(spec.step_names)] + names[place:]
    yield names[:place] + [random.choice(["x9", "A1", names[0] + "x", names[0].upper()])] + names[place:]
