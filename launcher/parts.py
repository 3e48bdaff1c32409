"""Cuts a module, as LLVM's text, into parts that are compiled side by side.

usage: python3 parts.py PREFIX CRATES.TXT < MODULE

Writes PREFIX0.ll, PREFIX1.ll and PREFIX2.ll. What `main` does not reach is left out. Of functions that do the same to the letter, but for the names of what they
call, which do the same in turn, one stands for all: generic functions are there once for each type, and of most types many do the same. The first part has the
crates that run orders, so that what is called most often is optimized as a whole, and the others have half of the rest each. A function that is
generic or short is in each part that names it; of any other one the other parts know the head. No function's address is compared with another's.
"""

import re
import sys

# The crates of the first part are those that these stand on, but for those that the reader of specs stands on and the walk does not; and of the kit's crates
# all but these.
RUNS, READS, WALKS = ["book_audit", "book_files", "spec_classes"], "spec_binding", "step_reducer"
NOT_OF_KIT = {"clap", "json", "serde_json"}
PARTS = 3
# A function of so many lines at most is short.
SHORT = 100
NAME = re.compile(r'@("(?:[^"\\]|\\.)*"|[\w.$-]+)')
CHANGING = re.compile(r"(@\S+) = private global (.*) zeroinitializer(, align \d+)$")
FUNCTION = re.compile(r"^define [^\n]*\{\n.*?^\}\n", re.MULTILINE | re.DOTALL)


class Module:
    """The functions of a module, each by its name with the pieces of its text between names, and the names; what stands between functions, by lines; and the
    names that a global has in it."""

    def __init__(self, text):
        self.functions, self.rest, end = {}, [], 0
        for place in FUNCTION.finditer(text):
            pieces = NAME.split(place[0])
            self.functions[pieces[1]] = pieces[0::2], pieces[1::2]
            self.rest += text[end : place.start()].splitlines()
            end = place.end()
        self.rest += text[end:].splitlines()
        self.globals = {names[0]: names[1:] for names in (NAME.findall(line) for line in self.rest if line.startswith("@"))}

    def names_in(self, name):
        return self.functions[name][1] if name in self.functions else self.globals.get(name, ())

    def reached(self, roots, ends=frozenset()):
        """What these name, and what that names in turn, but for what stands behind the ends."""
        seen, left = set(), [*roots]
        while left:
            name = left.pop()
            if name not in seen:
                seen.add(name)
                left += () if name in ends else self.names_in(name)
        return seen

    def merge(self):
        """Lets one function stand for all that do the same: these are told apart by their text, and then again and again by what they name."""
        names, texts = self.reached(["main"]), {}
        names = [name for name in self.functions if name in names]
        number = {name: texts.setdefault(tuple(self.functions[name][0]), len(texts)) for name in names}
        count, kinds = 0, texts
        while count != len(kinds):
            count, kinds = len(kinds), {}
            told = {name: (number[name], *("" if it == name else number.get(it, it) for it in self.functions[name][1])) for name in names}
            number = {name: kinds.setdefault(told[name], len(kinds)) for name in names}
        first = {}
        one_of = {name: first.setdefault(number[name], name) for name in names}
        self.rest = [NAME.sub(lambda it: f"@{one_of.get(it[1], it[1])}", line) for line in self.rest]
        self.functions = {name: (self.functions[name][0], [one_of.get(it, it) for it in self.functions[name][1]]) for name in first.values()}
        self.globals = {name: [one_of.get(it, it) for it in names] for name, names in self.globals.items()}


def crate_of(name):
    return name.strip('"').split("::")[0]


def deps_of(crates):
    """The crates of crates.txt in their order, each with those that it names."""
    with open(crates, encoding="utf-8") as file:
        lines = [line.partition("#")[0].partition(":") for line in file]
    return {name.split()[0]: words.split() for name, colon, words in lines if colon}


def below(deps, crate):
    return {crate}.union(*(below(deps, it) for it in deps.get(crate, ())))


def homes_of(module, deps):
    """The part of each function that has one."""
    runs, order = set().union(*(below(deps, it) for it in RUNS)), {crate: place for place, crate in enumerate(deps)}
    first = runs - (below(deps, READS) - below(deps, WALKS))
    lines = {name: sum(piece.count("\n") for piece in pieces) for name, (pieces, _names) in module.functions.items()}
    homes, others = {}, []
    for name in module.functions:
        if name == "main" or "<#" not in name and lines[name] > SHORT:
            crate = crate_of(name)
            if crate in first or crate not in order and crate not in NOT_OF_KIT:
                homes[name] = 0
            else:
                others.append((order.get(crate, len(order)), name))
    whole, so_far = sum(lines[name] for _place, name in others), 0
    for _place, name in sorted(others):
        homes[name] = 1 + so_far * (PARTS - 1) // whole
        so_far += lines[name]
    return homes


def text_of(name, pieces, names):
    return "".join(f"{piece}@{it}" for piece, it in zip(pieces, [name, *names[1:]])) + pieces[-1]


def line_of(line, part):
    """A line between functions as a part has it: what may change has its place in the first one. What never changes is in each."""
    changes = CHANGING.match(line)
    if changes is None:
        return line
    name, kind, align = changes.groups()
    return f"{name} = external hidden global {kind}{align}" if part else f"{name} = hidden global {kind} zeroinitializer{align}"


def text_in(module, name, home, part, is_shared):
    """A function as a part has it: whole in the part that it has, or where it is generic, and else its head."""
    text = text_of(name, *module.functions[name])
    if is_shared:
        text = text.replace("define internal ", "define hidden ", 1)
    if home in (None, part):
        return text
    return text[: text.index("\n")].removesuffix(" {").replace("define ", "declare ", 1) + "\n"


def parts_of(module, homes):
    """The text of each part."""
    own = [{name for name, home in homes.items() if home == part} for part in range(PARTS)]
    found = [module.reached(names, homes.keys() - names) for names in own]
    shared = {name for names, of_part in zip(found, own) for name in names if name in homes and name not in of_part}
    for part, names in enumerate(found):
        lines = [f"{line_of(line, part)}\n" for line in module.rest]
        yield "".join(lines + [text_in(module, name, homes.get(name), part, name in shared) for name in module.functions if name in names])


def main(prefix, crates):
    module = Module(sys.stdin.read())
    module.merge()
    if any(" global " in line and not CHANGING.match(line) for line in module.rest if line.startswith("@")):
        sys.exit("parts.py: there is a global that changes and does not begin with zeros")
    for part, text in enumerate(parts_of(module, homes_of(module, deps_of(crates)))):
        with open(f"{prefix}{part}.ll", "w", encoding="utf-8") as file:
            file.write(text)


if __name__ == "__main__":
    main(*sys.argv[1:])
