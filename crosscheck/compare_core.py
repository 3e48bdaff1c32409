"""Compares what the module of a page answers, run in Node, with what the program prints, byte for byte.

usage: python3 crosscheck/compare_core.py WASM FIRST_SEED SEEDS [KIND]

Asked are `check`, the number of orders, some orders and one that is none, and classes and results, of the
examples, of specs made from so many seeds of each kind, and of a text of each with something wrong. Of a spec with many orders some are made permutation
lines. A module that has too little memory says so, is asked again, and answers as the program does once it has enough. WASM is what `page/core/make` has made, or `make`: then it is made first, or `compiled`: without a proof.
The program is the built one, or the one whose path stands in the variable ISOFARM. The last lines count what was answered.
"""

import json
import re
import subprocess
import sys
from base64 import b64encode
from collections import Counter
from pathlib import Path
from random import Random
from tempfile import TemporaryDirectory

from compare import PROGRAM, ended
from compare_classes import CLASS_KINDS, specs_made, with_few_orders
from generate import STRAY
from levels import WHY

TOP = Path(__file__).resolve().parent.parent
NAMES = ["a.spec", "é \"<b>&.spec", "two\nlines.spec"]
DAMAGED, ORDERS, MOST_ORDERS, LINES_TOLD = 1, 2, 2_000, 5
# A module that stops in its first call, which is for room, and what a core tells from then on.
STOPS = bytes.fromhex("0061736d0100000001060160017e017f03020100070d0109706167655f726f6f6d00000a05010300000b")
STOPPED = {"answer": {"fault": "trap", "kind": 0, "place": 0}, "spent": True}
LEAST_MEMORY, MEMORY_STEP, MOST_MEMORY = 4 << 20, 1 << 14, 64 << 20


def damaged(random, text):
    """The text with something else at a place, or less there."""
    begin = random.randrange(len(text) + 1)
    end = min(len(text), begin + random.choice([0, 0, 1, 1, 2, 5, 40]))
    return text[:begin] + random.choice([b"", b"", random.choice(STRAY).encode(), bytes([random.randrange(256)])]) + text[end:]


def line_of(fault, name):
    """The line that the program tells of a fault."""
    where = f"isofarm: {name}: "
    if fault["fault"] in {"spec", "sql", "bind", "start"}:
        return f"{where}{fault['fault']} error {fault['kind']} at {fault['place']}\n"
    if fault["fault"] == "states":
        return f"{where}too many different states: more than {fault['place']}; classes --sample N looks at random orders\n"
    if fault["fault"] == "level":
        return f"{where}{WHY[fault['kind']]} (line {fault['place']})\n"
    return {"range": f"{where}rank out of range\n", "memory": "isofarm: no memory\n"}.get(fault["fault"], str(fault))


class Core:
    """A module in Node."""

    def __init__(self, wasm):
        words = ["node", str(TOP / "crosscheck/core_asked.js"), str(wasm)]
        self.node = subprocess.Popen(words, stdin=subprocess.PIPE, stdout=subprocess.PIPE)

    def told(self, value):
        self.node.stdin.write(json.dumps(value).encode() + b"\n")
        self.node.stdin.flush()
        return json.loads(self.node.stdout.readline())

    def tell(self, value):
        told = self.told(value)
        if told["spent"]:
            raise RuntimeError(f"the module is spent by {json.dumps(value)[:2000]}")
        return told["answer"]

    def renew(self, memory=0):
        self.tell({"memory": memory})

    def ask(self, call, text, *more):
        return self.tell({"call": call, "spec": b64encode(text).decode(), "more": more})


class Comparison:
    def __init__(self, wasm, folder):
        self.core, self.folder = Core(wasm), Path(folder)
        self.counts, self.differences = Counter(), 0

    def run(self, *words):
        """What the program writes: on standard output, or the line of a fault."""
        ran = subprocess.run([PROGRAM, *words], cwd=self.folder, capture_output=True, check=False)
        return (ran.stdout if ran.returncode in {0, 1} else ran.stderr).decode()

    def look(self, where, call, answer, want):
        """Compares a text or a fault with what the program told."""
        self.counts[f"{call}: {'a text' if isinstance(answer, str) else answer['fault']}"] += 1
        name = where[0]
        self.same(where, call, answer if isinstance(answer, str) else line_of(answer, name), want)

    def same(self, where, call, answer, want):
        if answer != want:
            self.differences += 1
            if self.differences <= LINES_TOLD:
                print(f"{where[1]}, {call}: {answer!r:.400} and not {want!r:.400}", flush=True)

    def check(self, where, name, text):
        answer, want = self.core.ask("check", text, name), self.run("check", name)
        if "text" not in answer:
            return self.look(where, "check", answer, want)
        self.counts["check: faults" if answer["faults"] else "check: none"] += 1
        self.same(where, "check", answer["text"], want)
        # Each fault stands where the text says it, and the first at the place of its line.
        begin = len(name) + 1
        told = [one[begin:] for one in re.findall(rf"^(?:also )?({re.escape(name)}:\d+:\d+)$", want, re.MULTILINE)]
        self.same(where, "places of check", [f"{fault['line']}:{fault['column']}" for fault in answer["faults"]], told)
        for fault in answer["faults"][:1]:
            if text.isascii():
                self.same(where, "the first place", f"{fault['place']}", re.search(r" at (\d+)\n", want)[1])
        return None

    def orders(self, where, name, text, random):
        """The number of orders, and some of them."""
        number, want = self.core.ask("ranks", text), self.run("count", name)
        if isinstance(number, dict):
            self.look(where, "ranks", number, want)
            ranks = [0]
        else:
            self.counts["ranks: a number"] += 1
            self.same(where, "ranks", f"{number}\n", want)
            number = int(number)
            ranks = sorted({*(random.randrange(number) for _ in range(ORDERS)), number - 1}) + [number] * (random.random() < 0.3) if number else [0]
        for rank in ranks:
            self.look(where, "show", self.core.ask("show", text, str(rank), name), self.run("show", name, str(rank), "--json"))

    def classes(self, where, name, text):
        """Classes, unless the text was damaged so that there are too many orders for them."""
        number = self.core.ask("ranks", text)
        if not isinstance(number, dict) and int(number) > MOST_ORDERS:
            self.counts["classes: too many orders"] += 1
            return
        for words, flags in [({}, []), ({"byResult": True}, ["--by-result"])]:
            want = self.run("classes", name, "--json", *flags)
            self.look(where, "classes", self.core.ask("classes", text, name, words), want)

    def spec(self, where, text, random):
        name = random.choice(NAMES)
        (self.folder / name).write_bytes(text)
        self.check((name, where), name, text)
        self.orders((name, where), name, text, random)
        self.classes((name, where), name, text)

    def memory(self, text):
        """Asks for classes with more and more memory, and of a small spec behind each want of it."""
        small, name = (TOP / "examples/first.spec").read_bytes(), NAMES[0]
        (self.folder / name).write_bytes(text)
        want, orders = self.run("classes", name, "--json"), self.core.ask("ranks", small)
        refused = 0
        for memory in range(LEAST_MEMORY, MOST_MEMORY, MEMORY_STEP):
            self.core.renew(memory)
            answer = self.core.ask("classes", text, name, {})
            if isinstance(answer, str):
                break
            refused += 1
            self.same((name, "memory"), "classes", answer["fault"], "memory")
            again = self.core.ask("ranks", small)
            self.same((name, "memory"), "ranks behind it", again if isinstance(again, str) else again["fault"], orders if isinstance(again, str) else "memory")
            self.counts["memory: an answer behind it"] += isinstance(again, str)
        self.same((name, "memory"), "classes", answer, want)
        self.same((name, "memory"), "refusals", refused > 0, True)
        self.counts["memory: refused"] += refused
        self.core.renew()


def stopped(comparison, folder):
    """A core that was stopped says so, and so it does when it is asked again."""
    module = Path(folder, "stops.wasm")
    module.write_bytes(STOPS)
    core = Core(module)
    for call, more in (("ranks", []), ("check", [NAMES[0]])):
        comparison.same(("", "a module that stops"), call, core.told({"call": call, "spec": "", "more": more}), STOPPED)
    core.node.stdin.close()


def module_of(word):
    if word not in {"make", "compiled"}:
        return Path(word).resolve()
    words = [sys.executable, str(TOP / "page/core/make"), *(["--compiled"] if word == "compiled" else [])]
    subprocess.run(words, check=True, stdout=subprocess.DEVNULL)
    return TOP / "out/page/page.wasm"


def main(wasm, first, seeds, kinds):
    with TemporaryDirectory() as folder:
        comparison = Comparison(module_of(wasm), folder)
        for path in sorted((TOP / "examples").glob("*.spec")):
            comparison.spec(path.name, path.read_bytes(), Random(path.name))
        comparison.memory((TOP / "examples/deadlock.spec").read_bytes())
        stopped(comparison, folder)
        for kind in kinds:
            for name, seed, made in specs_made(kind, first, seeds):
                random, text = Random(seed), with_few_orders(made, seed, MOST_ORDERS)
                comparison.spec(f"{kind}, {name}", text, random)
                for number in range(DAMAGED):
                    comparison.spec(f"{kind}, {name}, damage {number}", damaged(random, text), random)
    for word, count in sorted(comparison.counts.items()):
        print(f"  {count:6} {word}")
    print(f"{sum(comparison.counts.values())} answers, {comparison.differences} differences")
    return 1 if comparison.differences else 0


if __name__ == "__main__":
    if len(sys.argv) not in {4, 5} or not {*sys.argv[4:]} <= {*CLASS_KINDS}:
        sys.exit(f"{__doc__}\nKIND is one of {', '.join(CLASS_KINDS)}.")
    sys.exit(ended(main, sys.argv[1], int(sys.argv[2]), int(sys.argv[3]), sys.argv[4:] or [*CLASS_KINDS]))
