"""Runs the kit's `rt ci` at the top of the repository, and tells behind it what each crate took.

usage: python3 launcher/gate.py KIT

The table has the seconds of each crate, dearest first: how long its proof, its tests and its must-fail edits ran, and how much processor time they took.
Behind it stands the longest chain of crates of which each waits for the one before. Crates that an earlier run proved take no time and have no row.

The kits in ASKED_ONCE list the crates below a crate, and some make a sum of its files, anew for each way that leads down to it by crates.txt. There are half
a million ways below the highest crates, so the one thread that starts all checks would work for minutes to hours while the processors wait. Files do not
change while the gate runs in a clone of its own, so a crate is asked once here. A kit that is not named there runs as it is. What is proved, tried and run
stays the kit's, as do its words and its status.
"""

import os
import subprocess
import sys
import threading
import time
from dataclasses import dataclass, field

from kit import kit_command

# By the first word of KIT-ID: what was read in these kits, and depends on a crate's files and its line of crates.txt alone.
ASKED_ONCE = {"rattle-kit-13b": ["below", "stamp"], "rattle-kit-13f": ["below"]}
KINDS = ["proof", "tests", "edits"]


def once(ask):
    """The method, which answers an object again what it answered it first."""
    # Each with the object, so that no other one gets its number.
    answers = {}

    def answer(asked):
        if id(asked) not in answers:
            answers[id(asked)] = asked, ask(asked)
        found = answers[id(asked)][1]
        return list(found) if isinstance(found, list) else found

    return answer


@dataclass
class Took:
    """The seconds of one crate, by kind of work."""

    wall: dict = field(default_factory=lambda: dict.fromkeys(KINDS, 0.0))
    processor: dict = field(default_factory=lambda: dict.fromkeys(KINDS, 0.0))

    def all(self):
        return sum(self.processor.values())


class Times:
    """What each crate took."""

    def __init__(self):
        self.took = {}
        self.lock = threading.Lock()

    def add(self, crate, kind, wall, processor):
        with self.lock:
            took = self.took.setdefault(crate, Took())
            took.wall[kind] += wall
            took.processor[kind] += processor


def timed(times, top):
    """Popen, which adds what a command on a crate took."""

    class Timed(subprocess.Popen):
        def __init__(self, words, *given, **named):
            self.began, self.of = time.monotonic(), None
            if isinstance(words, list) and "--crate-name" in words:
                kind = "tests" if "--test" in words else "proof"
                is_copy = not str(named.get("cwd", "")).startswith(f"{top}/crates/")
                self.of = words[words.index("--crate-name") + 1], "edits" if is_copy else kind
            super().__init__(words, *given, **named)

        def _try_wait(self, flags):
            try:
                found, status, usage = os.wait4(self.pid, flags)
            except ChildProcessError:
                return self.pid, 0
            if found and self.of:
                times.add(*self.of, time.monotonic() - self.began, usage.ru_utime + usage.ru_stime)
            return found, status

    return Timed


def deps_of():
    """The crates that each crate names in crates.txt."""
    with open("crates.txt", encoding="utf-8") as file:
        lines = [line.partition("#")[0].partition(":") for line in file]
    return {name.split()[0]: words.split() for name, colon, words in lines if colon}


def chain_of(took, deps):
    """The seconds of the chain of proofs that takes longest, and its crates."""
    longest = {}

    def chain(crate):
        if crate not in longest:
            below = max((chain(it) for it in deps.get(crate, ()) if it in deps), default=(0.0, []))
            own = took[crate].wall["proof"] if crate in took else 0.0
            longest[crate] = below[0] + own, [*below[1], crate]
        return longest[crate]

    return max((chain(it) for it in deps), default=(0.0, []))


def told(took, deps, wall):
    """The table."""
    lines = ["| Crate | Proof: wall | processor | Tests: wall | processor | Edits: wall | processor |", "|---|---:|---:|---:|---:|---:|---:|"]
    for crate, it in sorted(took.items(), key=lambda pair: -pair[1].all()):
        cells = [f"{seconds[kind]:.0f}" for kind in KINDS for seconds in (it.wall, it.processor)]
        lines.append(f"| `{crate}` | {' | '.join(cells)} |")
    sums = {kind: sum(it.processor[kind] for it in took.values()) for kind in KINDS}
    seconds, crates = chain_of(took, deps)
    parts = ", ".join(f"{kind} {sums[kind] / 60:.1f}" for kind in KINDS)
    lines += [
        f"wall {wall / 60:.1f} minutes on {os.cpu_count()} processors; processor minutes: {sum(sums.values()) / 60:.1f} ({parts})",
        f"longest chain {seconds / 60:.1f} minutes: {' '.join(it for it in crates if it in took)}",
    ]
    return "\n".join(lines)


def main(kit):
    rt, times, began = kit_command(kit), Times(), time.monotonic()
    with open(f"{kit}/KIT-ID", encoding="utf-8") as file:
        name = file.read().split()[0]
    for method in ASKED_ONCE.get(name, ()):
        setattr(rt.Crate, method, once(getattr(rt.Crate, method)))
    subprocess.Popen = timed(times, os.path.realpath("."))
    status = rt.main(["ci"])
    if times.took:
        print(told(times.took, deps_of(), time.monotonic() - began), file=sys.stderr, flush=True)
    return status


if __name__ == "__main__":
    sys.exit(main(os.path.realpath(sys.argv[1])))
