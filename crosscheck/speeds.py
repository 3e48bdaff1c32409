"""Times the program's commands `run` and `audit` on specs, with several workers and on several cores.

usage: python3 crosscheck/speeds.py RANKS SPEC..

Of each spec the first RANKS ranks are run, or all where it has fewer: reduced and with `--every`, by 1, 2 and 4 workers. The book is
then audited on one core and on four. Each is tried three times. Told are the least seconds, the ranks or facts in a second by these,
how many times faster that is than one worker or one core, and the least processor seconds of all threads. The whole command is timed,
with its start and its files. On a machine that has other work the seconds say little, and the processor seconds more: the load is
told first. It needs `taskset`.
"""

import os
import subprocess
import sys
from pathlib import Path
from tempfile import TemporaryDirectory
from time import monotonic

from compare import PROGRAM, ended
from untrue import spec_of

TRIES = 3
WORKERS = [1, 2, 4]
CORES = [1, 4]
HOWS = {"reduced": [], "every": ["--every"]}


def seconds(words, out):
    """How long a command takes, and how long all processors together. What it prints is put into a file."""
    with open(out, "wb") as file:
        began = monotonic()
        process = subprocess.Popen(words, stdout=file)
        _process, status, used = os.wait4(process.pid, 0)
        took = monotonic() - began
    process.returncode = os.waitstatus_to_exitcode(status)
    if process.returncode != 0:
        raise SystemExit(f"{' '.join(map(str, words))}: status {process.returncode}")
    return took, used.ru_utime + used.ru_stime


def least(words, out):
    """The least seconds and the least processor seconds of some tries."""
    took, used = zip(*(seconds(words, out) for _ in range(TRIES)))
    return min(took), min(used)


def on_cores(number):
    """The words that keep a command to so many cores, or to all where there are fewer."""
    cores = sorted(os.sched_getaffinity(0))[:number]
    return ["taskset", "-c", ",".join(map(str, cores))]


def tell(what, number, times):
    """A line for times of one thing: those of each number of workers or cores, beside the first."""
    first, _used = next(iter(times.values()))
    told = [
        f"{many}: {took:.2f} s, {number / took:,.0f}/s, {first / took:.2f}, processor {used:.2f} s"
        for many, (took, used) in times.items()
    ]
    print(f"  {what} {'; '.join(told)}", flush=True)


def time_spec(path, most, folder):
    number = min(most, spec_of(Path(path).read_bytes()).ranks())
    print(f"{Path(path).name}, {number} ranks", flush=True)
    for how, more in HOWS.items():
        book, out = f"{folder}/{how}.book", f"{folder}/out"
        run = [PROGRAM, "run", path, "0", str(number), *more]
        tell(f"run, {how}, workers", number, {workers: least([*run, "--workers", str(workers)], book) for workers in WORKERS})
        audit = [PROGRAM, "audit", book]
        tell(f"audit, {how}, cores", number, {cores: least([*on_cores(cores), *audit], out) for cores in CORES})
        if Path(out).read_bytes() != b"true\n":
            print(f"  the audit told {Path(out).read_bytes()!r}")
            return 1
    return 0


def main(most, *paths):
    print(f"load {', '.join(f'{load:.1f}' for load in os.getloadavg())} on {len(os.sched_getaffinity(0))} cores")
    with TemporaryDirectory() as folder:
        return max([time_spec(path, most, folder) for path in paths])


if __name__ == "__main__":
    if len(sys.argv) < 3:
        sys.exit(__doc__)
    sys.exit(ended(main, int(sys.argv[1]), *sys.argv[2:]))
