"""Runs the program, and looks at what it takes."""

import os
import signal
import subprocess
import sys
from dataclasses import dataclass
from pathlib import Path
from time import monotonic

from compare import PROGRAM

MOST_MEMORY = 64 << 20
# So long a run is left alone by the clock: the machine may have other work.
MOST_SECONDS_BY_CLOCK = 60
SETTINGS = dict(os.environ)
OUT, ERROR = "../out", "../error"
WRITTEN = os.O_WRONLY | os.O_CREAT | os.O_TRUNC
OUTPUTS = [(os.POSIX_SPAWN_OPEN, 1, OUT, WRITTEN, 0o600), (os.POSIX_SPAWN_OPEN, 2, ERROR, WRITTEN, 0o600)]
# Python ignores these, and a program that it begins would too.
AS_BEGUN = [signal.SIGPIPE, signal.SIGXFSZ]
# A shell that lets a program write so many blocks of 512 bytes, or of twice as many, into a file.
SHORT = ["/bin/sh", "-c", 'ulimit -f 1; exec "$@"', "sh"]
# A small process that looks whether a command has more memory than the first word says.
MEASURE = """
import os, sys
most, *command = sys.argv[1:]
nowhere = os.open(os.devnull, os.O_WRONLY)
process = os.posix_spawn(command[0], command, os.environ, file_actions=[(os.POSIX_SPAWN_DUP2, nowhere, output) for output in (1, 2)])
sys.exit(os.wait4(process, 0)[2].ru_maxrss * 1024 > int(most))
"""


@dataclass
class Ran:
    """What a run told and took. The memory is in bytes."""

    words: list
    told: tuple
    memory: int
    seconds: float
    processor_seconds: float
    is_stopped: bool

    @property
    def status(self):
        return self.told[0]

    @property
    def out(self):
        return self.told[1]

    @property
    def error(self):
        return self.told[2]


class Watch:
    """Kills a run that does not end."""

    def __init__(self):
        self.process, self.has_killed = None, False
        signal.signal(signal.SIGALRM, self.kill)

    def kill(self, _signal, _frame):
        if self.process:
            self.has_killed = True
            os.kill(self.process, signal.SIGKILL)

    def run(self, *words, into_short_file=False):
        """Runs the program with words in this folder. Its outputs go into two files beside that."""
        command = [*(SHORT if into_short_file else []), str(PROGRAM), *words]
        defaults = [] if into_short_file else AS_BEGUN
        began, self.has_killed = monotonic(), False
        self.process = os.posix_spawn(command[0], command, SETTINGS, file_actions=OUTPUTS, setsigdef=defaults)
        signal.setitimer(signal.ITIMER_REAL, MOST_SECONDS_BY_CLOCK)
        _process, status, used = os.wait4(self.process, 0)
        signal.setitimer(signal.ITIMER_REAL, 0)
        self.process = None
        took = monotonic() - began
        told = os.waitstatus_to_exitcode(status), Path(OUT).read_bytes(), Path(ERROR).read_bytes()
        return Ran([*words], told, memory_of(command, used), took, used.ru_utime + used.ru_stime, self.has_killed)


def memory_of(command, used):
    """The most memory that a command had. What this process had before it became the program counts too; so where that is over the limit,
    a small process looks again, and it is none where that one finds less."""
    memory = used.ru_maxrss * 1024
    is_over = memory > MOST_MEMORY and subprocess.run([sys.executable, "-S", "-c", MEASURE, str(MOST_MEMORY), *command], check=False).returncode
    return memory if memory <= MOST_MEMORY or is_over else 0
