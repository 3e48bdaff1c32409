"""Looks at what shells complete and at the page of `man`: whether they are of this program, and whole.

usage: python3 crosscheck/shell.py [PROGRAM]

`shell/make --check` compares the files with the help of the program. In bash each word of each command is then asked for by its first letters; zsh, fish and
`man` read their files where they are installed. PROGRAM is crates/isofarm/out/isofarm where none is named. The last line is `N passed, M failed`.
"""

import re
import shutil
import sys
from pathlib import Path
from subprocess import run

from compare import PROGRAM

SHELL = Path(__file__).resolve().parent.parent / "shell"
ASKED = 'source "$1"; shift; COMP_WORDS=("$@"); COMP_CWORD=$(($# - 1)); _isofarm; printf "%s\\n" "${COMPREPLY[@]}"'
READERS = {"zsh": ["zsh", "-n", "_isofarm"], "fish": ["fish", "-n", "isofarm.fish"], "man": ["man", "--warnings", "-l", "isofarm.1"]}


def out_of(words):
    ran = run(words, capture_output=True, text=True, cwd=SHELL, env={"PATH": "/usr/bin:/bin", "MANWIDTH": "80"})
    return ran.stdout, ran.returncode == 0 and not ran.stderr


def completed(*words):
    """What bash completes the last of the words to."""
    return out_of(["bash", "-c", ASKED, "bash", "isofarm.bash", "isofarm", *words])[0].split()


def words_of(program, *words):
    """The commands and the flags that the program has by its help."""
    told = out_of([program, *words, "--help"])[0]
    flags = [name for line in re.findall(r"(?m)^ +((?:-\w, )?--\S+)", told) for name in re.findall(r"-[-\w]+", re.sub(r"[\[<].*", "", line))]
    return re.findall(r"(?m)^  (\w+) ", told.partition("Commands:")[2].partition("\n\n")[0]), flags


def looks_of(program):
    """Each look with whether it is as it should be."""
    commands, flags = words_of(program)
    yield "shell/make --check", run([SHELL / "make", "--check", program]).returncode == 0
    yield "the first word", completed("") == [*commands, *flags]
    yield "help", completed("help", "") == [name for name in commands if name != "help"]
    for command in commands[:-1]:
        flags = words_of(program, command)[1]
        yield f"{command} -", sorted(completed(command, "-")) == sorted(flags)
        for flag in flags:
            yield f"{command} {flag}", flag in completed(command, flag[:4])
    for name, words in READERS.items():
        if shutil.which(name):
            text, is_read = out_of(words)
            yield name, is_read and (name != "man" or all(command in text for command in commands[:-1]))


def main(program):
    count = {True: 0, False: 0}
    for look, is_right in looks_of(program):
        count[is_right] += 1
        if not is_right:
            print(f"FAILED {look}")
    print(f"{count[True]} passed, {count[False]} failed")
    return int(count[False] > 0)


if __name__ == "__main__":
    sys.exit(main(sys.argv[1] if len(sys.argv) > 1 else PROGRAM))
