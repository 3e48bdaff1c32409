"""Tells how long the playground takes in each browser, beside the program.

usage: python3 crosscheck/page_times.py [SPEC [ROUNDS]]

Of ROUNDS rounds, 9 where they are not named, it tells the middle one and the fastest, in milliseconds: from where the page is asked for to where it
shows the classes of the SPEC in its address; from where the same text is put into the open page to where it shows them, without the pause
that it makes behind typing; and a run of `isofarm classes SPEC --json`. The SPEC is `page_specs/ring.spec` where none is named. The playground is made of
the module that `page/core/make` has left. The program is the built one, or the one whose path stands in the variable ISOFARM.
"""

import json
import subprocess
import sys
from base64 import urlsafe_b64encode
from pathlib import Path
from statistics import median
from tempfile import TemporaryDirectory
from time import perf_counter

from browser import there
from classes import Asking
from compare import PROGRAM, ended
from compare_pages import SPECS, plural
from compare_playground import CORE, MODULE, made

# What the page waits behind typing, in milliseconds.
PAUSE = 150
# When the page tells of so many orders, on its own clock, which begins where it was asked for.
TOLD = """new Promise(tell => {
  const status = document.getElementById('status'), look = () => { if (status.textContent.includes(%s)) tell(performance.now()); };
  new MutationObserver(look).observe(status, { childList: true });
  look();
})"""
TYPED = """(async () => {
  const status = document.getElementById('status'), it = document.getElementById('spec');
  status.replaceChildren();
  const begun = performance.now();
  it.dispatchEvent(new Event('input'));
  return await %s - begun;
})()"""


def line(what, times):
    return f"{what}: {median(times):.0f} ms, at least {min(times):.0f}"


def in_browser(kind, page, text, rounds):
    told = TOLD % json.dumps(plural(Asking(text).classes(False).orders, "order"))
    opened, typed = [], []
    with kind() as browser:
        for _ in range(rounds):
            browser.open(page, f"#spec={urlsafe_b64encode(text).decode().rstrip('=')}")
            opened.append(browser.run(told))
            typed.append(browser.run(TYPED % told) - PAUSE)
            # Another page, so that the next one is opened anew and not left as it is.
            browser.open(SPECS)
    return [line(f"{kind.name}, opened", opened), line(f"{kind.name}, typed", typed)]


def natively(spec, rounds):
    times = []
    for _ in range(rounds):
        begun = perf_counter()
        subprocess.run([PROGRAM, "classes", spec, "--json"], check=True, stdout=subprocess.DEVNULL)
        times.append((perf_counter() - begun) * 1000)
    return line("isofarm classes --json", times)


def main(spec, rounds):
    with TemporaryDirectory() as folder:
        page = made(CORE, MODULE, Path(folder) / "playground.html")
        for kind in there():
            print(*in_browser(kind, page, spec.read_bytes(), rounds), sep="\n", flush=True)
    print(natively(spec, rounds))
    return 0


if __name__ == "__main__":
    if len(sys.argv) > 3:
        sys.exit(__doc__)
    words = sys.argv[1:]
    sys.exit(ended(main, Path(words[0]) if words else SPECS / "ring.spec", int(words[1]) if len(words) > 1 else 9))
