"""Runs the commands that the pages show, and compares what they print with what stands below them; and looks what the pages name.

usage: python3 crosscheck/pages.py [PAGE..]

A command is a line of a code block behind `$ `, and what it prints stands on the lines up to the next one. In a block that shows
nothing but commands each of them has to end well. A block whose first line is `# NAME.spec: ..` is that file, for the blocks below
it. A block is left out where it names a spec that is not there; then it may show no output. One that runs jobs under GNU parallel is
left out where that is not there.

Without words it looks at all pages besides: each law of a `laws.rt` is named in PROMISES, each row of a table follows a head, each file that
a page names is there, and ARCHITECTURE has a row for each crate of crates.txt and for no other.
"""

import os
import re
import shutil
import subprocess
import sys
from pathlib import Path
from tempfile import TemporaryDirectory

from compare import PROGRAM, ended

TOP = Path(__file__).resolve().parent.parent
PAGES = ["README.md", "docs/GUIDE.md", "docs/DIFFERENCES.md", "docs/FARM.md", "examples/README.md"]
FOLDERS = ["crates", "docs", "crosscheck", "examples", "farm", "launcher", "page", "wrong_bodies"]


def blocks_of(page):
    """The code blocks of a page: the number of each one's first line, and its lines."""
    first, lines = None, page.read_text().split("\n")
    for number, line in enumerate(lines):
        if line.startswith("```") and first is not None:
            yield first + 1, lines[first:number]
        if line.startswith("```"):
            first = number + 1 if first is None else None


def commands_of(block):
    """The commands of a block, each with the lines below it."""
    commands = []
    for line in block:
        if line.startswith("$ "):
            commands.append((line[2:], []))
        elif commands:
            commands[-1][1].append(line)
    return commands


def script_of(commands, notes):
    """A script that leaves what each command prints, and its status behind that, in a folder."""
    return "".join(
        f'{{ {text}\n}} > "{notes}/{number}.out" 2>&1\necho $? > "{notes}/{number}.status"\n'
        for number, (text, _lines) in enumerate(commands)
    )


def results(commands, folder):
    """What each command prints and its status, run one after another by one shell; no status where that had ended before."""
    with TemporaryDirectory() as notes:
        words = ["bash", "-c", script_of(commands, notes)]
        settings = {**os.environ, "ISOFARM": str(PROGRAM)}
        subprocess.run(words, cwd=folder, env=settings, stdin=subprocess.DEVNULL, capture_output=True, check=False)
        for number in range(len(commands)):
            out, status = Path(notes, f"{number}.out"), Path(notes, f"{number}.status")
            yield (out.read_text().splitlines() if out.exists() else []), (int(status.read_text()) if status.exists() else None)


def folder_for_pages(folder):
    """What the commands of the pages find beside them."""
    shutil.copytree(TOP / "examples", folder / "examples")
    (folder / "isofarm").symlink_to(PROGRAM)
    (folder / "farm").symlink_to(TOP / "farm")


def keep_spec(block, folder):
    """Puts a block into the folder that is a spec file."""
    if name := re.fullmatch(r"# (\w+\.spec): .*", block[0] if block else ""):
        (folder / name[1]).write_text("\n".join(block) + "\n")


def lacks_parallel(commands):
    """Whether some command needs GNU parallel, and it is not there."""
    return any(re.search(r"\bparallel ", text) for text, _lines in commands) and not shutil.which("parallel")


def is_left_out(commands, folder):
    """Whether some command names a spec that is not there."""
    specs = {spec for text, _lines in commands for spec in re.findall(r"[\w./]+\.spec\b", text)}
    return not all((folder / spec).is_file() for spec in specs)


def differences_in(place, commands, shows, folder):
    """Where commands of a block do not print what is shown."""
    for (text, lines), (out, status) in zip(commands, results(commands, folder), strict=True):
        if status is None or (shows and out != lines) or (not shows and status != 0):
            yield f"{place}, {text}: the page shows {lines}\n  but status {status} and this came: {out}"


def looked_at(page, folder):
    """Of each block with commands whether it was run, and what differs."""
    for number, block in blocks_of(page):
        keep_spec(block, folder)
        commands, place = commands_of(block), f"{page.name}, line {number}"
        shows = any(lines for _text, lines in commands)
        if lacks_parallel(commands):
            yield False, []
        elif commands and is_left_out(commands, folder):
            yield False, [f"{place}: shows an output of a spec that is not there"] * shows
        elif commands:
            yield True, list(differences_in(place, commands, shows, folder))


def text_lines(page):
    """The lines of a page that stand in no code block, with their numbers; in place of a code block there is an empty line."""
    is_code = False
    for number, line in enumerate(page.read_text().split("\n"), 1):
        is_code ^= line.startswith("```")
        yield number, "" if is_code or line.startswith("```") else line


def rows_without_head(page):
    """The first row of each table whose second line is not that of a head."""
    lines = [(0, ""), *text_lines(page), (0, "")]
    for (_, before), (number, line), (_, after) in zip(lines, lines[1:], lines[2:]):
        if line.startswith("|") and not before.startswith("|") and not re.fullmatch(r"\|( *:?-+:? *\|)+", after):
            yield f"{page.relative_to(TOP)}, line {number}: a row of a table follows no head"


def crates():
    lines = (TOP / "crates.txt").read_text().splitlines()
    return {line.split(":")[0].split()[0] for line in lines if line and not line.startswith("#")}


def is_there(name, known):
    """Whether there is such a file or folder, or whether the words name none. `*` stands for anything, and capitals for a name."""
    first, _slash, rest = name.partition("/")
    if not rest or "/out/" in name or ".." in name or re.search(r"(^|/)[A-Z_]+(/|\.(?!md)|$)", name):
        return True
    if first in known and rest.split("/")[0] in ("src", "specs", "proofs", "must-fail"):
        name = f"crates/{name}"
    elif first not in FOLDERS:
        return True
    return any(any(TOP.glob(name.rstrip("/") + ending)) for ending in ("", ".rt", ".antt"))


def is_linked(page, to):
    """Whether there is such a file, and in it such a heading."""
    name, _hash, heading = to.partition("#")
    file = page.parent / name if name else page
    if not file.exists() or not heading:
        return file.exists()
    heads = [line.lstrip("#").strip().lower() for _number, line in text_lines(file) if line.startswith("#")]
    return heading in [re.sub(r"[^\w -]", "", head).replace(" ", "-") for head in heads]


def files_not_there(page, known):
    for number, line in text_lines(page):
        linked = [to for to in re.findall(r"\]\(([^)]+)\)", line) if "://" not in to]
        named = [words.split()[0] for words in re.findall(r"`([^`]+)`", line) if words.split()]
        lost = [to for to in linked if not is_linked(page, to)] + [name for name in named if not is_there(name, known)]
        yield from (f"{page.relative_to(TOP)}, line {number}: there is no {name}" for name in lost)


def laws_not_named():
    promises = (TOP / "docs/PROMISES.md").read_text()
    for file in sorted(TOP.glob("crates/*/src/**/laws.rt")):
        for law in re.findall(r"^pub fn (\w+)", file.read_text(), re.M):
            if f"`{law}`" not in promises:
                yield f"docs/PROMISES.md: does not name the law {law} of {file.relative_to(TOP)}"


def crates_without_row(known):
    cells = [line.split("|")[1] for _number, line in text_lines(TOP / "docs/ARCHITECTURE.md") if line.startswith("| `")]
    rows = [name for cell in cells for name in re.findall(r"`(\w+)`", cell)]
    yield from (f"docs/ARCHITECTURE.md: has no row for the crate {name}" for name in sorted(known - set(rows)))
    yield from (f"docs/ARCHITECTURE.md: has {rows.count(name)} rows for {name}" for name in sorted(set(rows)) if name not in known or rows.count(name) > 1)


def wings():
    """Of each wing, by the crate that is its door, its crates with what they stand on."""
    found, door = {}, None
    for line in (TOP / "crates.txt").read_text().splitlines():
        if line.startswith("#"):
            head = re.search(r"\((\w+)\)\.$", line)
            door = head and head.group(1)
        elif line and door:
            name, uses = line.split(":")
            found.setdefault(door, {})[name] = set(uses.split())
    return found


def wings_out_of_row():
    """What stands on a wing that the picture of the wings does not have in a lower row."""
    page = "docs/ARCHITECTURE.md"
    picture = (TOP / page).read_text().split("## The wings")[1].split("```")[1]
    rows = {name: number for number, line in enumerate(picture.splitlines()) for name in re.findall(r"\w+", line)}
    wing_of = {name: door for door, parts in wings().items() for name in parts}
    yield from (f"{page}: has no row for the wing {door}" for door in wings() if door not in rows)
    for door, parts in wings().items():
        below = {wing_of[name] for uses in parts.values() for name in uses if name in wing_of} - {door}
        yield from (f"{page}: {door} stands on {other}, which is not in a lower row" for other in sorted(below) if rows.get(other, 0) <= rows.get(door, 0))


def lost_in_pages():
    """What the pages name and is not there, and what they leave out."""
    known, pages = crates(), [TOP / "README.md", *sorted(TOP.glob("docs/*.md")), *sorted(TOP.glob("[a-z]*/README.md"))]
    for page in pages:
        yield from rows_without_head(page)
        yield from files_not_there(page, known)
    yield from laws_not_named()
    yield from crates_without_row(known)
    yield from wings_out_of_row()


def main(*names):
    blocks = []
    for name in names or PAGES:
        with TemporaryDirectory() as folder:
            folder_for_pages(Path(folder))
            blocks += looked_at(TOP / name, Path(folder))
    found = [difference for _was_run, differences in blocks for difference in differences] + ([] if names else list(lost_in_pages()))
    print("".join(f"{difference}\n" for difference in found), end="")
    ran = sum(was_run for was_run, _differences in blocks)
    print(f"{ran} blocks run, {len(blocks) - ran} left out, {len(found)} differences")
    return 1 if found else 0


if __name__ == "__main__":
    sys.exit(ended(main, *sys.argv[1:]))
