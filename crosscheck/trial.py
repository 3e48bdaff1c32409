"""Uses `isofarm test` as the job of a repository does, from the first `--update` on, and holds each run against what it has to tell and to write.

usage: python3 crosscheck/trial.py PROGRAM SEED

A repository of 20 specs is made: examples, some written by hand, some from the seed. They are accepted, edited, tested, and accepted again.
What is told is that of this second implementation, and of some what was worked out by hand; nothing is written that need not be. Reports
in the form of JUnit are read by a standard parser. Then accepted records are written where files may not grow, where a disk is full, where
system calls fail, and by runs that are killed at any of them or at any moment: each is the old one or the new one, and a later run mends all.
Last come files and folders that are not as they should be. A full disk needs root, and failing and killed calls need strace: where they
are not there, that part says that it was left out.
"""

import sys
from pathlib import Path
from tempfile import TemporaryDirectory

from compare import ended
from trial_files import odd_files
from trial_runs import Trial, case_of, hold_report
from trial_specs import EDITS, FOLDER, MOVED, SPECS, Repository
from trial_writes import writes

REPORT = "report.xml"


def told_of_all(repository, told):
    """The worst status, and all that is told of the specs."""
    all_told = [told(path)[:2] for path in repository.paths()]
    return max(status for status, _out in all_told), b"".join(out for _status, out in all_told)


def cases_of(repository):
    return [case_of(path, *repository.told(path)) for path in repository.paths()]


def hold_changed(trial, what, repository, before, written):
    """Whether just these files were written since then, and no other one came or went."""
    after = repository.files()
    trial.hold(f"{what}, files that are gone", {*before} - {*after}, set())
    changed = {path for path in {*after} & {*before} if after[path] != before[path]}
    trial.hold(f"{what}, files that were written", changed | ({*after} - {*before}), {*written})


def hold_tests(trial, what, repository):
    """Tests of all specs, by some numbers of workers and by other paths: what is told is the same, and nothing is written but the report."""
    before = repository.files()
    want = told_of_all(repository, repository.told)
    trial.tells(what, [FOLDER], repository.top, want)
    trial.tells(what, ["--workers", "1", FOLDER], repository.top, want)
    trial.tells(what, [*repository.paths(), "--workers", "16"], repository.top, want)
    for path in repository.paths():
        trial.tells(what, [path], repository.top, repository.told(path))
    hold_changed(trial, what, repository, before, set())
    trial.tells(f"{what}, with a report", ["--junit", REPORT, FOLDER], repository.top, want)
    hold_report(trial, what, repository.top / REPORT, cases_of(repository))
    (repository.top / REPORT).unlink()
    hold_changed(trial, f"{what}, with a report", repository, before, set())


def hold_update(trial, what, repository):
    """Accepts what is there: just those texts are written that are other than they were."""
    before, want = repository.files(), told_of_all(repository, repository.updated)
    written = {path for path in repository.paths() if repository.updated(path)[2]}
    trial.tells(what, ["--update", FOLDER], repository.top, want)
    repository.accept()
    pages = repository.pages()
    hold_changed(trial, what, repository, before, {path for path in pages if f"{path.removesuffix('.accepted')}.spec" in written})
    for path, page in pages.items():
        trial.hold(f"{what}, {path}", (repository.top / path).read_bytes(), page)
    trial.counts["texts accepted"] += len(written)


def hold_by_hand(trial, repository):
    """What this second implementation tells of the edits, beside what was worked out by hand."""
    for path, _edit, told in EDITS:
        if told:
            status, lines = told
            path = f"{FOLDER}/{path}"
            trial.hold(f"{path}, here", repository.told(path), (status, f"{path}: {lines}".encode()))
    trial.hold("moved, here", repository.told(f"{FOLDER}/{MOVED[1]}"), (1, f"{FOLDER}/{MOVED[1]}: only the head of the record differs\n".encode()))


def use(trial, repository):
    """The days of a repository."""
    repository.make()
    trial.hold("specs", len(repository.now), SPECS)
    hold_tests(trial, "nothing accepted", repository)
    hold_update(trial, "accepted", repository)
    trial.hold("all as accepted", {repository.told(path)[0] for path in repository.now}, {0})
    hold_tests(trial, "as accepted", repository)
    hold_update(trial, "accepted twice", repository)
    repository.edit()
    hold_by_hand(trial, repository)
    hold_tests(trial, "edited", repository)
    hold_update(trial, "edited and accepted", repository)
    hold_tests(trial, "accepted again", repository)


def main(program, seed):
    trial = Trial(program)
    with TemporaryDirectory() as folder:
        folder = Path(folder).resolve()
        use(trial, Repository(folder / "repository", seed))
        left_out = [*writes(trial, folder / "writes", seed), *odd_files(trial, folder / "files")]
    told = ", ".join(f"{count} {what}" for what, count in trial.counts.items())
    print(f"{SPECS} specs, {told}, {trial.differences} differences")
    for what in left_out:
        print(f"left out: {what}")
    return 1 if trial.differences else 0


if __name__ == "__main__":
    if len(sys.argv) != 3:
        sys.exit(__doc__)
    sys.exit(ended(main, sys.argv[1], int(sys.argv[2])))
