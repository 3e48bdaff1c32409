"""The soak's tests of a spec: beside no accepted record, beside the one that is accepted, and beside damaged ones."""

from pathlib import Path
from xml.etree import ElementTree

from damage import DAMAGES_OF_BYTES
from spec_tests import Side
from trial_runs import as_xml

REPORT = "report.xml"
DAMAGED_TEXTS = 4


def test(soak, path, starts):
    """All that a soak looks at in tests of a spec that has few orders."""
    accepted = Path(f"{path.removesuffix('.spec')}.accepted")
    accepted.unlink(missing_ok=True)
    first, classes = soak.run("test", path, *soak.workers()), soak.run("classes", path)
    if not starts:
        soak.hold(first.told == (3, classes.error.removeprefix(b"isofarm: "), b""), "a test tells another fault of a start", first, classes)
        return
    page = Side(path, Path(path).read_bytes()).text
    update = soak.run("test", path, "--update", *soak.workers())
    soak.hold((first.status, update.status) == (1, 0), "a text is there that is not, or is not accepted", first, update)
    soak.hold(accepted.read_bytes() == page, "another text is accepted than the record", update)
    for place in range(DAMAGED_TEXTS):
        text = soak.random.choice(DAMAGES_OF_BYTES)(soak.random, page) if place else page
        soak.put(accepted, text)
        beside(soak, path, text == page)
    again = soak.run("test", path, "--update")
    soak.hold(again.status == 0 and accepted.read_bytes() == page, "a damaged text is not replaced", again)


def beside(soak, path, is_same):
    """A spec beside an accepted text, which is its record or not, and the report of that."""
    ran = soak.run("test", path, "--junit", REPORT, *soak.workers())
    soak.hold(ran.status == int(not is_same), "a damaged text is accepted, or one that is not", ran)
    case = ElementTree.parse(REPORT).getroot()[0][0]
    text = "".join(inner.text for inner in case) or "as accepted\n"
    soak.hold(f"{case.get('name')}: {text}" == as_xml(ran.out.decode()), "a report tells something else", ran)
