"""What `isofarm check` tells of a file, up to the sentences that say what is wrong."""

import sql
from binding import Kind, bound
from levels import NoLevel, bind_at
from refusal import Refusal
from spec_file import Block, blocks, read_spec

# So much of a file is read that its length tells whether it is too long.
READ = 65_537
# The characters of a line that is shown whole, and of a longer one on either side of the place; the faults that are told; all at most.
SHOWN, BESIDE, FAULTS = 100, 48, 20


def checked(text, path):
    """The exit status, and what stands on the two outputs."""
    try:
        read = read_spec(text)
    except Refusal as refusal:
        return 3, b"", refusal.line(path) + place_lines(text, refusal.place, path)
    try:
        spec = bind_at(text, read, None)
    except NoLevel as refusal:
        return 3, b"", refusal.line(path)
    except Refusal as refusal:
        told = [b"also " + place_lines(text, other.place, path) for other in further(read, refusal)]
        return 3, b"", refusal.line(path) + place_lines(text, refusal.place, path) + b"".join(told)
    counts = {"sessions": len(spec.session_names), "steps": len(spec.steps), "ranks": spec.ranks()}
    counted = "".join(f"{name} {count}\n" for name, count in counts.items())
    return 0, (counted + idle_lines(text, read, spec.level)).encode(), b""


def idle_lines(text, read, level):
    """What is read and has no effect where this level is asked for, or none, by the lines that it begins on."""
    statements = [(statement, block.start + statement.at) for block, _declares in blocks(read) for statement in sql.read_sql(block.text)]
    places = {
        "isolation level": [at for one, at in statements if isinstance(one, sql.Begin) and one.has_level and not level],
        "SET": [at for one, at in statements if isinstance(one, sql.Set)],
        "NOT NULL": [at for one, at in statements if isinstance(one, sql.Create) and any(column.is_not_null for column in one.columns)],
        "teardown": read.teardowns,
        "marker": read.markers,
    }
    told = ""
    for kind, ats in places.items():
        numbers = dict.fromkeys(1 + text[:at].count(b"\n") for at in ats)
        told += "".join([f"no effect: {kind}, lines", *(f" {number}" for number in numbers), "\n"]) if ats else ""
    return told


def further(read, first):
    """The faults beyond the first one, each of a piece of a block by itself."""
    tables, are_all, found = {}, True, []
    for block, declares in blocks(read):
        for begin, piece in pieces(block.text):
            try:
                bound(tables, Block(piece, block.start + begin), declares)
            except Refusal as refusal:
                is_missing = (refusal.by, refusal.kind) == ("bind", Kind.UNKNOWN_TABLE)
                if refusal.place != first.place and (are_all or not is_missing):
                    found.append(refusal)
                if declares and begins_create(piece):
                    are_all = False
    return found[: FAULTS - 1]


def pieces(text):
    """The pieces of a block's text, each up to the next semicolon and with it, and where they begin."""
    begin = 0
    while begin < len(text):
        end = piece_end(text, begin)
        yield begin, text[begin:end]
        begin = end


def piece_end(text, place):
    while True:
        try:
            token = sql.token_at(text, place)
        except Refusal as refusal:
            # No token can be cut here: the next semicolon counts, whatever it stands in.
            return text.find(b";", refusal.place) + 1 or len(text)
        if token.kind in (";", "end"):
            return token.end
        place = token.end


def begins_create(piece):
    try:
        return sql.token_at(piece, 0).value == "create"
    except Refusal:
        return False


def place_lines(text, place, path):
    """Where a fault is, what is shown of its line, and a mark under the place."""
    before, behind = text[:place], text[place:READ]
    # Bytes are no UTF-8 only where the file is too long, or from the place on.
    front = before.split(b"\n")[-1].decode(errors="replace")
    rest = behind.split(b"\n")[0].decode(errors="replace")
    column = 1 + len(front)
    if len(front) + len(rest) > SHOWN:
        front = f"..{front[-BESIDE:]}" if len(front) > BESIDE else front
        rest = f"{rest[:BESIDE]}.." if len(rest) > BESIDE else rest
    blank = "".join("\t" if character == "\t" else " " for character in front)
    number = 1 + before.count(b"\n")
    return f"{path}:{number}:{column}\n{front}{rest}\n{blank}^\n".encode()


def without_sentence(answer):
    """What a check tells, without the sentence that ends what is told of each fault where the file is refused. Each has to have one."""
    status, out, error = answer
    fault, *lines = error.split(b"\n")
    if status != 3 or len(lines) % 4 != 1 or lines[-1] or not all(line.endswith(b".") for line in lines[3::4]):
        return answer
    return status, out, b"".join(line + b"\n" for line in [fault, *(line for number, line in enumerate(lines[:-1]) if number % 4 != 3)])
