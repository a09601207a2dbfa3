"""What examples/phone.c must do, over the second program: its screen lines, status and files.

Of the app it has the words alone; the pages, the collections and what is said of them come from
tests/second.
"""

import random
from collections import namedtuple

from second import collection
from second.answers import (BAD_CHARACTER, BAD_LENGTH, MISSING, MISTYPED, OTHER_DOCUMENT,
                            PAGE_DISPUTED, TOTALS_DISAGREE, WRONG_ID, Refusal, lend, refuse_if)
from second.forms import base64_read, base64_write
from second.frames import AUTH, KEY, MAIN, Frame, frame_read, frame_write, page_write
from second.sums import doc_id
from second.typing_lines import read_typed, write_typed

KEPT, FILE = "kept", "file"
NEW = KEPT + ".new"  # where a collection is written first

Done = namedtuple("Done", "status out err files")
Document = namedtuple("Document", "ciphertext id lines")

STANDS = {1: "held", 2: "disputed", 3: "not kept: two totals"}
ADVICE = {
    TOTALS_DISAGREE: "two totals, so some sheets are of another print: scan without those into a new KEPT",
    PAGE_DISPUTED: "a page was read in two ways: scan all again into a new KEPT, that page with care",
    MISSING: "scan the pages that are missing",
    WRONG_ID: "not the id's document: compare the id; if it is right, a sheet is forged or of another "
              "print: scan a bundle that comes from the harbour as a whole into a new KEPT",
}
TYPED, LONGEST = b"typed", 1024  # the word, and the most characters of a line
TYPE_AGAIN = {
    BAD_CHARACTER: "has a character that no sheet has (0, 2, l, v, a capital): type it again",
    BAD_LENGTH: "is too long, too short, or one too many: type it again",
    MISTYPED: "was mistyped: type it again",
}
WORDS = "ID KEPT FILE [OTHER ..] < scans; ID is 16 small hex digits, FILE is not KEPT"


class Stopped(Exception):
    """The app has stopped with 2, and complains of this."""


def standing(saved):
    """How every screen line about a collection ends."""
    book = collection.read(saved)
    total = collection.head_of(book).total
    held, disputed, missing = (collection.indices_in(book, state) for state in
                               (collection.HELD, collection.DISPUTED, collection.ABSENT))
    others = [f" {page}{' (disputed)' * (page in disputed)}" for page in sorted(disputed + missing)]
    counts = f"; {len(held)} held, {len(disputed)} disputed, {len(missing)} missing of {total}"
    return counts + (":" + "".join(others) if others else "")


def joined(saved, files, name):
    """The join with a file."""
    try:
        return collection.join(saved, files.get(name, b""))
    except Refusal as refusal:
        why = "of another document" if refusal.number == OTHER_DOCUMENT else "no collection, or damaged"
        raise Stopped(f"{name}: {why}") from refusal


def troubles(saved):
    """The disputed pages, or that the totals disagree."""
    book = collection.read(saved)
    disagree = collection.head_of(book).state == collection.DISAGREE
    return {"totals"} if disagree else set(collection.indices_in(book, collection.DISPUTED))


def taken(saved, read, text, again):
    """The collection after a text that is read so, and what the screen says of it."""
    try:
        raw = lend(500, read(text))
        frame = frame_read(raw)
    except Refusal as refusal:
        return saved, f"not read ({refusal.number}): {again} it again{standing(saved)}"
    if frame.type != MAIN:
        return saved, f"no page, but {'a key shard' if frame.type == KEY else 'a signature'}{standing(saved)}"
    try:
        saved, kind = collection.offer(saved, raw)
    except Refusal:
        return saved, f"a page of another document, {frame.id.hex()}{standing(saved)}"
    return saved, f"page {frame.index} of {frame.total} is {STANDS[kind]}{standing(saved)}"


def scanned(saved, line):
    """The collection after a scan, and what the screen says of it."""
    if len(line) > LONGEST:
        return saved, "too long for a code square: passed over"
    return taken(saved, base64_read, line, "scan")


def typed_behind(right, line):
    """The lines that are right after one more, and what the screen says of it."""
    which = len(right) + 1
    try:
        refuse_if(len(line) > LONGEST, BAD_LENGTH)
        read_typed(b"\n".join([*right, line]))
    except Refusal as refusal:
        return right, f"line {which} {TYPE_AGAIN[refusal.number]}"
    return [*right, line], f"line {which} is right"


def joins(saved, files, others):
    """After each join the collection, and what the screen says."""
    for name in others:
        both = joined(saved, files, name)
        worse = troubles(both) - troubles(saved)
        saved = saved if worse else both
        yield saved, f"{name} is {'not joined, since it brings a dispute' if worse else 'joined'}{standing(saved)}"


def inputs(saved, lines):
    """After each line of the input the collection, and what the screen says."""
    rest = iter(lines)
    for line in rest:
        if line == TYPED:
            yield saved, "type line 1; an empty line ends the page"
            right = []
            for one in iter(lambda: next(rest, b""), b""):
                right, told = typed_behind(right, one)
                yield saved, told
            saved, told = taken(saved, read_typed, b"\n".join(right), "type")
        else:
            saved, told = scanned(saved, line)
        yield saved, told


def turns(saved, files, others, lines):
    """The joins, and then the lines of the input."""
    for saved, told in joins(saved, files, others):
        yield saved, told
    yield from inputs(saved, lines)


def session(files, ident, lines, others, screen):
    """A run: the files become what it leaves, and the screen gets its lines. The exit status."""
    saved = collection.open_collection(ident, collection.SIZE)
    saved = last = joined(saved, files, KEPT) if KEPT in files else saved
    for saved, told in turns(saved, files, others, lines):
        if saved != last:
            files[KEPT] = last = saved
            files.pop(NEW, None)  # whatever a killed run has left there
        screen.append(told)
    try:
        files[FILE] = collection.finish(saved, 1 << 16)
    except Refusal as refusal:
        screen.append(f"not complete: {ADVICE[refusal.number]}{standing(saved)}")
        return 1
    screen.append(f"complete: {len(files[FILE])} bytes")
    return 0


def due(files, ident, lines, others=()):
    """What a run on these files must come to."""
    files, screen, status, err = dict(files), [], 2, ""
    try:
        status = session(files, ident, lines, others, screen)
    except Stopped as stopped:
        err = f"{stopped}\n"
    return Done(status, "".join(f"{line}\n" for line in screen).encode(), err.encode(), files)


# Papers.


def document(pages, last=17):
    """A document of so many pages, by chance, and its scans."""
    ciphertext = random.Random(pages).randbytes((pages - 1) * 480 + last)
    frames = [page_write(ciphertext, 480, number, 500) for number in range(pages)]
    return Document(ciphertext, doc_id(ciphertext), [base64_write(frame) for frame in frames])


def line_of(ident, index, total, data, kind=MAIN):
    """The scan of a frame."""
    return base64_write(frame_write(Frame(kind, ident, index, total, data)))


def typed_of(line):
    """What a clerk types instead of this scan, without the empty line at the end."""
    return [TYPED, *write_typed(base64_read(line)).split(b"\n")]


def collected(ident, lines):
    """The collection of these scans."""
    saved = collection.open_collection(ident, collection.SIZE)
    for line in lines:
        saved = scanned(saved, line)[0]
    return saved


def bad_lines(paper):
    """Scans that are no page of a document: one for each number, and strangers."""
    raw, stranger = base64_read(paper.lines[0]), document(3)
    parts = {2: b"\x02", 3: b"\x45", 4: b"\x01\x01", 13: b"\x80\x00", 20: bytes([raw[20] ^ 4])}
    for at, other in parts.items():  # version, type, id, varint, data
        yield base64_write(raw[:at] + other + raw[at + len(other):])
    yield from (b"*" + paper.lines[0], paper.lines[0] + b"=", paper.lines[0][:-1], paper.lines[0][:-2])
    yield from (b"", b" \r", paper.lines[0] + b"\0", base64_write(b"XX" + raw[2:]), b"A" * 668, b"A" * 1024)
    yield from (line_of(paper.id, 3, 3, b"a"), line_of(paper.id, 0, 97, b"a"), line_of(paper.id, 0, 2, bytes(481)))
    yield from (stranger.lines[1], line_of(bytes(range(0x0a, 0x12)), 0, 12, b""))
    for kind in (KEY, AUTH):
        yield from (line_of(ident, 0, 1, b"shard", kind) for ident in (paper.id, stranger.id))
    yield from (paper.lines[1].ljust(1025), paper.lines[1] + b"A" * 5000)
