"""The collection, which is also the saved file: sections 8 and 9 of docs/RULES.md.

A collection is thought of as what was taken into it: the set of totals that
its pages named, and the set of pages as pairs of index and data. What it
says of a page follows from membership: no pair with that index, one, or
several that differ. Offering is adding to the sets (R1.4), joining is their
union (R1.5); order and repeats cannot matter.

A saved file keeps less than that: of a disputed page, or of totals
that disagree, the fact alone. In their place `read` puts two marks that are
different from each other and from anything that a frame can bring.
"""

from collections import namedtuple

from .answers import (MISSING, NO_ROOM, NOT_WELL_FORMED, OTHER_DOCUMENT, OUT_OF_RANGE,
                      TOTALS_DISAGREE, PAGE_DISPUTED, WRONG_ID, Refusal, lend, refuse_if)
from .frames import MAIN, MOST_DATA, MOST_PAGES, frame_read
from .sums import crc, doc_id

BLOCK = 512
SIZE = (1 + MOST_PAGES) * BLOCK  # R3.8

EMPTY, COLLECTING, DISAGREE = 0, 1, 2  # R8.3
ABSENT, HELD, DISPUTED = 0, 1, 2  # R8.4

ONE_MARK, OTHER_MARK = "one", "another"

Collection = namedtuple("Collection", "id totals pages")
Head = namedtuple("Head", "state id total")


# What a collection says.


def head_of(collection):
    """State 0 without a total, 1 with one, 2 with several (R9.4)."""
    if not collection.totals:
        return Head(EMPTY, collection.id, 0)
    if len(collection.totals) > 1:
        return Head(DISAGREE, collection.id, 0)
    return Head(COLLECTING, collection.id, *collection.totals)


def page_of(collection, index):
    """The state of a page and its data (R9.4): absent unless the one total covers it (R8.6)."""
    if not has_page(head_of(collection), index):
        return ABSENT, b""
    versions = [data for i, data in collection.pages if i == index]
    if not versions:
        return ABSENT, b""
    return (HELD, versions[0]) if len(versions) == 1 else (DISPUTED, b"")


def has_page(head, index):
    """Whether a page of this index may be other than absent under the head (R8.6)."""
    return head.state == COLLECTING and index < head.total


def indices_in(collection, state):
    """The pages below the total that are in this state, ascending."""
    total = head_of(collection).total
    return [i for i in range(total) if page_of(collection, i)[0] == state]


# Blocks.


def sealed(contents):
    """A block: its 508 bytes, filled up with zeros, and their checksum (R8.2)."""
    filled = contents.ljust(BLOCK - 4, b"\0")
    return filled + crc(filled)


def head_block(head):
    """Mark and version, state, id, total (R8.3)."""
    return sealed(b"IM" + bytes([1, head.state]) + head.id + bytes([head.total]))


def page_block(ident, index, state, data):
    """Mark, index, state, 00, id, length, data (R8.4)."""
    return sealed(bytes([0x50, index, state, 0]) + ident + len(data).to_bytes(2, "big") + data)


def save(collection):
    """The 97 blocks of a collection (R8.1)."""
    pages = (page_block(collection.id, i, *page_of(collection, i)) for i in range(MOST_PAGES))
    return head_block(head_of(collection)) + b"".join(pages)


# Reading blocks: every byte is judged, and any fault is 13 (R8.7).


def blocks_of(raw):
    """The head block and the 96 page blocks (R8.1); 13 for a wrong size."""
    refuse_if(len(raw) != SIZE, NOT_WELL_FORMED)
    blocks = [raw[at:at + BLOCK] for at in range(0, SIZE, BLOCK)]
    return blocks[0], blocks[1:]


def contents_of(block):
    """Bytes 0 to 507 of a block whose checksum holds (R8.2)."""
    refuse_if(block[508:] != crc(block[:508]), NOT_WELL_FORMED)
    return block[:508]


def read_head(block):
    """The head, well formed (R8.3)."""
    bytes_ = contents_of(block)
    state, ident, total = bytes_[3], bytes_[4:12], bytes_[12]
    refuse_if(bytes_[0:3] != b"IM\x01", NOT_WELL_FORMED)
    refuse_if(state not in (EMPTY, COLLECTING, DISAGREE), NOT_WELL_FORMED)
    refuse_if(state == COLLECTING and not 1 <= total <= MOST_PAGES, NOT_WELL_FORMED)
    refuse_if(state != COLLECTING and total != 0, NOT_WELL_FORMED)
    refuse_if(any(bytes_[13:]), NOT_WELL_FORMED)
    return Head(state, ident, total)


def read_page(head, index, block):
    """The page's state and data (R8.4), well formed (R8.5) under the head (R8.6)."""
    bytes_ = contents_of(block)
    state, length, room, rest = bytes_[2], bytes_[12:14], bytes_[14:494], bytes_[494:]
    length = int.from_bytes(length, "big")
    refuse_if(bytes_[0] != 0x50 or bytes_[1] != index, NOT_WELL_FORMED)
    refuse_if(state not in (ABSENT, HELD, DISPUTED), NOT_WELL_FORMED)
    refuse_if(bytes_[3] != 0 or bytes_[4:12] != head.id, NOT_WELL_FORMED)
    refuse_if(length > MOST_DATA or (state != HELD and length != 0), NOT_WELL_FORMED)
    refuse_if(any(room[length:]) or any(rest), NOT_WELL_FORMED)
    refuse_if(state != ABSENT and not has_page(head, index), NOT_WELL_FORMED)
    return state, room[:length]


def totals_from(head):
    """The set of totals that a head stands for."""
    return {EMPTY: frozenset(), COLLECTING: frozenset([head.total]),
            DISAGREE: frozenset([ONE_MARK, OTHER_MARK])}[head.state]


def versions_from(index, state, data):
    """The set of pages that a page block stands for."""
    return {ABSENT: set(), HELD: {(index, data)},
            DISPUTED: {(index, ONE_MARK), (index, OTHER_MARK)}}[state]


def read(raw):
    """A well-formed collection, else 13 (R8.7)."""
    first, others = blocks_of(raw)
    head = read_head(first)
    pages = set()
    for index, block in enumerate(others):
        pages |= versions_from(index, *read_page(head, index, block))
    return Collection(head.id, totals_from(head), frozenset(pages))


# The calls. Each takes the lent bytes and gives back what they become.


def open_collection(ident, room):
    """The empty collection: 19 for another id than 8 bytes, 11 for another room (R9.1)."""
    refuse_if(len(ident) != 8, OUT_OF_RANGE)
    refuse_if(room != SIZE, NO_ROOM)
    return save(Collection(ident, frozenset(), frozenset()))


def offer(raw, raw_frame):
    """13, the frame's own, 12 (R9.3); then the good page (R9.2) is taken."""
    collection = read(raw)
    frame = frame_read(raw_frame)
    refuse_if(frame.type != MAIN or frame.id != collection.id, OTHER_DOCUMENT)
    page = Collection(collection.id, frozenset([frame.total]),
                      frozenset([(frame.index, frame.data)]))
    result = union(collection, page)
    return save(result), kind_of(result, frame.index)


def kind_of(collection, index):
    """1 page held, 2 page disputed, 3 totals disagree (R9.5)."""
    if head_of(collection).state == DISAGREE:
        return 3
    return 1 if page_of(collection, index)[0] == HELD else 2


def union(one, other):
    """All totals and all pages of both (R9.4, R9.7)."""
    return Collection(one.id, one.totals | other.totals, one.pages | other.pages)


def join(into, other):
    """The union: each is judged (13), the written one first; then 12 for two documents (R9.6)."""
    written, lent = read(into), read(other)
    refuse_if(written.id != lent.id, OTHER_DOCUMENT)
    return save(union(written, lent))


def finish(raw, room):
    """The data of all pages by index, where the set is complete (R9.9, R1.6); refusals as R9.10."""
    collection = read(raw)
    refuse_if(head_of(collection).state == DISAGREE, TOTALS_DISAGREE)
    disputed = indices_in(collection, DISPUTED)
    refuse_if(disputed, PAGE_DISPUTED, *disputed[:1])
    refuse_if(head_of(collection).state == EMPTY, MISSING, 0)
    missing = indices_in(collection, ABSENT)
    refuse_if(missing, MISSING, *missing[:1])
    ciphertext = b"".join(page_of(collection, i)[1] for i in indices_in(collection, HELD))
    lend(room, ciphertext)
    refuse_if(doc_id(ciphertext) != collection.id, WRONG_ID)
    return ciphertext


def mend(raw):
    """13 where the head cannot be relied on; else each bad page block is made absent (R9.11)."""
    first, blocks = blocks_of(raw)
    head = read_head(first)
    bad = [i for i, block in enumerate(blocks) if not well_formed(head, i, block)]
    for index in bad:
        blocks[index] = page_block(head.id, index, ABSENT, b"")
    return first + b"".join(blocks), len(bad)


def well_formed(head, index, block):
    """Whether a page block is well formed under the head."""
    try:
        read_page(head, index, block)
        return True
    except Refusal:
        return False


def status(raw):
    """The status line (R9.12, R9.13), without its line feed."""
    try:
        collection = read(raw)
    except Refusal as refusal:
        return f"refused {refusal.number}"
    head = head_of(collection)
    if head.state != COLLECTING:
        return "empty" if head.state == EMPTY else "totals disagree"
    held, missing, disputed = (indices_in(collection, s) for s in (HELD, ABSENT, DISPUTED))
    first = missing[0] if missing else "-"
    return (f"pages {head.total} held {len(held)} missing {len(missing)} "
            f"disputed {len(disputed)} first {first}")
