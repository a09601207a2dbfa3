"""Stored sessions over the registers."""

from ..cases.collecting import ID, STRANGE, block_of, page, reblocked
from ..cases.common import with_byte
from ..collection import SIZE, Collection, save, sealed
from ..frames import AUTH, KEY
from ..sums import doc_id
from .script import Section, call, note, title

REGISTER_VERBS = ["load", "save", "open", "offer", "join", "finish", "mend", "status"]

PARTS = [b"first ", b"", b"last"]
CIPHERTEXT = b"".join(PARTS)
DOCUMENT = doc_id(CIPHERTEXT)
PAGES = [page(i, 3, data, DOCUMENT) for i, data in enumerate(PARTS)]


def opening():
    yield from title("Opening (R9.1, D3.3): id 19, then 11; a refusal leaves the bytes (R1.2)")
    yield note("a register holds no bytes at first (D3.1), which is no collection (R9.13)")
    yield call("status", "a", is_="refused 13")
    yield call("open", "a", DOCUMENT[:7], 3, is_="19")
    yield call("open", "a", DOCUMENT, 3, is_="11")
    yield call("save", "a", is_="0 a5a5a5")
    yield call("open", "a", DOCUMENT, SIZE - 1, is_="11")
    yield call("open", "a", DOCUMENT, SIZE + 1, is_="11")
    yield call("open", "a", DOCUMENT, SIZE, is_="0")
    yield call("status", "a", is_="empty")
    yield call("finish", "a", 100, is_="16 0")
    yield call("join", "a", "a", is_="0")
    yield call("mend", "a", is_="0 0")


def crossing():
    yield note("a document of three pages, the second without data: held all the same (R9.9)")
    yield call("offer", "a", PAGES[2], is_="0 1")
    yield call("offer", "a", PAGES[0], is_="0 1")
    yield note("the status line of R9.12 itself (D3.7); a repeat is no progress (R1.4)")
    yield call("status", "a", is_="pages 3 held 2 missing 1 disputed 0 first 1")
    yield call("offer", "a", PAGES[0], is_="0 1")
    yield call("status", "a", is_="pages 3 held 2 missing 1 disputed 0 first 1")
    yield note("finish, before the set is complete and after (R1.6, R9.10)")
    yield call("finish", "a", 100, is_="16 1")
    yield call("offer", "a", PAGES[1], is_="0 1")
    yield call("status", "a", is_="pages 3 held 3 missing 0 disputed 0 first -")
    yield call("finish", "a", len(CIPHERTEXT), is_=f"0 {CIPHERTEXT.hex()}")
    yield call("finish", "a", len(CIPHERTEXT) - 1, is_="11")
    yield note("all of it as it is saved (R8.1, R8.2, R8.3, R8.4, R8.5)")
    yield call("save", "a")


def refusals():
    yield note("frames not taken: cut, of another document, auth and key frames (R9.2, R9.3)")
    for raw, answer in ((PAGES[0][:-1], "3"), (b"", "3"), (b"AQ", "4"),
                        (page(0, 3, b"", STRANGE), "12"),
                        (page(0, 1, b"", DOCUMENT, KEY), "12"),
                        (page(0, 1, b"", DOCUMENT, AUTH), "12"),
                        (page(0, 2, b"", DOCUMENT, AUTH), "8"),
                        (page(3, 3, b"", DOCUMENT), "8"), (page(0, 97, b"", DOCUMENT), "9"),
                        (PAGES[0][:-1] + b"?", "10")):
        yield call("offer", "a", raw, is_=answer)
    yield call("status", "a", is_="pages 3 held 3 missing 0 disputed 0 first -")


def disputes():
    yield note("another version of page 2: disputed for good, the first comes in vain (R9.4, R9.5)")
    yield call("open", "b", DOCUMENT, SIZE, is_="0")
    yield call("offer", "b", PAGES[2], is_="0 1")
    yield call("offer", "b", page(2, 3, b"LAST", DOCUMENT), is_="0 2")
    yield call("offer", "b", PAGES[2], is_="0 2")
    yield call("status", "b", is_="pages 3 held 0 missing 2 disputed 1 first 0")
    yield note("15 before 16, though page 0 is missing (R9.10)")
    yield call("finish", "b", 0, is_="15 2")
    yield note("joined into a whole one: the dispute wins (R9.7); the one read stays (D3.5)")
    yield call("join", "a", "b", is_="0")
    yield call("status", "a", is_="pages 3 held 2 missing 0 disputed 1 first -")
    yield call("status", "b", is_="pages 3 held 0 missing 2 disputed 1 first 0")
    yield call("finish", "a", 100, is_="15 2")


def totals():
    yield note("another total: all pages absent, for good, whatever comes (R9.4, R9.7)")
    yield call("open", "c", DOCUMENT, SIZE, is_="0")
    yield call("offer", "c", page(0, 4, PARTS[0], DOCUMENT), is_="0 1")
    yield call("join", "b", "c", is_="0")
    yield call("status", "b", is_="totals disagree")
    yield call("finish", "b", 0, is_="14")
    yield call("offer", "c", PAGES[1], is_="0 3")
    yield call("offer", "c", page(0, 4, PARTS[0], DOCUMENT), is_="0 3")
    yield call("status", "c", is_="totals disagree")
    yield note("two documents 12; a collection that is none 13, the written one first (R9.6)")
    yield call("open", "d", STRANGE, SIZE, is_="0")
    yield call("join", "d", "a", is_="12")
    yield call("load", "d", b"IM", is_="0")
    yield call("join", "d", "a", is_="13")
    yield call("join", "a", "d", is_="13")
    yield call("offer", "d", b"", is_="13")
    yield call("finish", "d", 0, is_="13")
    yield call("mend", "d", is_="13")
    yield call("save", "d", is_="0 494d")


def other_ids():
    yield note("a whole document under an id that is not its own: 11, then 17 (R1.6, R9.10)")
    yield call("open", "d", STRANGE, SIZE, is_="0")
    yield call("offer", "d", page(0, 1, b"forged", STRANGE), is_="0 1")
    yield call("finish", "d", 5, is_="11")
    yield call("finish", "d", 6, is_="17")


def damaged_file():
    """Pages 0 and 1 of two held; page 0 changed, page 2 held under a right checksum."""
    good = save(Collection(ID, frozenset([2]), frozenset([(0, b"zero"), (1, b"one")])))
    bad = with_byte(good, 512 + 14, 0)
    beyond = with_byte(block_of(bad, 3), 2, 1)
    return reblocked(bad, 3, sealed(beyond[:508]))


def mending():
    yield note("a damaged file (R9.11): page 0 of a wrong checksum, page 2 held at total 2 (R8.6)")
    yield call("load", "d", damaged_file(), is_="0")
    yield call("status", "d", is_="refused 13")
    yield call("mend", "d", is_="0 2")
    yield call("status", "d", is_="pages 2 held 1 missing 1 disputed 0 first 0")
    yield call("mend", "d", is_="0 0")
    yield call("save", "d")


def forms():
    yield note("arguments of register calls that are not of the form (D1.5, D3.1)")
    for parts in (("open", "e", ID, SIZE), ("open", "a", ID), ("save",), ("save", "A"),
                  ("save", "a", "b"), ("join", "a"), ("join", "a", "b", "c"), ("status", "ab"),
                  ("mend", "-"), ("finish", "a"), ("finish", "a", 65537), ("offer", "a")):
        yield call(*parts, is_="?")


def sessions():
    for part in (opening, crossing, refusals, disputes, totals, other_ids, mending, forms):
        yield from part()


SECTIONS = [Section(REGISTER_VERBS, sessions)]
