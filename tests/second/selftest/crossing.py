"""`press` and `pantry`: what one prints the other gives back, and what is told of it."""

import random
import re
from collections import Counter

from .. import collection, forms, pier
from ..answers import Refusal
from ..cases import collecting
from ..pantry import (COMPLETE, KINDS, OTHER, SEEN, TAKEN, TOO_LONG, UNREADABLE, counted, fault_of,
                      order_of, pantry, set_of_pages)
from ..press import WrongWord, press
from ..typing_lines import read_typed
from .common import check, same

STRANGER = bytes(8)


def lines_by_chance(rng):
    """Scans of a few pages in a few versions, with strangers and noise among them."""
    def page():
        ident = STRANGER if rng.random() < 0.1 else collecting.ID
        total = 4 if rng.random() < 0.95 else 5
        return collecting.page(rng.randrange(4), total, rng.choice((b"", b"x")), ident)

    for _ in range(rng.randrange(16)):
        scan = forms.base64_write(page())
        yield rng.choice((scan, scan, scan, scan, scan[:-1], b"", scan + b" " * 1024))


def kind_by_steps(saved, line):
    """R15.9 as it is said: offered, a line changes the saved file, or it does not, or it is 12."""
    if len(line) > 1024:
        return saved, TOO_LONG
    try:
        after = collection.offer(saved, forms.base64_read(line))[0]
    except Refusal as refusal:
        return saved, OTHER if refusal.number == 12 else UNREADABLE
    return after, SEEN if after == saved else TAKEN


@check
def lines_are_counted_as_the_file_changes():
    """R15.9: the counts go with every byte of the saved file, line by line, and R1.4 holds."""
    rng, came = random.Random(15), Counter()
    for _ in range(150):
        saved = collection.open_collection(collecting.ID, collection.SIZE)
        scans, kinds = list(lines_by_chance(rng)), []
        for line in scans:
            saved, kind = kind_by_steps(saved, line)
            kinds.append(kind)
        same(counted(collecting.ID, scans), Counter(kinds))
        same(collection.save(set_of_pages(collecting.ID, scans)), saved)
        came.update(kinds)
    same([kind for kind in KINDS if came[kind] < 20], [])


@check
def a_first_line_is_an_id_or_has_a_fault():
    """R15.1 and R15.10: no fault is told of an id, and one of every other line."""
    rng = random.Random(16)
    lines = [b"", b"0" * 15, b"0" * 16, b"0" * 17, b"0" * 16 + b"\r", b"0" * 15 + b"A"]
    lines += [bytes(rng.choices(b"0123456789abcdef", k=16)) for _ in range(20)]
    lines += [line[:9] + bytes([byte]) + line[10:] for line in lines[-1:] for byte in range(256)]
    for line in lines:
        same(fault_of(line) is None, bool(pier.ID.fullmatch(line)), line)
    same(sum(fault_of(line) is None for line in lines), 1 + 20 + 16)
    for byte, word in ((b"\r", b"carriage"), (b"\t", b"blank"), (b"\x20", b"blank"),
                       (b"A", b"capital"), (b"F", b"capital"), (b"G", b"16 digits of"),
                       (b"\x08", b"16 digits of"), (b"!", b"16 digits of"),
                       (b"\x7f", b"16 digits of"), (b"\x80", b"beyond")):
        same(word in fault_of(b"0" * 15 + byte), True, byte)
        same(fault_of(byte + b" A\r\xff"), fault_of(byte), byte)


@check
def what_is_pressed_comes_back():
    """R1.6 by way of R15.4 and R15.6, with pages of any size, and less than all is not given."""
    rng = random.Random(17)
    for _ in range(30):
        ciphertext = rng.randbytes(rng.randrange(1, 3000))
        size = rng.randrange(-(-len(ciphertext) // 96), 481)
        printed = press(ciphertext, ("--size", str(size)))[0]
        done = pantry(printed)
        same((done.printed, done.status, done.files), (ciphertext, 0, {}))
        same(done.told.splitlines()[-1], COMPLETE)
        last = printed.splitlines(True)[-1]
        done = pantry(printed[:-len(last)], ("kept", "--to", "file"), {"file": b"old"})
        same((done.printed, done.status, done.files["file"]), (b"", 1, b"old"))
        ident = printed.splitlines(True)[0]
        done = pantry(ident + last, ("kept", "--to", "file"), done.files)
        same((done.printed, done.status, done.files["file"]), (b"", 0, ciphertext))


@check
def what_is_typed_is_what_is_scanned():
    """R15.4: the lines below a page's place, typed as they are printed, stand for its scan; a line
    is groups of six characters, seven at most, and only the last may be shorter."""
    rng = random.Random(19)
    for _ in range(30):
        ciphertext = rng.randbytes(rng.randrange(1, 3000))
        words = ("--size", str(rng.randrange(-(-len(ciphertext) // 96), 481)))
        ident, *scans = press(ciphertext, words)[0].splitlines()
        first, *below = re.split(rb"page (\d+ of \d+)\n", press(ciphertext, ("typed", *words))[0])
        same(first, ident + b"\n")
        same(below[::2], [b"%d of %d" % (number, len(scans)) for number in range(len(scans))])
        for scan, text in zip(scans, below[1::2]):
            same(read_typed(text.removesuffix(b"\n")), forms.base64_read(scan))
            for line in text.splitlines():
                *full, last = map(len, line.split(b" "))
                same((full, 1 <= last <= 6), ([6] * min(len(full), 6), True), line)


@check
def numbers_of_pages_go_with_the_status_line():
    """R15.9 and R9.12: as many numbers are told as the status line counts, and the first first."""
    rng = random.Random(18)
    for _ in range(60):
        scans = list(lines_by_chance(rng))
        given = b"\n".join([collecting.ID.hex().encode("ascii"), *scans])
        told = pantry(given).told.decode("ascii").splitlines()
        lists = {line.split(":")[0]: line.split(":")[1].split() for line in told[1:-2]}
        status = told[0].split()
        if status[0] == "pages":
            for name, number in (("missing", status[5]), ("disputed", status[7])):
                same(len(lists.get(name, [])), int(number), told)
            same(lists.get("missing", ["-"])[0], status[9])
        else:
            same(lists, {})
        same(told[-2].startswith("lines: "), True)


@check
def words_of_the_pantry():
    """R15.11: which words are KEPT and FILE, and which is the first that is wrong."""
    for words, wanted in (((), (None, None)), (("a",), ("a", None)), (("--to", "b"), (None, "b")),
                          (("a", "--to", "b"), ("a", "b")), (("--to", "b", "a"), ("a", "b")),
                          (("w" * 4095,), ("w" * 4095, None))):
        same(order_of(words), wanted, words)
    for words, wrong in ((("",), ""), (("w" * 4096,), "w" * 4096), (("a", "b", "-c"), "b"),
                         (("-",), "-"), (("a", "--to", "a"), "a"), (("a", "--to"), "--to"),
                         (("--to", "b", "--to", "c"), "--to"), (("--help", "a"), "--help"),
                         (("a", "--version"), "--version")):
        try:
            same(order_of(words), "a wrong word", words)
        except WrongWord as word:
            same(word.args[0], wrong, words)
