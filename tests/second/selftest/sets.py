"""The collection: sets against steps, and what is well formed."""

import random

from .. import collection, desk
from ..cases import collecting
from ..cases.common import with_byte
from .common import answer_of, check, same, says


class StepByStep:
    """R9.4 taken offer by offer, as a second opinion on the sets."""

    def __init__(self):
        self.total, self.disagree, self.pages, self.disputed = None, False, {}, set()

    def take(self, index, total, data):
        if self.disagree or self.total not in (None, total):
            self.disagree, self.pages, self.disputed = True, {}, set()
            return 3
        self.total = total
        if index in self.disputed or self.pages.get(index, data) != data:
            self.pages.pop(index, None)
            self.disputed.add(index)
            return 2
        self.pages[index] = data
        return 1

    def status(self):
        if self.disagree or self.total is None:
            return "totals disagree" if self.disagree else "empty"
        missing = [i for i in range(self.total) if i not in self.pages and i not in self.disputed]
        return (f"pages {self.total} held {len(self.pages)} missing {len(missing)} disputed "
                f"{len(self.disputed)} first {missing[0] if missing else '-'}")


@check
def sets_agree_with_steps():
    """R9.4, R9.5 and the status line, and then R1.4 and R1.5 of the same pages."""
    rng = random.Random(9)
    for _ in range(120):
        raw, steps = collection.open_collection(collecting.ID, collection.SIZE), StepByStep()
        seen = []
        for _ in range(rng.randrange(14)):
            total = 4 if rng.random() < 0.96 else 5
            page = rng.randrange(4), total, rng.choice((b"", b"x"))
            seen.append(page)
            raw, kind = collection.offer(raw, collecting.page(*page))
            same(kind, steps.take(*page))
            same(collection.status(raw), steps.status())
        any_order(rng, raw, seen)


def any_order(rng, raw, seen):
    """The same pages in another order (R1.4), in two collections that are then joined (R1.5)."""
    parts = [collection.open_collection(collecting.ID, collection.SIZE) for _ in range(2)]
    for page in rng.sample(seen, len(seen)) + seen[:2]:
        which = rng.randrange(2)
        parts[which], _ = collection.offer(parts[which], collecting.page(*page))
    same(collection.join(*parts), raw)
    same(collection.join(*reversed(parts)), raw)
    same(collection.join(raw, raw), raw)


@check
def well_formed_is_what_save_writes():
    """R8.7: what is accepted is what is saved, and no changed byte is accepted."""
    rng = random.Random(10)
    accepted = refused = 0
    for raw in collecting.damaged_files(rng):
        number, book = answer_of(collection.read, raw)
        accepted, refused = accepted + (number == 0), refused + (number == 13)
        if number == 0:
            same(collection.save(book), raw)
    good = collecting.sample_file()
    for at in range(0, len(good), 97):
        bad = with_byte(good, at, good[at] ^ 0x10)
        same(answer_of(collection.read, bad), (13, 0), at)
    same(accepted > 20 and refused > 300, True, accepted, refused)


@check
def files_of_other_sizes_or_heads():
    """R8.1, and the states and totals of R8.3; mend refuses the same (R9.11)."""
    bare = collecting.bare_file()
    for raw in (b"", bare[:-1], bare + b"\0", bare[:-512], bare + bare[-512:]):
        same(answer_of(collection.read, raw), (13, 0))
        same(answer_of(collection.mend, raw), (13, 0))
    for state, total, number in ((0, 0, 0), (1, 1, 0), (1, 96, 0), (2, 0, 0), (3, 0, 13),
                                 (0, 1, 13), (1, 0, 13), (1, 97, 13), (2, 1, 13), (2, 96, 13)):
        head = bare[:3] + bytes([state]) + bare[4:12] + bytes([total]) + bare[13:508]
        raw = collection.sealed(head) + bare[512:]
        same(answer_of(collection.read, raw)[0], number, state, total)
        same(answer_of(collection.mend, raw)[0], number, state, total)


@check
def pages_at_the_total_are_absent():
    """R8.6, and the first page at the total as mend finds it (R9.11)."""
    held = collection.page_block(collecting.ID, 1, 1, b"")
    for total, number in ((1, 13), (2, 0)):
        head = collection.head_block(collection.Head(1, collecting.ID, total))
        raw = collecting.reblocked(collecting.reblocked(collecting.bare_file(), 0, head), 2, held)
        same(answer_of(collection.read, raw)[0], number)
        same(collection.mend(raw)[1], 1 if number else 0)


@check
def lenient_files_are_told_apart():
    """R8.7: well formed is exactly what is read leniently and saved as it was."""
    rng = random.Random(11)
    for raw in collecting.damaged_files(rng):
        accepted = answer_of(collection.read, raw)[0] == 0
        same(accepted, leniently_saved(raw) == raw)


def leniently_saved(raw):
    """Decoded without a look at anything that is fixed, and laid out again."""
    blocks = [raw[i:i + 512] for i in range(0, len(raw), 512)]
    head, ident = blocks[0], blocks[0][4:12]
    totals = {0: [], 1: [head[12]], 2: ["x", "y"]}.get(head[3], [])
    pages = set()
    for index, block in enumerate(blocks[1:]):
        length = min(480, int.from_bytes(block[12:14], "big"))
        held = [(index, block[14:14 + length])]
        pages |= set({1: held, 2: [(index, "x"), (index, "y")]}.get(block[2], []))
    if totals and isinstance(totals[0], int) and not 1 <= totals[0] <= 96:
        return None
    return collection.save(collection.Collection(ident, frozenset(totals), frozenset(pages)))


@check
def errors_that_come_easily():
    """Repeats, strangers and a dispute (R9.3, R9.4, R9.5), and the status line (R9.12)."""
    at = desk.Desk()
    pages = [collecting.page(i, 2, b"").hex() for i in range(2)]
    says(f"open a {collecting.ID.hex()} 49664", "0", at)
    says(f"offer a {pages[0]}", "0 1", at)
    says(f"offer a {pages[0]}", "0 1", at)
    says("status a", "pages 2 held 1 missing 1 disputed 0 first 1", at)
    says(f"offer a {collecting.page(0, 2, b'', bytes(8)).hex()}", "12", at)
    says(f"offer a {collecting.page(0, 2, b'other').hex()}", "0 2", at)
    says(f"offer a {pages[0]}", "0 2", at)
    says(f"offer a {pages[1]}", "0 1", at)
    says("status a", "pages 2 held 1 missing 0 disputed 1 first -", at)
