"""Sessions over the registers: section 3 of docs/DESK.md, section 9 of docs/RULES.md.

A session keeps a desk of its own, so that a later line can use what a
register then holds. Most lines are short: a whole collection is spelled out
only where it is loaded or saved.
"""

from itertools import permutations, product

from ..collection import SIZE, page_block, sealed
from ..desk import Desk
from ..frames import AUTH, KEY, MAIN, Frame, frame_write
from ..sums import doc_id
from .common import MOST_ROOM, Group, damaged, line, some_room, with_byte
from .framing import field_frames, laid_out, order_frames
from .samples import auth_payload, shard_payload

ID, STRANGE = bytes(range(0x10, 0x18)), bytes(range(0x20, 0x28))
REGISTERS = "abcd"


class Session:
    """The lines said so far, and a desk that follows them."""

    def __init__(self):
        self.lines = []
        self.desk = Desk()

    def say(self, *parts):
        """One more line; what the desk answers to it."""
        self.lines.append(line(*parts))
        return self.desk.answer(self.lines[-1])

    def holds(self, register):
        """The bytes of a register."""
        return self.desk.registers[register]


def page(index, total, data, ident=ID, kind=MAIN):
    """A raw frame."""
    return frame_write(Frame(kind, ident, index, total, data))


def built(session, register, pages, ident=ID):
    """A collection opened and offered these pages."""
    session.say("open", register, ident, SIZE)
    for raw in pages:
        session.say("offer", register, raw)


# Conditions of a collection, as short recipes.

HELD = [page(0, 3, b"zero"), page(1, 3, b""), page(2, 3, b"two")]
CONDITIONS = {
    "empty": [],
    "one page": HELD[:1],
    "other page": HELD[1:2],
    "whole": HELD,
    "another version": [page(0, 3, b"ZERO"), HELD[2]],
    "two versions": [HELD[0], page(0, 3, b"ZERO"), HELD[1]],
    "another total": [page(0, 4, b"zero")],
    "totals disagree": [HELD[0], page(0, 4, b"zero")],
}
OUT_OF_SHAPE = {"no bytes": b"", "short": b"IM\x01\x00", "wrong size": bytes(512)}


def set_up(session, register, name):
    """Bring a register into a condition."""
    if name in CONDITIONS:
        built(session, register, CONDITIONS[name])
    elif name in OUT_OF_SHAPE:
        session.say("load", register, OUT_OF_SHAPE[name])
    else:
        built(session, register, [page(0, 3, b"zero", STRANGE)], STRANGE)


def join_sessions():
    """Every condition joined with every other (R9.6, R9.7, R9.8), and with itself (D3.5)."""
    names = [*CONDITIONS, *OUT_OF_SHAPE, "other document"]
    for one, two in product(names, repeat=2):
        session = Session()
        set_up(session, "a", one)
        set_up(session, "b", two)
        session.say("join", "a", "b")
        for register in "ab":
            session.say("status", register)
        session.say("finish", "a", 100)
        if one in CONDITIONS and two in CONDITIONS:
            session.say("save", "a")
        session.say("join", "a", "a")
        session.say("status", "a")
        yield session.lines


def order_sessions():
    """The same pages in every order, with repeats: the saved bytes are the same (R1.4)."""
    sets = [HELD, [HELD[0], page(0, 3, b"ZERO"), HELD[2]], [HELD[0], HELD[1], page(2, 4, b"two")]]
    for pages in sets:
        for order in permutations([*pages, pages[0]]):
            session = Session()
            built(session, "a", order)
            session.say("save", "a")
            session.say("status", "a")
            yield session.lines


def open_sessions():
    """Ids and rooms at and around what is right (R9.1); a refusal leaves A5 (R1.2, D3.3)."""
    for ident in (b"", ID[:7], ID, ID + b"\0", bytes(32)):
        for room in (0, 1, 8, 511, 512, SIZE - 1, SIZE, SIZE + 1, MOST_ROOM):
            session = Session()
            session.say("open", "a", ident, room)
            session.say("status", "a")
            session.say("offer", "a", HELD[0])
            if room <= 8:
                session.say("save", "a")
            yield session.lines


def offer_sessions(rng):
    """Frames that are refused (R9.3) or taken (R9.2), each offered to a fresh collection (D3.4)."""
    frames = [*field_frames(), *order_frames(rng), laid_out(ident=STRANGE),
              page(0, 1, auth_payload(rng), kind=AUTH), page(0, 1, shard_payload(rng), kind=KEY),
              page(95, 96, b"x" * 480), page(96, 97, b"x"), page(0, 97, b"x"), b"", b"A"]
    for raw in frames:
        session = Session()
        built(session, "a", [raw, raw])
        session.say("status", "a")
        yield session.lines


def refused_sessions():
    """13 comes before all else, for registers of every wrong size (R8.1, R8.7)."""
    for length in (0, 1, 12, 508, 511, 512, 1024, SIZE - 512, SIZE - 1, SIZE, SIZE + 1, MOST_ROOM,
                   MOST_ROOM + 1):
        session = Session()
        session.say("load", "c", bytes(length))
        for call in (("status", "c"), ("mend", "c"), ("offer", "c", b"junk"), ("finish", "c", 0),
                     ("join", "c", "c"), ("join", "d", "c"), ("join", "c", "d")):
            session.say(*call)
        if length < 600:
            session.say("save", "c")
        yield session.lines


def documents(rng):
    """Ciphertexts with their pages: lengths at every bound, pages of no bytes too (R9.9)."""
    shapes = [[0], [1], [480], [0, 0], [5, 0, 7], [480] * 3 + [1], [1] * 96, [480] * 96, [0] * 96]
    for shape in shapes:
        parts = [rng.randbytes(length) for length in shape]
        yield b"".join(parts), parts


def finish_sessions(rng):
    """Documents under their id and under another (R1.6); every room; one page lacking (R9.10)."""
    for ciphertext, parts in documents(rng):
        for ident in (doc_id(ciphertext), STRANGE):
            raws = [page(i, len(parts), data, ident) for i, data in enumerate(parts)]
            session = Session()
            built(session, "a", rng.sample(raws[1:], len(raws) - 1), ident)
            session.say("finish", "a", MOST_ROOM)
            session.say("status", "a")
            session.say("offer", "a", raws[0])
            for room in sorted({0, max(0, len(ciphertext) - 1), len(ciphertext), MOST_ROOM}):
                session.say("finish", "a", room)
            session.say("status", "a")
            yield session.lines


def place_sessions(rng):
    """15 before 16 (R9.10), and the lowest place of each (R2.3)."""
    for disputed, missing in product(((), (0,), (2, 4), (95,)), ((), (0,), (1, 3), (95,))):
        session = Session()
        session.say("open", "a", ID, SIZE)
        for index in range(96):
            if index not in missing or index in disputed:
                session.say("offer", "a", page(index, 96, b"%d" % index))
            if index in disputed:
                session.say("offer", "a", page(index, 96, b""))
        for call in (("status", "a"), ("finish", "a", 0), ("finish", "a", 500)):
            session.say(*call)
        yield session.lines


# Damaged saved files.


def sample_file():
    """Total 5: full, empty, absent, disputed and short pages."""
    session = Session()
    built(session, "a", [page(0, 5, b"f" * 480), page(1, 5, b""), page(3, 5, b"one"),
                         page(3, 5, b"other"), page(4, 5, b"short")])
    return session.holds("a")


def reblocked(raw, number, block):
    """The file with one block replaced."""
    return raw[:512 * number] + block + raw[512 * number + 512:]


def block_of(raw, number):
    """One block."""
    return raw[512 * number:512 * number + 512]


def damage_of(raw, number, offsets):
    """One byte of a block changed, with and without a right checksum (R8.2)."""
    block = block_of(raw, number)
    for at in offsets:
        for flip in (1, 0x80):
            bad = with_byte(block, at, block[at] ^ flip)
            yield reblocked(raw, number, bad)
            if at < 508:
                yield reblocked(raw, number, sealed(bad[:508]))


def head_files(raw):
    """Heads of every state and total, and every region of the head damaged (R8.3)."""
    head = block_of(raw, 0)
    for state, total in product((0, 1, 2, 3, 255), (0, 1, 4, 5, 6, 96, 97, 255)):
        bad = head[:3] + bytes([state]) + head[4:12] + bytes([total]) + head[13:508]
        yield reblocked(raw, 0, sealed(bad))
    yield from damage_of(raw, 0, (0, 1, 2, 3, 4, 11, 12, 13, 14, 300, 507, 508, 511))


def page_files(raw):
    """Every region of pages in every condition (R8.4), below the total and beyond it (R8.6)."""
    for number in (1, 2, 3, 4, 5, 6, 96):
        yield from damage_of(raw, number, (0, 1, 2, 3, 4, 11, 12, 13, 14, 18, 19, 493, 494, 507,
                                           508, 511))


def state_files(raw):
    """Page blocks of every state and length under a right checksum (R8.4, R8.5)."""
    for number, state in product((3, 6), (0, 1, 2, 3, 255)):
        for length in (0, 1, 479, 480, 481, 65535):
            for data in (bytes(480), b"\x01" + bytes(479), bytes(479) + b"\x01"):
                front = block_of(page_block(ID, number - 1, state, b""), 0)[:12]
                contents = front + length.to_bytes(2, "big") + data
                yield reblocked(raw, number, sealed(contents))


def several_files(rng, raw):
    """Many blocks damaged, blocks exchanged, and files that are nothing of the kind."""
    for count in (2, 10, 60, 96):
        bad = raw
        for number in rng.sample(range(1, 97), count):
            bad = with_byte(bad, 512 * number + rng.randrange(512), rng.randrange(256))
        yield bad
    one, two = block_of(raw, 1), block_of(raw, 5)
    yield reblocked(reblocked(raw, 1, two), 5, one)
    yield raw[:512] + b"".join(reversed([block_of(raw, n) for n in range(1, 97)]))
    yield from (bytes(SIZE), b"\xa5" * SIZE, rng.randbytes(SIZE), raw[512:] + raw[:512])


def bare_file():
    """A collection just opened."""
    session = Session()
    built(session, "a", [])
    return session.holds("a")


def damaged_files(rng):
    """All of these, and the good files. Under a bare one no page hides a fault of the head."""
    raw, bare = sample_file(), bare_file()
    yield from (raw, bare)
    for part in (head_files(raw), head_files(bare), page_files(raw), state_files(raw),
                 several_files(rng, raw)):
        yield from part


def resized_files():
    """Good blocks, but too few, too many, or cut (R8.1)."""
    for raw in (sample_file(), bare_file()):
        yield from (raw[:-1], raw + b"\0", raw[:-512], raw + raw[-512:], raw[:512], raw[512:])


def resized_sessions():
    """Good blocks of a wrong total size, in every call that reads a collection."""
    for raw in resized_files():
        session = Session()
        built(session, "b", HELD)
        session.say("load", "a", raw)
        for call in (("status", "a"), ("mend", "a"), ("offer", "a", page(2, 5, b"late")),
                     ("finish", "a", 1000), ("join", "a", "b"), ("join", "b", "a"),
                     ("join", "a", "a"), ("status", "b")):
            session.say(*call)
        yield session.lines


def file_sessions(rng):
    """Each file loaded (D3.2) and looked at, offered to, mended (R9.11), looked at and saved."""
    for raw in damaged_files(rng):
        session = Session()
        session.say("load", "a", raw)
        session.say("status", "a")
        session.say("offer", "a", page(2, 5, b"late"))
        session.say("finish", "a", 1000)
        answer = session.say("mend", "a")
        session.say("status", "a")
        if answer not in ("13", "0 0"):
            session.say("save", "a")
            session.say("offer", "a", page(2, 5, b"later"))
            session.say("status", "a")
        yield session.lines


def emptied_sessions(rng):
    """State 1 with no page held, which only mend can leave (R8.8)."""
    raw = sample_file()
    for number in (1, 2, 4, 5):
        raw = with_byte(raw, 512 * number + 511, raw[512 * number + 511] ^ 1)
    for recipe in CONDITIONS:
        session = Session()
        session.say("load", "a", raw)
        session.say("mend", "a")
        set_up(session, "b", recipe)
        for call in (("status", "a"), ("finish", "a", 9), ("join", "b", "a"), ("status", "b"),
                     ("join", "a", "b"), ("status", "a"), ("save", "a")):
            session.say(*call)
        yield session.lines


def edges(rng):
    """The edges of all register verbs."""
    yield from open_sessions()
    yield from refused_sessions()
    yield from join_sessions()
    yield from order_sessions()
    yield from offer_sessions(rng)
    yield from finish_sessions(rng)
    yield from place_sessions(rng)
    yield from resized_sessions()
    yield from file_sessions(rng)
    yield from emptied_sessions(rng)


# Sessions by chance.


class Crossing(Session):
    """Pages of one document scanned at several piers, among much else (R1.4, R1.5, R1.6)."""

    def __init__(self, rng):
        super().__init__()
        self.rng = rng
        self.calm = rng.random() < 0.5
        parts = [rng.randbytes(rng.choice((0, 1, 20, 20, 480)))
                 for _ in range(rng.choice((1, 2, 3, 5, 8, 12, 96)))]
        self.ident = doc_id(b"".join(parts)) if rng.random() < 0.8 else rng.randbytes(8)
        self.parts, self.length = parts, sum(map(len, parts))
        self.piers = REGISTERS[:rng.randrange(1, 5)]

    def pier(self):
        """One of the registers in use, now and then another."""
        return self.rng.choice(self.piers if self.rng.random() < 0.97 else REGISTERS)

    def scan(self):
        """A good page of the document."""
        index = self.rng.randrange(len(self.parts))
        return page(index, len(self.parts), self.parts[index], self.ident)

    def stranger(self):
        """A frame that does not belong: other document, other type, other total or data."""
        rng, total = self.rng, len(self.parts)
        index = rng.randrange(total)
        ways = [lambda: page(index, total, b"", rng.randbytes(8)),
                lambda: page(0, 1, b"", self.ident, rng.choice((KEY, AUTH))),
                lambda: damaged(rng, self.scan())]
        if not self.calm:
            ways += [lambda: page(index, total, rng.randbytes(3), self.ident),
                     lambda: page(index, total, b"", self.ident)]
            if rng.random() < 0.1:
                ways += [lambda: page(index, rng.choice((total + 1, 96)), b"", self.ident)] * 2
        return rng.choice(ways)()

    def offer(self):
        self.say("offer", self.pier(), self.scan())

    def offer_stranger(self):
        self.say("offer", self.pier(), self.stranger())

    def join(self):
        self.say("join", self.pier(), self.pier())

    def status(self):
        self.say("status", self.pier())

    def finish(self):
        self.say("finish", self.pier(), some_room(self.rng, self.length))

    def mend(self):
        self.say("mend", self.pier())

    def save(self):
        self.say("save", self.pier())

    def damage(self):
        """A register's bytes with a few of them changed, some under a right CRC."""
        rng, register = self.rng, self.pier()
        raw = self.holds(register)
        if len(raw) == SIZE and not self.calm:
            number = rng.choice((0, 1, rng.randrange(97)))
            at = rng.choice((rng.randrange(16), rng.randrange(512)))
            block = with_byte(block_of(raw, number), at, rng.randrange(256))
            block = sealed(block[:508]) if rng.random() < 0.5 else block
            self.say("load", register, reblocked(raw, number, block))

    def open(self):
        """Mostly right."""
        rng = self.rng
        ident = self.ident if rng.random() < 0.8 else rng.randbytes(rng.choice((7, 8, 9)))
        self.say("open", self.pier(), ident, SIZE if rng.random() < 0.9 else rng.choice((0, 512)))

    def whole(self):
        """The session: open, many calls, and a look at the end."""
        rng = self.rng
        for register in self.piers:
            self.say("open", register, self.ident, SIZE)
        if self.calm:
            for index, data in enumerate(self.parts):
                self.say("offer", self.pier(), page(index, len(self.parts), data, self.ident))
        steps = [self.offer] * 12 + [self.offer_stranger] * 5 + [self.join] * 4 + [self.status] * 3
        steps += [self.finish] * 2 + [self.mend, self.damage]
        for _ in range(rng.randrange(10, 60)):
            rng.choice(steps + [self.open, self.save] * (rng.random() < 0.3))()
        self.at_the_end()
        return self.lines

    def at_the_end(self):
        """All joined into the first, looked at, finished and saved."""
        for register in self.piers[1:]:
            self.say("join", self.piers[0], register)
        self.say("status", self.piers[0])
        self.say("finish", self.piers[0], MOST_ROOM)
        self.say("save", self.piers[0])


def chance(rng):
    """A session by chance."""
    return Crossing(rng).whole()


SAMPLES = [b"load a 00", b"save a", line("open", "a", ID, SIZE), line("offer", "a", HELD[0]),
           b"join a b", b"finish a 100", b"mend a", b"status a"]

GROUPS = [Group(["load", "save", "open", "offer", "join", "finish", "mend", "status"], 1, SAMPLES,
                edges, chance)]
