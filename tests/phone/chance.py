"""Calls of the phone's functions by chance, each with what it must answer and leave.

A session is the crossing of one document: registers are opened for it, its pages offered to them in
any order, among frames that are none of its pages, and the registers joined, finished, damaged and
restored. Between such calls stand cheap ones, of stilt_frame, stilt_base64 and stilt_typed.
"""

import struct
import zlib

import expected
from second.cases import framing, mistyping, plain_forms
from second.cases.common import damaged, some_bytes, some_length, some_room
from second.collection import SIZE
from second.forms import base64_write
from second.frames import AUTH, KEY, MAIN, Frame, frame_write
from second.sums import doc_id

FILL, MARGIN, REGISTERS, FLIP = b"\xa5", 64, 6, 255  # as in calls.c
MOST = 131072
NAMES = list(expected.FUNCTIONS)


class Calls:
    """The calls so far as calls.c reads them, and what it must print."""

    def __init__(self):
        self.stream, self.wanted = [], []
        self.registers = [FILL * SIZE] * REGISTERS

    def call(self, name, *slices):
        """One call. A slice: a number is a register, a tuple one with another length, bytes are
        themselves, None is null."""
        work, writes, _ = expected.FUNCTIONS[name]
        held = [self.bytes_of(slice_) for slice_ in slices]
        answer, held[writes] = work(*held)
        self.stream += [bytes([NAMES.index(name)]), *map(self.written, slices)]
        summed = b"".join(map(self.kept, slices, held))
        self.wanted.append((name, answer, zlib.crc32(summed)))

    def bytes_of(self, slice_):
        """What a slice holds before the call."""
        if isinstance(slice_, int):
            return self.registers[slice_]
        if isinstance(slice_, tuple):
            return (self.registers[slice_[0]] + FILL * MARGIN)[:slice_[1]]
        return slice_ or b""

    def kept(self, slice_, after):
        """What the sum is taken of after the call. A register of another length is never written:
        it is no collection."""
        if isinstance(slice_, int):
            self.registers[slice_] = after
        if isinstance(slice_, (int, tuple)):
            which = slice_ if isinstance(slice_, int) else slice_[0]
            return self.registers[which] + FILL * MARGIN
        return b"" if slice_ is None else FILL * MARGIN + after + FILL * MARGIN

    def written(self, slice_):
        """A slice for calls.c."""
        if slice_ is None:
            return b"n" + bytes(4)
        if isinstance(slice_, int):
            slice_ = slice_, SIZE
        if isinstance(slice_, tuple):
            return b"r" + struct.pack("<II", slice_[1], slice_[0])
        if slice_ == FILL * len(slice_):
            return b"o" + struct.pack("<I", len(slice_))
        return b"b" + struct.pack("<I", len(slice_)) + slice_

    def flip(self, register, place, byte):
        """Change a byte of a register."""
        self.stream.append(struct.pack("<BIIB", FLIP, register, place, byte))
        held = bytearray(self.registers[register])
        held[place] ^= byte
        self.registers[register] = bytes(held)


def room(rng, length):
    """A slice to be written. One that is empty is null now and then."""
    return FILL * length if length or rng.random() < 0.5 else None


# Calls that need no register.


def some_frames(rng):
    """Every edge of a frame once, in any order, and then frames by chance without end."""
    edges = [*framing.field_frames(), *framing.number_frames(), *framing.order_frames(rng),
             *framing.length_frames(rng)]
    rng.shuffle(edges)
    yield from edges
    while True:
        raw = framing.some_frame(rng)
        yield rng.choice((raw, raw, damaged(rng, raw), rng.randbytes(rng.randrange(40)),
                          framing.recovered(damaged(rng, raw).ljust(4, b"A"))))


def base64_by_chance(rng):
    """A text in base64 and the room that it is given: good, spaced, damaged, of any characters."""
    form, data = plain_forms.BASE64, some_bytes(rng, some_length(rng, 600))
    text = base64_write(data)
    text = rng.choice((text, plain_forms.spaced(rng, form, text), damaged(rng, text),
                       text + b"=" * (-len(text) % 4), rng.randbytes(rng.randrange(20)),
                       plain_forms.some_text(rng, form, rng.randrange(40))))
    return text, some_room(rng, len(data))


def typed_by_chance(rng):
    """Typed lines and the room that they are given."""
    data, text = mistyping.some_lines(rng)
    return text, some_room(rng, len(data))


def some_texts(rng, verb, edges, by_chance):
    """Every edge of a verb of the desk once, in any order, and then texts by chance without end."""
    calls = [(bytes.fromhex(text.decode().strip("-")), int(length))
             for one, text, length in map(bytes.split, edges) if one == verb]
    rng.shuffle(calls)
    yield from (call for call in calls if len(call[0]) <= MOST)
    while True:
        text, length = by_chance(rng)
        yield text, min(length, rng.choice((500, 600, 1000)))


def some_base64(rng):
    """Texts in base64."""
    edges = plain_forms.text_edges(plain_forms.BASE64)(rng)
    return some_texts(rng, b"base64-read", edges, base64_by_chance)


def some_typed(rng):
    """Typed lines."""
    return some_texts(rng, b"typed-read", mistyping.edges(rng), typed_by_chance)


# Calls on registers.


class Session:
    """The crossing of one document."""

    def __init__(self, rng, calls, frames):
        self.rng, self.calls, self.frames = rng, calls, frames
        total = rng.choice((1, 2, 3, 5, 8, 12, 12, 40, 96, rng.randrange(1, 97)))
        lengths = rng.choice(((480,), (20, 480), (0, 1, 20, 479, 480)))
        self.parts = [rng.randbytes(rng.choice(lengths)) for _ in range(total)]
        self.length = sum(map(len, self.parts))
        self.ident = doc_id(b"".join(self.parts)) if rng.random() < 0.8 else rng.randbytes(8)
        self.calm = rng.random() < 0.6
        self.piers = rng.sample(range(REGISTERS), rng.randrange(2, REGISTERS))

    def pier(self):
        """One of the registers in use, now and then another."""
        return self.rng.choice(self.piers if self.rng.random() < 0.97 else range(REGISTERS))

    def lent(self):
        """A register as it is lent: now and then with a wrong length, or none."""
        wrong = [(self.pier(), self.rng.choice((1, 511, SIZE - 512, SIZE - 1, SIZE + 1))), None]
        return self.pier() if self.rng.random() < 0.98 else self.rng.choice(wrong)

    def page(self, at, **other):
        """A page of the document, with some fields exchanged."""
        page = Frame(MAIN, self.ident, at, len(self.parts), self.parts[at])
        return frame_write(page._replace(**other))

    def stranger(self):
        """A frame that is no page of the document, or that tells of it otherwise."""
        rng = self.rng
        index = rng.randrange(len(self.parts))
        ways = [lambda: self.page(index, id=rng.randbytes(8)),
                lambda: self.page(index, type=rng.choice((KEY, AUTH)), index=0, total=1),
                lambda: damaged(rng, self.page(index)), lambda: next(self.frames),
                lambda: framing.recovered(damaged(rng, self.page(index)).ljust(4, b"A"))]
        if not self.calm:
            ways += [lambda: self.page(index, data=rng.randbytes(rng.choice((0, 3, 480))))] * 5
            if rng.random() < 0.1:
                ways += [lambda: self.page(index, total=rng.randrange(index + 1, 97))] * 5
        return rng.choice(ways)()

    def open(self, register):
        """A collection opened for the document; now and then for another, or not as it must be."""
        rng = self.rng
        if rng.random() < 0.1:
            self.calls.call("open", rng.randbytes(rng.randrange(17)) or None, register)
            self.calls.call("open", self.ident, (register, rng.choice((0, SIZE - 1, SIZE + 1))))
        self.calls.call("open", self.ident if rng.random() < 0.95 else rng.randbytes(8), register)

    def offer(self, lent, frame):
        self.calls.call("offer", lent, frame or None)

    def join(self, into, other):
        """Two registers joined: not one with itself, since slices of one call do not overlap."""
        if into is None or other is None or register_of(into) != register_of(other):
            self.calls.call("join", into, other)

    def finish(self, lent):
        self.calls.call("finish", lent, room(self.rng, some_room(self.rng, self.length)))

    def status(self, lent):
        length = self.rng.choice((96, 96, 97, self.rng.randrange(201)))
        self.calls.call("status", lent, room(self.rng, length))

    def damage(self):
        """A byte of a register changed, some calls on it, and the byte restored."""
        rng, register = self.rng, self.pier()
        block = 512 * rng.choice((0, rng.randrange(97)))
        place = block + rng.choice((2, 3, 12, 13, 508, rng.randrange(512)))
        byte = 1 << rng.randrange(8)
        self.calls.flip(register, place, byte)
        self.other(register)
        self.other(register)
        self.calls.flip(register, place, byte)

    def other(self, lent):
        """A call that is no offer of a page."""
        ways = [lambda: self.join(lent, self.lent()), lambda: self.join(self.lent(), lent),
                lambda: self.finish(lent), lambda: self.status(lent), lambda: self.status(lent),
                lambda: self.offer(lent, self.stranger()),
                lambda: self.offer(lent, self.stranger())]
        self.rng.choice(ways)()

    def steps(self):
        """The session, one step at a time. At its end the first register has what all have."""
        rng = self.rng
        for register in self.piers:
            yield self.open(register)
        order = [*range(len(self.parts)), *rng.choices(range(len(self.parts)), k=5)]
        rng.shuffle(order)
        for index in order:
            yield self.offer(self.lent(), self.page(index))
            if rng.random() < 0.4:
                yield self.other(self.lent())
            if rng.random() < 0.1:
                yield self.damage()
        for register in self.piers[1:]:
            yield self.join(self.piers[0], register)
        for _ in range(4):
            yield self.finish(self.piers[0])
        yield self.status(self.piers[0])


def register_of(slice_):
    """The register of a slice that lies in one."""
    return slice_[0] if isinstance(slice_, tuple) else slice_


def sessions(rng, calls):
    """Sessions without end, one step at a time."""
    frames = some_frames(rng)
    while True:
        yield from Session(rng, calls, frames).steps()


def made(rng, count):
    """So many calls, or a few more."""
    calls, frames = Calls(), some_frames(rng)
    texts = {"base64": some_base64(rng), "typed": some_typed(rng)}
    crossing = sessions(rng, calls)
    while len(calls.wanted) < count:
        next(crossing)
        length = rng.choice((8, 8, 8, rng.randrange(17)))
        calls.call("frame", next(frames) or None, room(rng, length))
        for name, some in texts.items():
            text, length = next(some)
            calls.call(name, text or None, room(rng, length))
    return calls
