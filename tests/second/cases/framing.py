"""Calls of the frame verbs: sections 6 and 7 of docs/RULES.md."""

from ..forms import varint_write
from ..frames import AUTH, KEY, MAIN, Frame, frame_write
from ..sums import crc
from .common import (Group, byte_damage, damaged, line, rooms, single, some_length, some_room,
                     truncations, with_byte)
from .samples import auth_payload, longest_payload, shard_payload

ID = bytes(range(0x10, 0x18))
NUMBERS = [0, 1, 2, 94, 95, 96, 97, 98, 127, 128, 255, 256, 2**32, 2**63, 2**64 - 1]
BAD_VARINTS = [b"\x80\x00", b"\x81\x00", b"\x80\x80\x00", b"\xff" * 9 + b"\x02", b"\xff" * 10,
               b"\x80" * 9 + b"\x00", b"\x80" * 9 + b"\x02", b"\x80" * 10]


def with_crc(body):
    """The body and the CRC of all of it."""
    return body + crc(body)


def recovered(raw):
    """A damaged frame with its CRC made right again."""
    return with_crc(raw[:-4])


def laid_out(magic=b"AP", version=b"\x01", kind=b"\x44", ident=ID, index=b"\x00", total=b"\x01",
             length=None, data=b"data"):
    """A frame of any fields, given as their bytes, under a right CRC."""
    length = varint_write(len(data)) if length is None else length
    return with_crc(magic + version + kind + ident + index + total + length + data)


def field_frames():
    """One field at a time: every type (R6.2), magics, versions and varints (R6.4)."""
    yield from (laid_out(kind=bytes([kind])) for kind in range(256))
    yield from (laid_out(magic=m) for m in (b"AQ", b"BP", b"PA", b"AY", b"\0\0", b"ap"))
    yield from (laid_out(version=varint_write(n)) for n in NUMBERS)
    for bad in BAD_VARINTS:
        yield from (laid_out(**{name: bad}) for name in ("version", "index", "total", "length"))
        yield laid_out(version=bad, kind=b"\0", index=bad)
        yield laid_out(magic=b"AQ", version=bad)


def number_frames():
    """INDEX and TOTAL at their bounds, for each type (R6.6, R3.1)."""
    for index in NUMBERS:
        for total in NUMBERS:
            for kind in (MAIN, KEY, AUTH):
                yield frame_write(Frame(kind, ID, index, total, b"x"))


def length_frames(rng):
    """Data of each length at a bound (R3.2), and DATA_LEN that does not fit it (R6.5)."""
    for length in (0, 1, 2, 127, 128, 129, 479, 480, 481, 482, 1000, 16383, 16384, 60000):
        data = rng.randbytes(length)
        yield laid_out(data=data)
        for wrong in (0, 1, length - 1, length + 1, length + 4, length + 5):
            yield laid_out(data=data, length=varint_write(max(0, wrong)))
        yield laid_out(data=data)[:-4]
    for length in [2**k - d for k in (7, 8, 16, 31, 32, 63, 64) for d in range(1, 7)]:
        yield laid_out(length=varint_write(length))


def order_frames(rng):
    """Faults together: 3 before 10 (R6.5), 10 before 8 (R6.6), 8 before 9 (R6.7)."""
    for index, total in ((0, 1), (1, 1), (0, 0), (0, 97), (96, 97), (97, 97)):
        for length in (0, 480, 481):
            for kind in (MAIN, KEY):
                raw = frame_write(Frame(kind, ID, index, total, rng.randbytes(length)))
                yield raw
                yield with_byte(raw, len(raw) - 1, raw[-1] ^ 1)
                yield with_byte(raw, len(raw) - 4, raw[-4] ^ 0x80)
                yield raw[:-1]
                yield raw + b"\0"


def sample_frames(rng):
    """A main, a key and an auth frame as they are printed."""
    return [frame_write(Frame(MAIN, ID, 2, 5, rng.randbytes(20))),
            frame_write(Frame(MAIN, ID, 95, 96, rng.randbytes(480))),
            frame_write(Frame(MAIN, ID, 0, 1, b"")),
            frame_write(Frame(KEY, ID, 0, 1, shard_payload(rng))),
            frame_write(Frame(AUTH, ID, 0, 1, auth_payload(rng)))]


def damage_frames(rng):
    """Every truncation; every byte, with and without a right checksum (R6.3); bytes behind."""
    for raw in sample_frames(rng):
        yield raw
        yield from truncations(raw)
        yield from (raw + rng.randbytes(more) for more in (1, 2, 4, 512))
        for at in range(len(raw)):
            for bad in byte_damage(rng, raw, at)[:4 if len(raw) < 60 else 1]:
                yield bad
                yield recovered(bad)
    short = sample_frames(rng)[0]
    yield from (recovered(part) for part in truncations(short) if len(part) > 4)


def read_edges(rng):
    """The edges of frame-read."""
    parts = (field_frames(), number_frames(), length_frames(rng), order_frames(rng),
             damage_frames(rng))
    yield from single(line("frame-read", raw) for part in parts for raw in part)


def some_frame(rng):
    """A frame by chance, mostly good."""
    kind = rng.choice((MAIN, MAIN, KEY, AUTH))
    total = rng.choice((1, 2, 3, 95, 96, 97, rng.randrange(1, 97))) if kind == MAIN else 1
    index = rng.randrange(total) if rng.random() < 0.9 else rng.choice((total, total + 1))
    data = rng.randbytes(min(some_length(rng, 480) + (rng.random() < 0.05) * 480, 700))
    return frame_write(Frame(kind, rng.randbytes(8), index, total, data))


def read_chance(rng):
    """A frame, good, damaged, or damaged under a right CRC."""
    raw = some_frame(rng)
    kind = rng.random()
    if kind < 0.3:
        raw = damaged(rng, raw)
    elif kind < 0.6:
        raw = recovered(damaged(rng, raw).ljust(4, b"A"))
    elif kind < 0.65:
        raw = rng.randbytes(rng.randrange(40))
    return [line("frame-read", raw)]


# Printing.


def page_line(ciphertext, size, number, room):
    """A call of page-write."""
    return line("page-write", ciphertext, size, number, room)


def page_shapes():
    """Ciphertext lengths against page sizes (R7.2): full, not full, at and past 96 pages."""
    for size in (1, 2, 3, 127, 128, 479, 480):
        for length in (1, size - 1, size, size + 1, 2 * size, 2 * size + 1, 95 * size + 1,
                       96 * size - 1, 96 * size, 96 * size + 1):
            if length > 0:
                yield length, size, -(-length // size)


def page_edges(rng):
    """Sizes, numbers and rooms at their bounds, and the order 19, 9, 8, 11 (R7.4)."""
    for length, size, total in page_shapes():
        data = rng.randbytes(length)
        for number in sorted({0, 1, max(0, total - 2), total - 1, total, total + 1}):
            taken = len(data[number * size:(number + 1) * size])
            exact = 14 + len(varint_write(taken)) + taken + 4
            wanted = rooms(exact) if length < 2000 else [exact - 1, exact]
            yield from ([page_line(data, size, number, room)] for room in wanted)
    for data in (b"", b"x", b"x" * 97, b"x" * 46081):
        for size in (0, 1, 480, 481, 482, 2**32, 2**63, 2**64 - 1):
            for number in (0, 1, 96, 97, 2**63, 2**64 - 1):
                yield from ([page_line(data, size, number, room)] for room in (0, 600))


def page_chance(rng):
    """A page of a document by chance."""
    size = rng.choice((1, 479, 480, rng.randrange(1, 481), rng.randrange(0, 490)))
    pages = rng.choice((1, 2, 3, 96, rng.randrange(1, 100)))
    length = max(0, size * pages - rng.randrange(0, max(1, size)))
    number = rng.randrange(pages) if rng.random() < 0.85 else pages + rng.randrange(3)
    return [page_line(rng.randbytes(min(length, 50000)), size, number, some_room(rng, size + 20))]


# Key and auth frames.


def single_lines(verb, good):
    """Id, size, the reader's refusal, room: each alone and with those behind it (R7.5)."""
    exact = 14 + len(varint_write(len(good))) + len(good) + 4
    yield from ([line(verb, ID, good, room)] for room in rooms(exact))
    bad = [b"", good[:-1], good + b"\0", b"\xa3" + good[1:], b"x" * 480, b"x" * 481,
           good.ljust(480, b"\0"), good.ljust(481, b"\0"), b"x" * 20000]
    for ident in (b"", ID[:7], ID, ID + b"\0", bytes(16)):
        for data in [good, *bad]:
            yield from ([line(verb, ident, data, room)] for room in (0, 18, 600))


def single_edges(verb, *payloads):
    """The edges of key-write or auth-frame-write around each of these payloads."""
    def edges(rng):
        for payload in payloads:
            yield from single_lines(verb, payload(rng))
    return edges


def single_chance(verb, payload):
    """A key or auth frame by chance."""
    def chance(rng):
        data = payload(rng)
        if rng.random() < 0.4:
            data = damaged(rng, data)
        ident = rng.randbytes(8 if rng.random() < 0.9 else rng.randrange(17))
        return [line(verb, ident, data, some_room(rng, len(data) + 20))]
    return chance


GROUPS = [
    Group(["frame-read"], 5, [line("frame-read", laid_out())], read_edges, read_chance),
    Group(["page-write"], 1, [b"page-write 0102030405 2 1 600"], page_edges, page_chance),
    Group(["key-write"], 1, [b"key-write 1011121314151617 00 600"],
          single_edges("key-write", shard_payload, longest_payload),
          single_chance("key-write", shard_payload)),
    Group(["auth-frame-write"], 1, [b"auth-frame-write 1011121314151617 00 600"],
          single_edges("auth-frame-write", auth_payload),
          single_chance("auth-frame-write", auth_payload)),
]
