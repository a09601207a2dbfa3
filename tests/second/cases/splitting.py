"""Calls of `split`: R19.3 and R19.5 of docs/RULES.md."""

from itertools import product

from ..payloads import padded
from .common import MOST_ROOM, Group, line, rooms, single, some_bytes, some_room

LENGTHS = [1, 2, 15, 16, 17, 31, 32, 33, 48, 49, 207, 208, 209, 223, 224]
TOO_LONG = [225, 226, 239, 240, 241, 256, 480, 512, 4096, 65535, 65536, 65537]
FEW = [(1, 1), (1, 3), (2, 2), (2, 3), (3, 5), (5, 5)]

# A number cut to 8, 16 or 32 bits would be a good one; and 2^60 blocks have 2^64 bytes.
NUMBERS = [0, 1, 2, 3, 254, 255, 256, 257, 258, 512, 65535, 65536, 65537, 2**31, 2**32, 2**32 + 1,
           2**60, 2**60 + 1, 2**60 + 2, 2**63, 2**63 + 1, 2**64 - 1]


def split_line(rng, length, threshold, count, room=None, more=0):
    """A call with as many coefficients as it needs, and some bytes more or fewer."""
    size = padded(length)
    needed = max(0, size * (threshold - 1) + more)
    room = size * count if room is None else room
    return line("split", some_bytes(rng, length), threshold, count, some_bytes(rng, needed), room)


def sizes(rng):
    """Every kind of length with few shares, in rooms around all of them."""
    for length, (threshold, count) in product(LENGTHS, FEW):
        for room in rooms(padded(length) * count):
            yield split_line(rng, length, threshold, count, room)
    for length, (threshold, count), room in product([0, *TOO_LONG], FEW[:4], (0, MOST_ROOM)):
        if length * threshold < 120000:  # one more would not go on a line
            yield split_line(rng, length, threshold, count, room)


def coefficient_lengths(rng):
    """Some bytes too few or too many: one, a block, those of one power, of one block."""
    for length, (threshold, count) in product((1, 15, 16, 17, 33, 224), FEW):
        size = padded(length)
        others = {1, 15, 16, 17, size, size - length, size * (count - threshold), threshold - 1}
        for more, sign in product(sorted(others - {0}), (-1, 1)):
            yield split_line(rng, length, threshold, count, more=sign * more)
        yield split_line(rng, length, threshold, count, 0, more=1)


def numbers(rng):
    """Every two numbers, with the coefficients for the threshold's lowest byte."""
    for threshold, count in product(NUMBERS, repeat=2):
        coefficients = rng.randbytes(16 * max(0, threshold % 256 - 1))
        yield line("split", rng.randbytes(9), threshold, count, coefficients, MOST_ROOM)
    for threshold, length in product((0, 256, 2**60 + 1, 2**64 - 1), (0, 16, 225)):
        yield line("split", bytes(length), threshold, 255, b"", 0)
        yield line("split", bytes(length), threshold, threshold, b"", 0)


def one_bit(rng):
    """A secret and coefficients of which one bit is set: each bit of a block, each block."""
    for bit in range(128):
        block = (1 << bit).to_bytes(16, "big")
        count = 255 if bit in (0, 63, 64, 120, 121, 126, 127) else 9
        yield line("split", bytes(16), 2, count, block, MOST_ROOM)
        yield line("split", block, 3, 3, bytes(16) + block, MOST_ROOM)
    for place in range(9):
        blocks = [bytes(16)] * 9
        blocks[place] = bytes([0x80]) + bytes(14) + b"\x01"
        yield line("split", rng.randbytes(40), 4, 5, b"".join(blocks), MOST_ROOM)


def plain_curves(rng):
    """Secrets and coefficients of one byte over and over; curves that are flat, or end early."""
    for secret, byte in product((0, 1, 0x80, 0xFF), repeat=2):
        yield line("split", bytes([secret]) * 33, 3, 5, bytes([byte]) * 96, MOST_ROOM)
    for zeros in range(5):
        coefficients = rng.randbytes(16 * (4 - zeros)) + bytes(16 * zeros)
        yield line("split", rng.randbytes(16), 5, 9, coefficients, MOST_ROOM)


def many(rng):
    """As many as there may be, the longest ones among them, in rooms around 57,120."""
    for length, threshold in ((224, 255), (16, 255), (17, 254), (1, 128), (33, 64)):
        yield split_line(rng, length, threshold, 255)
    for length, threshold, room in product((16, 224), (1, 2, 3), (-1, 0, 1)):
        yield split_line(rng, length, threshold, 255, 255 * length + room)
    yield split_line(rng, 224, 255, 255, more=-1)
    yield split_line(rng, 224, 255, 255, more=1)
    for threshold in range(6, 40):
        yield split_line(rng, rng.choice(LENGTHS[:8]), threshold, threshold + rng.randrange(3))


def split_edges(rng):
    """The edges of `split`."""
    for part in (sizes, coefficient_lengths, numbers, one_bit, plain_curves, many):
        yield from single(part(rng))


def some_numbers(rng):
    """A threshold and a count: mostly few, rarely many."""
    most = rng.choice((3, 5, 5, 9, 9, 20) if rng.random() < 0.98 else (60, 255))
    count = rng.randrange(1, most + 1)
    return rng.choice((1, min(2, count), count, rng.randrange(1, count + 1))), count


def some_secret_length(rng):
    """A length at a block's edge, or any."""
    return rng.choice((*LENGTHS, rng.randrange(1, 40), rng.randrange(1, 225)))


def split_chance(rng):
    """A call of `split`: mostly one that is done."""
    threshold, count = some_numbers(rng)
    length, more, kind = some_secret_length(rng), 0, rng.random()
    if kind < 0.05:
        length = rng.choice((0, rng.randrange(225, 300)))
    elif kind < 0.1:
        more = rng.choice((-16, -1, 1, 16, rng.randrange(-300, 300)))
    elif kind < 0.15:
        threshold, count = rng.choice(((count + 1, count), (0, count), (threshold, 256)))
    room = some_room(rng, padded(length) * min(count, 255))
    return [split_line(rng, length, threshold, count, room, more)]


GROUPS = [Group(["split"], 2, [line("split", b"AP", 2, 3, bytes(16), 100)], split_edges,
                split_chance)]
