"""What all generators share: lines, lent rooms, and ways to damage bytes.

A generator gives blocks. A block is a list of lines that belong together and
stay in one run of the desk; most blocks are one line.
"""

from collections import namedtuple

MOST_ROOM = 65536

# Blocks of SHA-256 have 64 bytes and its padding 9, those of BLAKE2b 128; the
# CRC is taken eight bytes at a time in some forms.
BLOCK_EDGES = [0, 1, 7, 8, 9, 54, 55, 56, 57, 62, 63, 64, 65, 111, 112, 113, 118, 119, 120, 121,
               126, 127, 128, 129, 130, 183, 184, 191, 192, 193, 255, 256, 257, 383, 384, 385]

# A group of verbs: a line of each in good form, the edges, and one by chance.
Group = namedtuple("Group", "verbs weight samples edges chance")


def argument(value):
    """A value as an argument of a line."""
    if isinstance(value, bytes):
        return value.hex() or "-"
    return "null" if value is None else str(value)


def line(verb, *values):
    """A line of the desk."""
    return " ".join([verb, *map(argument, values)]).encode("ascii")


def single(lines):
    """Each line as a block of its own."""
    for one in lines:
        yield [one]


def rooms(exact):
    """Outputs one byte too short, exact, one more, none at all, and the most (R2.4, D1.6)."""
    wanted = (exact - 1, exact, exact + 1, 0, MOST_ROOM)
    return sorted({room for room in wanted if 0 <= room <= MOST_ROOM})


def some_room(rng, exact):
    """Mostly enough room."""
    if rng.random() < 0.7:
        return min(MOST_ROOM, exact + rng.choice((0, 0, 1, 2, 100)))
    return rng.choice(rooms(exact) + [rng.randrange(MOST_ROOM + 1)])


def some_length(rng, most):
    """A length: at a block's edge, short, or any."""
    kind = rng.random()
    if kind < 0.3:
        return min(most, rng.choice(BLOCK_EDGES))
    return rng.randrange(65 if kind < 0.8 else most + 1)


def some_bytes(rng, length):
    """Random bytes, or all alike, or counting up."""
    kind = rng.random()
    if kind < 0.8:
        return rng.randbytes(length)
    if kind < 0.9:
        return bytes([rng.choice((0, 1, 0x7F, 0x80, 0xFF))]) * length
    return bytes(i % 256 for i in range(length))


def with_byte(data, at, byte):
    """The data with one byte replaced."""
    return data[:at] + bytes([byte]) + data[at + 1:]


def truncations(data):
    """Every proper beginning."""
    return [data[:length] for length in range(len(data))]


def byte_damage(rng, data, at):
    """One byte changed in several ways."""
    wanted = {data[at] ^ 1, data[at] ^ 0x20, data[at] ^ 0x80, rng.randrange(256)} - {data[at]}
    return [with_byte(data, at, byte) for byte in sorted(wanted)]


def damaged(rng, data):
    """Bytes changed, cut off, put in, left out, or put after."""
    at = rng.randrange(len(data) + 1)
    ways = (lambda: data[:at],
            lambda: data[:at] + rng.randbytes(1) + data[at:],
            lambda: data[:at] + data[at + 1:],
            lambda: data + rng.randbytes(rng.randrange(1, 4)),
            lambda: with_byte(data, at, rng.randrange(256))[:len(data)],
            lambda: with_byte(data, at, rng.randrange(256))[:len(data)])
    return rng.choice(ways)()
