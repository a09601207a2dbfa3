"""Calls of the float verbs: R10.8 and R10.9 of docs/RULES.md.

An item here is a first byte and the bits of its width: shortest or not, finite or not.
"""

from itertools import chain, product

from ..floats import DOUBLE, HALF, SINGLE, WIDTHS, finite, float_item, narrowed, widened
from .common import Group, damaged, line, rooms, single, some_room, truncations

# An item of each width that is shortest, longer than need be, or not finite.
SHORTEST = ["f93e00", "fa47c35000", "fb3ff199999999999a"]
LONGER = ["fa3fc00000", "fb3ff8000000000000", "fb40f86a0000000000", "fa00000000",
          "fb8000000000000000"]
NOT_FINITE = ["f97c00", "f9fc00", "f97e00", "fa7f800000", "fa7f800001", "fb7ff0000000000000",
              "fbffffffffffffffff"]

# Arguments that are not 16 lower-case hex digits (D2.12).
NO_BITS = [b"-", b"0", b"3ff8", b"3ff80000000000", b"3ff800000000000", b"3ff80000000000000",
           b"3ff800000000000000", b"3FF8000000000000", b"f3ff8000000000000", b"0x3ff80000000000",
           b"-3ff800000000000", b"3ff800000000000g", b"1.5", b"null"]


def size(width):
    """The bits of a width."""
    return 1 + width.exponent + width.fraction


def item(width, bits):
    """The item of a width with these bits, given as a number."""
    return bytes([width.first]) + bits.to_bytes(size(width) // 8, "big")


def number(raw):
    """The bits of an item as a number."""
    return int.from_bytes(raw[1:], "big")


def double_of(raw):
    """The double that an item stands for; one that is not finite keeps its sign and fraction."""
    width = WIDTHS[raw[0]]
    if finite(raw[1:], width):
        return widened(raw[1:], width)
    sign, fraction = number(raw) >> size(width) - 1, number(raw) & (1 << width.fraction) - 1
    return (sign << 63 | 0x7FF << 52 | fraction << 52 - width.fraction).to_bytes(8, "big")


def forms(double):
    """The items of every width that stand for a value: of a finite one the first is shortest."""
    if not finite(double):
        return [item(DOUBLE, int.from_bytes(double, "big"))]
    held = ((width, narrowed(double, width)) for width in WIDTHS.values())
    return [bytes([width.first]) + bits for width, bits in held if bits is not None]


def neighbours(raw):
    """The items of the same width with one bit pattern less and one more."""
    width = WIDTHS[raw[0]]
    return [item(width, bits) for bits in (number(raw) - 1, number(raw) + 1)
            if 0 <= bits < 1 << size(width)]


# Sets of items.


def halves():
    """Every half."""
    return [item(HALF, bits) for bits in range(1 << size(HALF))]


def grid(width):
    """Every sign and exponent of a width; the fraction 0, all ones, or one bit in each place."""
    fractions = [0, (1 << width.fraction) - 1, *(1 << place for place in range(width.fraction))]
    return [item(width, front << width.fraction | fraction)
            for front, fraction in product(range(2 << width.exponent), fractions)]


def corners(width):
    """Exponents at both ends and around that of 1.0, with fractions at both ends and half way."""
    top, ones = (1 << width.exponent) - 1, (1 << width.fraction) - 1
    exponents = [0, 1, 2, top // 2 - 1, top // 2, top // 2 + 1, top - 2, top - 1, top]
    fractions = [0, 1, 2, ones >> 1, (ones >> 1) + 1, ones - 1, ones]
    return [item(width, (sign << width.exponent | exponent) << width.fraction | fraction)
            for sign, exponent, fraction in product((0, 1), exponents, fractions)]


def edge_items():
    """The corners of each width, the same values in every width, and what is next to each."""
    found = {}
    for raw in chain.from_iterable(map(corners, WIDTHS.values())):
        for form in (raw, *forms(double_of(raw))):
            found.update(dict.fromkeys((form, *neighbours(form))))
    return list(found)


# Items by chance.


def few_bits(rng):
    """A double in the range of a shorter width or just outside, mostly with a short fraction."""
    exponent = rng.choice((rng.randrange(0x3E4, 0x412), rng.randrange(0x366, 0x482)))
    kept = rng.randrange(DOUBLE.fraction + 1)
    fraction = rng.getrandbits(kept) << DOUBLE.fraction - kept
    return item(DOUBLE, (rng.getrandbits(1) << 11 | exponent) << 52 | fraction)


def some_item(rng):
    """Any bits of some width, or their value in another form, or what is next to that."""
    width = rng.choice((HALF, SINGLE, DOUBLE))
    raw = few_bits(rng) if rng.random() < 0.3 else item(width, rng.getrandbits(size(width)))
    if rng.random() < 0.5:
        raw = rng.choice(forms(double_of(raw)))
    return rng.choice(neighbours(raw)) if rng.random() < 0.2 else raw


def some_finite(rng):
    """A finite double, of any width in its shortest form."""
    while True:
        double = double_of(some_item(rng))
        if finite(double):
            return double


# Calls.


def read_inputs(rng):
    """Items at the edges, cut in each place, with bytes behind, and every first byte (R10.9)."""
    yield from edge_items()
    for raw in map(bytes.fromhex, SHORTEST + LONGER + NOT_FINITE):
        yield raw
        yield from truncations(raw)
        yield from (raw + rng.randbytes(more) for more in (1, 2, 6, 300))
    for byte in range(256):
        yield from (bytes([byte]) + rng.randbytes(more) for more in (0, 2, 8))


def write_lines():
    """Values at the edges, rooms around the shortest form, and 19 before 11 (R10.9)."""
    for double in dict.fromkeys(map(double_of, edge_items())):
        yield line("float-write", double, 9)
    for double in map(double_of, chain.from_iterable(map(corners, WIDTHS.values()))):
        yield from (line("float-write", double, room) for room in rooms(len(float_item(double))))
    yield from (b"float-write " + bits + b" 9" for bits in NO_BITS)


def edges(rng):
    """The edges of both float verbs."""
    yield from single(line("float-read", raw) for raw in read_inputs(rng))
    yield from single(write_lines())


def chance(rng):
    """A call of a float verb."""
    raw, kind = some_item(rng), rng.random()
    shortest = float_item(double_of(raw))
    if kind < 0.4:
        return [line("float-write", double_of(raw), some_room(rng, len(shortest)))]
    if kind < 0.6:
        return [line("float-read", shortest + rng.randbytes(rng.randrange(4)))]
    if kind < 0.8:
        return [line("float-read", raw)]
    if kind < 0.9:
        return [line("float-read", damaged(rng, rng.choice((raw, shortest))))]
    first = rng.choice((b"\xf9", b"\xfa", b"\xfb", b""))
    return [line("float-read", first + rng.randbytes(rng.randrange(10)))]


GROUPS = [Group(["float-read", "float-write"], 3,
                [b"float-read f93e00", b"float-write 3ff8000000000000 9"], edges, chance)]
