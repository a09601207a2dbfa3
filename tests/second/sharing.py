"""A secret split into shares, and recovered from slips: R19.1 to R19.7.

An element of the field is a polynomial over the two bits, kept as an integer: bit n stands before
x^n. Shares are recovered as Lagrange has it, from one weight for each slip.
"""

from functools import lru_cache, reduce

from .answers import (INDEX_TWICE, NOT_ZERO_PADDED, OFF_THE_CURVE, OTHER_SPLIT, OUT_OF_RANGE,
                      TOO_FEW_SLIPS, lend, refuse_if)
from .payloads import padded, shard_read

BLOCK = 16  # R19.1
MOST_SECRET = 224  # R19.5
MOST_SHARES = 255  # R19.5

DEGREE = 128
LOW = (1 << DEGREE) - 1
MODULUS = 1 << DEGREE | 0x87  # x^128 + x^7 + x^2 + x + 1 (R19.1)


# The field.


def product(one, other):
    """The product of two polynomials, not reduced; `one` is taken four bits at a time."""
    multiples = [0, other]
    for number in range(2, 16):
        multiples.append(multiples[number >> 1] << 1 ^ (other if number & 1 else 0))
    total = 0
    for digit in f"{one:x}":
        total = total << 4 ^ multiples[int(digit, 16)]
    return total


def reduced(polynomial):
    """Its remainder: as long as there is an x^128, it is replaced by x^7 + x^2 + x + 1."""
    while polynomial > LOW:
        high = polynomial >> DEGREE
        polynomial = polynomial & LOW ^ high ^ high << 1 ^ high << 2 ^ high << 7
    return polynomial


def times(one, other):
    """The product of two elements; it is quickest where the first is small."""
    return reduced(product(one, other))


def inverse(element):
    """What gives 1 with it, by Euclid's way: `left` and `right` are multiples of the element, by
    `by_left` and `by_right`, and the higher one is brought down until one is 1."""
    if element == 0:
        raise ZeroDivisionError("0 has no inverse")
    left, by_left, right, by_right = element, 1, MODULUS, 0
    while left != 1:
        shift = left.bit_length() - right.bit_length()
        if shift < 0:
            left, by_left, right, by_right = right, by_right, left, by_left
            shift = -shift
        left ^= right << shift
        by_left ^= by_right << shift
    return reduced(by_left)


# Shares. The blocks of a share lie in one integer, 32 bytes for each: so a product with all of them
# is one product, and no block runs into the next.


def blocks_of(data):
    """Its blocks of 16 bytes."""
    return [data[at:at + BLOCK] for at in range(0, len(data), BLOCK)]


def spread(blocks):
    """Blocks in one integer; the first byte of each is the highest (R19.1)."""
    return int.from_bytes(b"".join(bytes(BLOCK) + block for block in blocks), "big")


def gathered(value, size):
    """The bytes of so many blocks, each of them reduced."""
    lanes = value.to_bytes(2 * size, "big")
    numbers = (int.from_bytes(lanes[at:at + 2 * BLOCK], "big")
               for at in range(0, len(lanes), 2 * BLOCK))
    return b"".join(reduced(number).to_bytes(BLOCK, "big") for number in numbers)


def combined(factors, spreads, size):
    """The sum of all products, as bytes."""
    total = 0
    for factor, value in zip(factors, spreads):
        total ^= product(factor, value)
    return gathered(total, size)


@lru_cache(maxsize=None)
def powers(index):
    """1, x, x^2 and so on, up to the highest power of any curve."""
    found = [1]
    while len(found) < MOST_SHARES:
        found.append(times(index, found[-1]))
    return found


class Curves:
    """A polynomial for each block of a padded secret (R19.3)."""

    def __init__(self, secret, threshold, coefficients):
        self.size = len(secret)
        own, given = blocks_of(secret), blocks_of(coefficients)
        # for each block of the secret in turn there are threshold - 1, the lowest power first
        by_power = [given[power::threshold - 1] for power in range(threshold - 1)]
        self.terms = [spread(blocks) for blocks in (own, *by_power)]

    def share(self, index):
        """Its value at an element."""
        return combined(powers(index), self.terms, self.size)


def split(secret, threshold, count, coefficients, room):
    """All shares by index: 19 for the numbers, the secret and the coefficients (R19.5),
    then 11."""
    refuse_if(not 1 <= threshold <= count <= MOST_SHARES, OUT_OF_RANGE)
    refuse_if(not 1 <= len(secret) <= MOST_SECRET, OUT_OF_RANGE)
    size = padded(len(secret))
    refuse_if(len(coefficients) != size * (threshold - 1), OUT_OF_RANGE)
    curves = Curves(secret.ljust(size, b"\0"), threshold, coefficients)
    return lend(room, b"".join(curves.share(index) for index in range(1, count + 1)))


# Recovery.


@lru_cache(maxsize=1000)
def denominators(points):
    """For each point, one through the product of its differences from all others."""
    found = []
    for point in points:
        others = (point ^ other for other in points if other != point)
        found.append(inverse(reduce(lambda whole, one: times(one, whole), others, 1)))
    return found


@lru_cache(maxsize=None)
def small_inverse(element):
    """The inverse of one of the few differences that two indexes have."""
    return inverse(element)


def weights(points, at):
    """How much each point weighs in the value at another place (R19.8)."""
    whole = reduce(lambda product_so_far, point: times(at ^ point, product_so_far), points, 1)
    return [times(times(small_inverse(at ^ point), whole), under)
            for point, under in zip(points, denominators(points))]


def common(slip):
    """What the slips of one split have in common (R19.7)."""
    return slip.type, slip.threshold, slip.count, slip.length, slip.hash, slip.pub


def recover(room, *payloads):
    """The secret of slips, in the order of R19.7."""
    slips = [shard_read(payload) for payload in payloads]
    refuse_if(not slips or len(slips) < slips[0].threshold, TOO_FEW_SLIPS)
    refuse_if(any(common(slip) != common(slips[0]) for slip in slips), OTHER_SPLIT)
    refuse_if(len({slip.index for slip in slips}) < len(slips), INDEX_TWICE)
    threshold, length = slips[0].threshold, slips[0].length
    points = tuple(slip.index for slip in slips[:threshold])
    spreads = [spread(blocks_of(slip.share)) for slip in slips[:threshold]]

    def value(at):
        """The value of their curves at a place."""
        return combined(weights(points, at), spreads, padded(length))

    refuse_if(any(value(slip.index) != slip.share for slip in slips[threshold:]), OFF_THE_CURVE)
    secret = value(0)
    refuse_if(any(secret[length:]), NOT_ZERO_PADDED)
    return lend(room, secret[:length])
