"""Floating-point numbers: R10.8 and R10.9 of docs/RULES.md, over RFC 8949 and `struct`.

A value is the eight bytes of a double.
"""

import struct
from collections import namedtuple

from .answers import NOT_CANONICAL, OUT_OF_RANGE, lend, refuse_if
from .cbor import Items

# A width: its first byte, its name in `struct`, and how many bits are exponent and fraction.
Width = namedtuple("Width", "first form exponent fraction")

HALF = Width(0xF9, ">e", 5, 10)
SINGLE = Width(0xFA, ">f", 8, 23)
DOUBLE = Width(0xFB, ">d", 11, 52)
WIDTHS = {width.first: width for width in (HALF, SINGLE, DOUBLE)}


def finite(bits, width=DOUBLE):
    """Whether bits of a width are of a finite number (R10.8): not all of its exponent are ones."""
    ones = (1 << width.exponent) - 1
    return int.from_bytes(bits, "big") >> width.fraction & ones != ones


def widened(bits, width):
    """The double that finite bits of a width stand for (R10.8)."""
    return struct.pack(DOUBLE.form, *struct.unpack(width.form, bits))


def narrowed(double, width):
    """The bits of a width that stand for a finite double, or None (R10.8).

    `struct` rounds, so what it gives is widened again, and all 64 bits must be the same: this also
    tells the zeros apart.
    """
    try:
        bits = struct.pack(width.form, *struct.unpack(DOUBLE.form, double))
    except OverflowError:
        return None
    return bits if widened(bits, width) == double else None


def float_item(double):
    """The shortest item of a value (R10.8). What is not finite is laid out as a double."""
    for width in (HALF, SINGLE) if finite(double) else ():
        bits = narrowed(double, width)
        if bits is not None:
            return bytes([width.first]) + bits
    return bytes([DOUBLE.first]) + double


def next_float(items):
    """The value of the next item: 3, 18, 3, 19 whatever its width, 18 (R10.9)."""
    width = WIDTHS[items.byte(*WIDTHS)]
    bits = items.take(struct.calcsize(width.form))
    refuse_if(not finite(bits, width), OUT_OF_RANGE)
    double = widened(bits, width)
    refuse_if(float_item(double) != bytes([width.first]) + bits, NOT_CANONICAL)
    return double


def float_read(raw):
    """The float at the start, and how many bytes it has; more may follow (D2.12)."""
    items = Items(raw)
    return next_float(items), items.at


def float_write(double, room):
    """A float alone: 19 where it is not finite, then 11 (R10.9)."""
    refuse_if(not finite(double), OUT_OF_RANGE)
    return lend(room, float_item(double))
