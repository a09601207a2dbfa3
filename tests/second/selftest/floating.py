"""Floats by RFC 8949 and in whole numbers, and that their comparison can fail."""

import random
import struct
import tempfile
from fractions import Fraction

from .. import every_float, floats
from ..cases import floating
from ..floats import DOUBLE, HALF, SINGLE, WIDTHS
from .common import answer_of, check, same
from .comparing import fake_desk

# Appendix A of RFC 8949.
PUBLISHED = [
    (0.0, "f90000"), (-0.0, "f98000"), (1.0, "f93c00"), (1.1, "fb3ff199999999999a"),
    (1.5, "f93e00"), (65504.0, "f97bff"), (100000.0, "fa47c35000"),
    (3.4028234663852886e+38, "fa7f7fffff"), (1.0e+300, "fb7e37e43c8800759c"),
    (5.960464477539063e-8, "f90001"), (0.00006103515625, "f90400"), (-4.0, "f9c400"),
    (-4.1, "fbc010666666666666"),
]
PUBLISHED_NOT_FINITE = ["f97c00", "f97e00", "f9fc00", "fa7f800000", "fa7fc00000", "faff800000",
                        "fb7ff0000000000000", "fb7ff8000000000000", "fbfff0000000000000"]


@check
def floats_by_rfc_8949():
    """R10.8: the published forms, written and read; infinities and NaNs are 19 (R10.9)."""
    for number, form in PUBLISHED:
        double, raw = struct.pack(">d", number), bytes.fromhex(form)
        same(floats.float_write(double, 9), raw)
        same(floats.float_read(raw), (double, len(raw)))
    for form in PUBLISHED_NOT_FINITE:
        same(answer_of(floats.float_read, bytes.fromhex(form)), (19, 0), form)


# Whole numbers: nothing below goes through a floating-point number of Python.


def parts(bits, width):
    """The sign, the exponent and the fraction of bits that are given as a number."""
    fraction = bits & (1 << width.fraction) - 1
    exponent = bits >> width.fraction & (1 << width.exponent) - 1
    return bits >> width.exponent + width.fraction, exponent, fraction


def power_of_one(width):
    """The exponent that 1.0 has in a width."""
    return (1 << width.exponent - 1) - 1


def exactly(bits, width):
    """The sign and the value, as a fraction of whole numbers; None where it is not finite."""
    sign, exponent, fraction = parts(bits, width)
    if exponent == (1 << width.exponent) - 1:
        return None
    whole = fraction if exponent == 0 else fraction + (1 << width.fraction)
    power = max(exponent, 1) - power_of_one(width) - width.fraction
    return sign, Fraction(whole << max(power, 0), 1 << max(-power, 0))


@check
def halves_in_whole_numbers():
    """R10.8: each half that is finite stands for the double of its sign and value."""
    for bits in range(1 << 16):
        raw = b"\xf9" + bits.to_bytes(2, "big")
        value = exactly(bits, HALF)
        if value is None:
            same(answer_of(floats.float_read, raw), (19, 0))
            continue
        double, used = floats.float_read(raw)
        same((exactly(int.from_bytes(double, "big"), DOUBLE), used), (value, 3))
        same(floats.float_write(double, 3), raw)


def held(value, width):
    """Whether a width has a value: few enough bits, none too low and none too high (R10.8)."""
    if value == 0:
        return True
    # in lowest terms, where what is below is a power of two: the places of the outermost bits
    above, below = value.numerator, value.denominator
    lowest = (above & -above).bit_length() - below.bit_length()
    highest = above.bit_length() - below.bit_length()
    return (highest - lowest <= width.fraction and highest <= power_of_one(width)
            and lowest >= 1 - power_of_one(width) - width.fraction)


def due(raw):
    """What a reader must answer to an item, and the first byte of the value's shortest form."""
    width = WIDTHS[raw[0]]
    value = exactly(int.from_bytes(raw[1:], "big"), width)
    if value is None:
        return 19, None
    shortest = next(one for one in (HALF, SINGLE, DOUBLE) if held(value[1], one))
    return 0 if shortest == width else 18, shortest.first


@check
def widths_in_whole_numbers():
    """R10.8, R10.9: at every exponent of each width, the shortest is the one that is taken."""
    rng = random.Random(16)
    chance = [floating.some_item(rng) for _ in range(20000)]
    for raw in [*floating.grid(HALF), *floating.grid(SINGLE), *floating.grid(DOUBLE), *chance]:
        number, first = due(raw)
        same(answer_of(floats.float_read, raw)[0], number, raw.hex())
        double = floating.double_of(raw)
        written, form = answer_of(floats.float_write, double, 9)
        same(written, 19 if first is None else 0, raw.hex())
        if first is not None:
            same(form[0], first, raw.hex())
            same(exactly(int.from_bytes(form[1:], "big"), WIDTHS[first]),
                 exactly(int.from_bytes(raw[1:], "big"), WIDTHS[raw[0]]), raw.hex())


@check
def a_value_has_one_form():
    """R1.3: of all items of a value a reader takes the shortest alone, which the writer writes."""
    rng = random.Random(17)
    for _ in range(20000):
        double = floating.some_finite(rng)
        shortest, *others = floating.forms(double)
        same(floats.float_write(double, 9), shortest)
        same(floats.float_read(shortest + b"\xff"), (double, len(shortest)))
        same({answer_of(floats.float_read, raw) for raw in others} <= {(18, 0)}, True, double)


@check
def faults_of_floats_in_order():
    """R10.9: 3, 18, 3, 19, 18; a writer has 19 before 11."""
    for form, number in (("", 3), ("f8", 18), ("00", 18), ("f9", 3), ("f97c", 3), ("fa7f8000", 3),
                         ("fa3fc000", 3), ("fb7ff00000000000", 3), ("fa7f800000", 19),
                         ("fbfff8000000000000", 19), ("fa3fc00000", 18),
                         ("fb8000000000000000", 18)):
        same(answer_of(floats.float_read, bytes.fromhex(form)), (number, 0), form)
    for bits, room, number in (("7ff0000000000000", 0, 19), ("7ff0000000000001", 9, 19),
                               ("3ff8000000000000", 2, 11), ("3ff8000000000000", 3, 0),
                               ("3ff199999999999a", 8, 11), ("8000000000000000", 0, 11)):
        same(answer_of(floats.float_write, bytes.fromhex(bits), room)[0], number, bits)


# The comparison of all floats, with few of them.

VERBS = ["float-read", "float-write"]
FEW = {"few": [bytes.fromhex(form) for form in ("f93e00", "f97800", "fa3fc00000", "f97c00")]}

FAKES = {
    "faithful": ("", ""),
    "a longer form": ("out = out.replace(b'0 f93e00\\n', b'0 fa3fc00000\\n', 1)", ""),
    "a longer form is read": ("out = out.replace(b'18\\n', b'0 3ff8000000000000 5\\n')", ""),
    "a line too few": ("out = out[:out.rindex(b'\\n', 0, -1) + 1]", ""),
    "silent": ("out = b''", ""),
    "fails at the end": ("", "sys.exit(1)"),
}


def right(number):
    """The writer that cbor2 should be."""
    return floats.float_item(struct.pack(">d", number))


def wrong_at(wrong):
    """A writer that has a single at one value."""
    return lambda number: b"\xfa" + struct.pack(">f", number) if number == wrong else right(number)


def compared(command, writers):
    """Whether a desk passes beside these writers, and what was told."""
    told = []
    return every_float.compare(command, FEW, VERBS, writers, told.append), told


@check
def comparison_of_floats_can_fail():
    """A desk or a writer that is wrong in one thing is found out; cbor2's known fault is told."""
    with tempfile.TemporaryDirectory() as folder:
        for name in FAKES:
            passed, told = compared(fake_desk(folder, name, FAKES, VERBS), (right, right))
            same(passed, name == "faithful", name, told[:3])
        faithful = fake_desk(folder, "faithful", FAKES, VERBS)
        for writers in ((wrong_at(1.5), right), (right, wrong_at(1.5)), (wrong_at(32768.0), right)):
            same(compared(faithful, writers)[0], False)
        for writers, word in (((right, wrong_at(32768.0)), "its fault"), (None, "not compared")):
            passed, told = compared(faithful, writers)
            same((passed, sum(word in row for row in told)), (True, 1), told)
