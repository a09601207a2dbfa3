"""Stored calls of the float verbs."""

from .script import Section, call, note, raw, title

# What each table shows, and its values: the 16 digits of the double, and the item that is written.
EXAMPLES = [
    ("1.5 is a half, 100000.0 a single, and 1.1 needs a double",
     [("3ff8000000000000", "f93e00"), ("40f86a0000000000", "fa47c35000"),
      ("3ff199999999999a", "fb3ff199999999999a")]),
    ("the two zeros differ in their sign",
     [("0000000000000000", "f90000"), ("8000000000000000", "f98000")]),
    ("1.0, 1.0e+300, -4.0 and -4.1, as RFC 8949 has them",
     [("3ff0000000000000", "f93c00"), ("7e37e43c8800759c", "fb7e37e43c8800759c"),
      ("c010000000000000", "f9c400"), ("c010666666666666", "fbc010666666666666")]),
]
HALVES = [
    ("the least half, 2^-24; then one and a half times it, half of it and twice it",
     [("3e70000000000000", "f90001"), ("3e78000000000000", "fa33c00000"),
      ("3e60000000000000", "fa33000000"), ("3e80000000000000", "f90002")]),
    ("the doubles next to the least half, and the singles next to it",
     [("3e6fffffffffffff", "fb3e6fffffffffffff"), ("3e70000000000001", "fb3e70000000000001"),
      ("3e6fffffe0000000", "fa337fffff"), ("3e70000020000000", "fa33800001")]),
    ("the least normal half, 2^-14, and the halves next to it",
     [("3f10000000000000", "f90400"), ("3f0ff80000000000", "f903ff"),
      ("3f10040000000000", "f90401")]),
    ("between these: half a step below 2^-14 and half a step above, and the doubles next to it",
     [("3f0ffc0000000000", "fa387fe000"), ("3f10020000000000", "fa38801000"),
      ("3f0fffffffffffff", "fb3f0fffffffffffff"), ("3f10000000000001", "fb3f10000000000001")]),
    ("the greatest half, 65504, and the half below it",
     [("40effc0000000000", "f97bff"), ("40eff80000000000", "f97bfe")]),
    ("next to 65504: doubles and a single; then 65520 and 65536, and a double below 65520",
     [("40effbffffffffff", "fb40effbffffffffff"), ("40effc0000000001", "fb40effc0000000001"),
      ("40effc0020000000", "fa477fe001"), ("40effe0000000000", "fa477ff000"),
      ("40f0000000000000", "fa47800000"), ("40effdffffffffff", "fb40effdffffffffff")]),
    ("the last bit that a half has, and one more",
     [("3ff0040000000000", "f93c01"), ("3ff0020000000000", "fa3f801000")]),
]
SINGLES = [
    ("the least single, 2^-149; then one and a half times it, half of it and twice it",
     [("36a0000000000000", "fa00000001"), ("36a8000000000000", "fb36a8000000000000"),
      ("3690000000000000", "fb3690000000000000"), ("36b0000000000000", "fa00000002")]),
    ("the doubles next to the least single",
     [("369fffffffffffff", "fb369fffffffffffff"), ("36a0000000000001", "fb36a0000000000001")]),
    ("the least normal single, 2^-126, the singles and the doubles next to it",
     [("3810000000000000", "fa00800000"), ("380fffffc0000000", "fa007fffff"),
      ("3810000020000000", "fa00800001"), ("380fffffffffffff", "fb380fffffffffffff"),
      ("3810000000000001", "fb3810000000000001"), ("380fffffe0000000", "fb380fffffe0000000")]),
    ("the greatest single, 3.4028234663852886e+38, the single below it and the doubles next to it",
     [("47efffffe0000000", "fa7f7fffff"), ("47efffffc0000000", "fa7f7ffffe"),
      ("47efffffdfffffff", "fb47efffffdfffffff"), ("47efffffe0000001", "fb47efffffe0000001")]),
    ("half a step above it, and 2^128",
     [("47effffff0000000", "fb47effffff0000000"), ("47f0000000000000", "fb47f0000000000000")]),
    ("the last bit that a single has, and one more",
     [("3ff0000020000000", "fa3f800001"), ("3ff0000010000000", "fb3ff0000010000000")]),
]
DOUBLES = [
    ("the least double, 2^-1074, and the next",
     [("0000000000000001", "fb0000000000000001"), ("0000000000000002", "fb0000000000000002")]),
    ("the least normal double, 2^-1022, and those next to it",
     [("0010000000000000", "fb0010000000000000"), ("000fffffffffffff", "fb000fffffffffffff"),
      ("0010000000000001", "fb0010000000000001")]),
    ("the greatest double and the one below it",
     [("7fefffffffffffff", "fb7fefffffffffffff"), ("7feffffffffffffe", "fb7feffffffffffffe")]),
]
BELOW_ZERO = [
    ("below zero: the least and the greatest of each width",
     [("be70000000000000", "f98001"), ("c0effc0000000000", "f9fbff"),
      ("b6a0000000000000", "fa80000001"), ("c7efffffe0000000", "faff7fffff"),
      ("8000000000000001", "fb8000000000000001"), ("ffefffffffffffff", "fbffefffffffffffff")]),
]


def reading(item, is_):
    """A call of float-read."""
    return call("float-read", bytes.fromhex(item), is_=is_)


def writing(bits, room, is_):
    """A call of float-write."""
    return call("float-write", bytes.fromhex(bits), room, is_=is_)


def values():
    yield from title("Floats (R10.8, D2.12): the shortest width that keeps the value, and back")
    for text, pairs in EXAMPLES + HALVES + SINGLES + DOUBLES + BELOW_ZERO:
        yield note(text)
        for bits, item in pairs:
            yield writing(bits, 9, f"0 {item}")
            yield reading(item, f"0 {bits} {len(item) // 2}")


def not_finite():
    yield note("infinities and NaNs are 19 in each width, though a shorter one has them (R10.9)")
    for item in ("f97c00", "f9fc00", "f97e00", "f97c01", "f9ffff", "fa7f800000", "faff800000",
                 "fa7fc00000", "fa7f800001", "faffffffff", "fb7ff0000000000000",
                 "fbfff0000000000000", "fb7ff8000000000000", "fb7ff0000000000001",
                 "fbffffffffffffffff"):
        yield reading(item, "19")
    yield note("they are not written either, and that is judged before room (R10.9)")
    for bits in ("7ff0000000000000", "fff0000000000000", "7ff8000000000000", "7ff0000000000001",
                 "ffffffffffffffff"):
        yield from (writing(bits, room, "19") for room in (9, 0))


def too_long():
    yield note("longer than need be 18 (R10.9): 1.5 and zeros as single and as double, 100000.0")
    for item in ("fa3fc00000", "fb3ff8000000000000", "fa00000000", "fa80000000",
                 "fb0000000000000000", "fb8000000000000000", "fb40f86a0000000000"):
        yield reading(item, "18")
    yield note("the least and the greatest of the halves and of the singles")
    for item in ("fa33800000", "fb3e70000000000000", "fa477fe000", "fb40effc0000000000",
                 "fb36a0000000000000", "fb380fffffc0000000", "fb47efffffe0000000"):
        yield reading(item, "18")


def cut():
    yield note("cut in each place 3, whatever the bits are (R10.9)")
    for item in ("f93e00", "fa47c35000", "fb3ff199999999999a"):
        yield from (reading(item[:2 * count], "3") for count in range(len(item) // 2))
    for item in ("f97c", "fa7f8000", "fa3fc000", "fb7ff00000000000", "fb3ff80000000000"):
        yield reading(item, "3")
    yield note("another first byte 18, also where nothing follows (R10.9)")
    for first in ("00", "20", "3b", "40", "60", "80", "a0", "c0", "e0", "f4", "f6", "f7", "f8",
                  "fc", "fd", "fe", "ff"):
        yield reading(first, "18")
        yield reading(first + "3ff199999999999a", "18")
    yield note("bytes may follow, and do not help (D2.12)")
    yield reading("f93e0000", "0 3ff8000000000000 3")
    yield reading("f93e00f93e00", "0 3ff8000000000000 3")
    yield reading("fa47c35000ff", "0 40f86a0000000000 5")
    yield reading("fb3ff199999999999a00", "0 3ff199999999999a 9")
    yield reading("fa3fc0000000", "18")
    yield reading("f97c0000000000", "19")


def rooms():
    yield note("room: exact, one byte short, none, one more, the most (R2.4)")
    for bits, item in (("3ff8000000000000", "f93e00"), ("40f86a0000000000", "fa47c35000"),
                       ("3ff199999999999a", "fb3ff199999999999a"), ("8000000000000000", "f98000")):
        exact = len(item) // 2
        for room in (exact, exact - 1, 0, exact + 1, 65536):
            yield writing(bits, room, f"0 {item}" if room >= exact else "11")
    yield note("BITS are 16 lower-case hex digits and nothing before them (D2.12)")
    for bits in ("3ff800000000000", "3ff80000000000000", "3ff800000000000000", "3ff80000000000",
                 "3FF8000000000000", "f3ff8000000000000", "-", "1.5", ""):
        yield raw(f"float-write {bits} 9".encode("ascii"), "?")
    yield raw(b"float-write 3ff8000000000000 65537", "?")
    yield raw(b"float-write 3ff8000000000000", "?")
    yield raw(b"float-read f93e00 9", "?")


def floats():
    for part in (values, not_finite, too_long, cut, rooms):
        yield from part()


SECTIONS = [Section(["float-read", "float-write"], floats)]
