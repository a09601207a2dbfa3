"""Stored lines about the desk itself: section 1 of docs/DESK.md."""

from .script import Section, note, raw, title

LONGEST = 262144


def silent():
    yield from title("Lines that print nothing (D1.2): three empty ones and comments")
    yield from (raw(text) for text in (b"", b"", b"", b"#", b"#crc 00", b"##  two"))
    yield raw(b"crc 00", "0 d202ef8d")


def unknown():
    yield note("unknown verbs (D1.5)")
    for text in (b"crc32 00", b"CRC 00", b"cr 00", b"varint 00", b"varint_read 00", b"?", b"-",
                 b"base64 00 1", b"spilled", b"\xff", b"\x00"):
        yield raw(text, "?")
    yield note("a line that begins with a space has an empty verb, also before a `#` (D1.5)")
    yield from (raw(text, "?") for text in (b" crc 00", b" ", b" # not a comment"))


def parted():
    yield note("arguments: too few, too many, parted by more or other than one space (D1.1, D1.5)")
    for text in (b"crc", b"crc ", b"crc  00", b"crc 00 ", b"crc 00 00", b"crc\t00", b"crc 00\r",
                 b"varint-write 5", b"varint-write 5 1 1", b"varint-write 5  1", b"varint-write"):
        yield raw(text, "?")


def bytes_forms():
    yield note("bytes: lower case only, two digits a byte, `-` for none (D1.3)")
    for text in (b"crc A0", b"crc aB", b"crc a", b"crc abc", b"crc 0g", b"crc 0x00", b"crc --",
                 b"crc -00", b"crc 00-", b"crc \xc3\xa9", b"crc 0\x00", b"crc #"):
        yield raw(text, "?")
    yield raw(b"crc -", "0 00000000")
    yield raw(b"crc 0a")


def number_forms():
    yield note("numbers: decimal, up to 2^64 - 1, leading zeros allowed, 40 digits at most (D1.4)")
    for text in (b"+1", b"-1", b"-0", b"0x1", b"1e1", b"1_0", b"1.0", b"a", b"-", b"",
                 b"18446744073709551616", b"99999999999999999999", b"0" * 40 + b"1", b"1" * 40):
        yield raw(b"varint-write " + text + b" 10", "?")
    yield raw(b"varint-write 18446744073709551615 10", "0 ffffffffffffffffff01")
    yield raw(b"varint-write 007 10", "0 07")
    yield raw(b"varint-write " + b"0" * 39 + b"7 10", "0 07")


def room_forms():
    yield note("ROOM: up to 65,536 (D1.6)")
    for room, answer in ((b"65536", "0 07"), (b"65537", "?"), (b"18446744073709551615", "?"),
                         (b"0065536", "0 07"), (b"-1", "?"), (b"", "?")):
        yield raw(b"varint-write 7 " + room, answer)


def large():
    yield note("the most output: 65,536 characters from 49,152 bytes")
    yield raw(b"base64-write " + b"00" * 49152 + b" 65536")
    yield note("a line of exactly 262,144 bytes, and one of 262,145 (D1.5)")
    yield raw(b"crc " + b"5a" * ((LONGEST - 4) // 2))
    yield raw(b"crc " + b"5a" * ((LONGEST - 4) // 2) + b"5", "?")
    yield note("what follows is answered as ever (D1.5)")
    yield raw(b"crc 313233343536373839", "0 cbf43926")


def last():
    yield note("the last line has no line feed (D1.1)")
    yield raw(b"varint-read 05", "0 5 1")


def lines():
    for part in (silent, unknown, parted, bytes_forms, number_forms, room_forms, large, last):
        yield from part()


SECTIONS = [Section(["crc", "varint-read", "varint-write", "base64-write"], lines)]
