"""Lines that are not of a verb's form, and lines that only look so: section 1 of docs/DESK.md."""

from .common import single

LONGEST = 262144

# What stands in the place of an argument: some of it is good where a number
# is asked for (D1.4), some where bytes are (D1.3), some nowhere.
TOKENS = [
    b"", b"-", b"--", b"0", b"1", b"-1", b"-0", b"+1", b"00", b"07", b"1.0", b"1e3", b"0x10",
    b"1_0", b"12a", b"ab", b"aB", b"AB", b"abc", b"a", b"b", b"c", b"d", b"e", b"A", b"aa", b"g0",
    b"0g", b"null", b"Null", b"i0", b"i-5", b"f0000000000000000", b"3ff8000000000000",
    b"3ff800000000000000", b"3ff80000000000", b"3FF8000000000000", b"65535", b"65536", b"65537",
    b"4294967296", b"9223372036854775807", b"9223372036854775808", b"-9223372036854775808",
    b"-9223372036854775809", b"18446744073709551615", b"18446744073709551616",
    b"99999999999999999999", b"0" * 39 + b"5", b"0" * 40, b"0" * 40 + b"5", b"0" * 21 + b"65536",
    b"1" * 40, b"\xc3\xa9", b"\xff", b"\0", b"\xef\xbc\x91", b"#", b"10\r", b"\t1", b"1\t",
    b"12\x0b", b"1-", b"-a5", b"a5-",
]

UNKNOWN = [
    b"?", b" ", b"  ", b"crc32 00", b"cr", b"CRC 00", b"Crc 00", b"crc-", b"varint 00",
    b"varint-rea 00", b"varint-readx 00", b"varint_read 00", b"base64read 00 1", b"open", b"load",
    b"help", b"quit", b"0", b"-", b"\0", b"\xff\xfe", b"\r", b"\t", b"crc\t00", b" # no comment",
    b"sha-256 00", b"blake2s 00", b"blake2b-256 00", b"spilled",
]

# D1.2
SILENT = [b"", b"#", b"# ", b"#crc 00", b"##", b"#\xff\0", b"# a comment with spaces  "]


def reshaped(good):
    """A good line with its parts moved, dropped, added or respelled (D1.5)."""
    parts = good.split(b" ")
    yield from (b" ".join(parts[:count]) for count in range(1, len(parts)))
    yield from (b" ".join(parts[:i] + [b""] + parts[i:]) for i in range(len(parts) + 1))
    yield from (b" ".join(parts[:i] + parts[i + 1:]) for i in range(1, len(parts)))
    for extra in (b"0", b"-", b"00", b"a", b"", b"#"):
        yield good + b" " + extra
    for wrong in (b"\t", b"  ", b",", b"\r", b"\0", b"\xc2\xa0"):
        yield wrong.join(parts)
    yield from (good + tail for tail in (b"\r", b"\t", b"\0", b"\xff", b"0", b"x", b" #"))
    yield from (parts[0].upper() + good[len(parts[0]):], good.upper(), b"\xef\xbb\xbf" + good)


def retold(good):
    """A good line with each argument replaced by each token."""
    parts = good.split(b" ")
    for at in range(1, len(parts)):
        for token in TOKENS:
            yield b" ".join(parts[:at] + [token] + parts[at + 1:])


def long_lines():
    """Around the longest line (D1.5); `crc ` has four bytes, so the digits are even."""
    for length in (LONGEST - 2, LONGEST - 1, LONGEST, LONGEST + 1, LONGEST + 2, 2 * LONGEST):
        yield b"crc " + b"5a" * ((length - 4) // 2) + b"5" * (length % 2)
    yield b"x" * LONGEST
    yield b"x" * (LONGEST + 1)
    yield b"#" + b" " * (LONGEST - 1)


def edges(samples):
    """All of that, for the good lines of the verbs that are known."""
    def all_edges(rng):
        yield from single(SILENT + UNKNOWN)
        yield from single(long_lines())
        for good in samples:
            yield from single(reshaped(good))
            yield from single(retold(good))
    return all_edges


def mutated(rng, good):
    """A good line with one change at random; a line feed never comes in."""
    kind = rng.random()
    parts = good.split(b" ")
    at = rng.randrange(len(parts))
    if kind < 0.3:
        return b" ".join(parts[:at] + [rng.choice(TOKENS)] + parts[at + 1:])
    if kind < 0.5:
        return b" ".join(parts[:at] + [rng.choice(TOKENS)] + parts[at:])
    if kind < 0.6:
        return b" ".join(parts[:at] + parts[at + 1:])
    place = rng.randrange(len(good) + 1)
    letter = bytes([rng.choice([c for c in range(256) if c != 0x0A])])
    return good[:place] + letter + good[place + (kind < 0.8):]
