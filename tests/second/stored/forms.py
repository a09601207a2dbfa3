"""Stored calls of varints and texts."""

from .script import Section, call, note, title

VARINTS = ["varint-read", "varint-write"]
BASE64 = ["base64-read", "base64-write"]
ZBASE32 = ["zbase32-read", "zbase32-write"]

RFC_4648 = [(b"", b""), (b"f", b"Zg"), (b"fo", b"Zm8"), (b"foo", b"Zm9v"), (b"foob", b"Zm9vYg"),
            (b"fooba", b"Zm9vYmE"), (b"foobar", b"Zm9vYmFy")]


def hexed(data):
    """Bytes as they are printed."""
    return data.hex() or "-"


def varint_examples():
    """P1 to P5, as runs."""
    yield from title("Varints (P1 to P5 of R17.1): written, and read back (D2.1)")
    for number, form in ((0, "00"), (127, "7f"), (128, "8001"), (300, "ac02")):
        data = bytes.fromhex(form)
        yield call("varint-write", number, 10, is_=f"0 {form}")
        yield call("varint-read", data, is_=f"0 {number} {len(data)}")
    yield call("varint-read", bytes.fromhex("8000"), is_="7")


def varint_bounds():
    """Where the length changes, up to the largest number."""
    yield note("the last number of each length and the first of the next (R4.2)")
    for length in range(1, 10):
        for number in (2**(7 * length) - 1, 2**(7 * length)):
            yield call("varint-write", number, 10)
    yield note("the two largest numbers, and 2^63")
    for number in (2**63, 2**64 - 2, 2**64 - 1):
        yield call("varint-write", number, 10)
    yield note("room one byte short, exact, one more, none (R2.4)")
    for room in (2, 3, 4, 0):
        yield call("varint-write", 2**20, room)
    yield call("varint-write", 2**64 - 1, 9, is_="11")
    yield call("varint-write", 0, 0, is_="11")
    yield call("varint-write", 5, 65536)


def varint_refusals():
    """Not shortest, too large, cut."""
    yield note("bytes after the varint are allowed here (D2.1)")
    yield call("varint-read", b"\x05\x06\x07", is_="0 5 1")
    yield call("varint-read", b"\xff\x7f\xff", is_="0 16383 2")
    yield note("the largest number, and the smallest with ten bytes")
    yield call("varint-read", b"\xff" * 9 + b"\x01", is_=f"0 {2**64 - 1} 10")
    yield call("varint-read", b"\x80" * 9 + b"\x01", is_=f"0 {2**63} 10")
    yield note("a tenth byte above 1, also one that would go on; a tenth byte 00 (R4.3)")
    for tenth in (2, 0x7F, 0x80, 0x81, 0xFF, 0):
        yield call("varint-read", b"\xff" * 9 + bytes([tenth]), is_="7")
    yield note("more than ten bytes: the tenth decides")
    yield call("varint-read", b"\x80" * 11 + b"\x01", is_="7")
    yield note("not shortest (R4.3)")
    for form in ("818000", "80808000", "ff00", "ff8000", "80" * 8 + "00"):
        yield call("varint-read", bytes.fromhex(form), is_="7")
    yield note("the input ends inside: none, one, two and nine bytes (R4.4)")
    for count in (0, 1, 2, 9):
        yield call("varint-read", b"\xff" * count, is_="3")
    yield call("varint-read", b"\x80", is_="3")


def varints():
    yield from varint_examples()
    yield from varint_bounds()
    yield from varint_refusals()


def base64_examples():
    """RFC 4648 section 10 without padding, and P6, P7."""
    yield from title("Base64 (D2.2): the vectors of RFC 4648 section 10, without padding (R5.2)")
    for data, text in RFC_4648:
        yield call("base64-write", data, 64, is_=f"0 {hexed(text)}")
        yield call("base64-read", text, 64, is_=f"0 {hexed(data)}")
    yield note("P6 and P7 (R17.1)")
    yield call("base64-write", b"AP", 3, is_="0 " + b"QVA".hex())
    yield call("base64-read", b"QVA", 2, is_="0 4150")
    yield call("base64-read", b"QVB", 2, is_="2")
    yield note("500 bytes give 667 characters, so 666 are too short (R17.2)")
    data = bytes(i * 7 % 256 for i in range(500))
    yield call("base64-write", data, 667)
    yield call("base64-write", data, 666, is_="11")


def base64_characters():
    """Which characters are read, skipped and refused."""
    yield note("the whole alphabet, values 0 to 63 (R5.2)")
    alphabet = b"ABCDEFGHIJKLMNOPQRSTUVWXYZabcdefghijklmnopqrstuvwxyz0123456789+/"
    yield call("base64-read", alphabet, 48)
    yield note("09 to 0D and 20 are skipped, also in front and behind (R5.4), and alone (R5.7)")
    for skipped in (b"\t", b"\n", b"\x0b", b"\x0c", b"\r", b" "):
        yield call("base64-read", skipped + b"Z" + skipped + b"m9v" + skipped, 3, is_="0 666f6f")
    yield call("base64-read", b" \t\r\n", 0, is_="0 -")
    yield note("not allowed: padding (R5.2), dash, the neighbours of all ranges, 80 and above")
    for bad in (b"=", b"-", b"_", b"*", b",", b".", b":", b"@", b"[", b"`", b"{", b"\x00", b"\x08",
                b"\x0e", b"\x1f", b"!", b"\x7f", b"\x80", b"\x85", b"\xa0", b"\xff"):
        yield call("base64-read", b"Zm9" + bad, 9, is_="1")
    yield call("base64-read", b"Zg==", 9, is_="1")


def base64_lengths():
    """Counts, leftover bits, rooms, order."""
    yield note("counts 1 to 9: 1, 5 and 9 are impossible (R5.6)")
    for count in range(1, 10):
        yield call("base64-read", b"A" * count, 9)
    yield note("leftover bits: four of them after two characters, two after three (R5.6)")
    for text in (b"AA", b"AB", b"AP", b"AQ", b"A/", b"AAA", b"AAB", b"AAC", b"AAE", b"AA/"):
        yield call("base64-read", text, 9)
    yield note("leftover bits are not looked at before the end: whole groups of set bits (R5.1)")
    yield call("base64-read", b"////", 3, is_="0 ffffff")
    yield note("room one byte short, exact, one more, none, the most (R2.4)")
    for room in (2, 3, 4, 0, 65536):
        yield call("base64-read", b"Zm9v", room)
        yield call("base64-write", b"foo", room + 1 if room < 65536 else room)
    yield note("faults together: 1 before 2 before 11 (R5.5)")
    for text in (b"Zm9vZ=", b"ZZZZZ=", b"=", b"ZZZZZ", b"ZZ", b"Zm9v"):
        yield call("base64-read", text, 0)


def base64():
    yield from base64_examples()
    yield from base64_characters()
    yield from base64_lengths()


def zbase32_examples():
    """P8, P9, P10."""
    yield from title("z-base-32 (D2.2): P8 to P10 (R17.1)")
    yield call("zbase32-write", b"AP", 4, is_="0 " + b"efey".hex())
    yield call("zbase32-read", b"efey", 2, is_="0 4150")
    yield call("zbase32-write", b"\xff", 2, is_="0 " + b"9h".hex())
    yield call("zbase32-read", b"9h", 1, is_="0 ff")
    yield call("zbase32-read", b"99", 1, is_="2")
    yield note("500 bytes give 800 characters, so 799 are too short (R17.2)")
    data = bytes(i * 7 % 256 for i in range(500))
    yield call("zbase32-write", data, 800)
    yield call("zbase32-write", data, 799, is_="11")
    yield note("lengths 0 to 6")
    for length in range(7):
        yield call("zbase32-write", b"foobar"[:length], 10)


def zbase32_characters():
    """Which characters are read, skipped and refused."""
    yield note("the whole alphabet, values 0 to 31 (R5.3)")
    yield call("zbase32-read", b"ybndrfg8ejkmcpqxot1uwisza345h769", 20,
               is_="0 00443214c74254b635cf84653a56d7c675be77df")
    yield note("09 to 0D, 20 and the dash are skipped (R5.4)")
    for skipped in (b"\t", b"\n", b"\x0b", b"\x0c", b"\r", b" ", b"-", b"--"):
        yield call("zbase32-read", skipped + b"ef" + skipped + b"ey" + skipped, 2, is_="0 4150")
    yield call("zbase32-read", b"-- \t-", 0, is_="0 -")
    yield note("not allowed: upper case, the letters and digits left out, 80 and above (R5.3)")
    for bad in (b"0", b"2", b"l", b"v", b"Y", b"Z", b"A", b"=", b"_", b"\x00", b"\x08", b"\x0e",
                b"\x1f", b"!", b",", b".", b"/", b":", b"`", b"{", b"\x7f", b"\x80", b"\xad",
                b"\xff"):
        yield call("zbase32-read", b"yyy" + bad, 9, is_="1")


def zbase32_lengths():
    """Counts, leftover bits, rooms, order."""
    yield note("counts 1 to 17: 1, 3 and 6 modulo 8 are impossible (R5.6)")
    for count in range(1, 18):
        yield call("zbase32-read", b"y" * count, 20)
    yield note("leftover bits: 2 after two characters, 4 after four, 1 after five, 3 after seven")
    for count, lasts in ((2, b"rnb"), (4, b"oerb"), (5, b"nb"), (7, b"ernb"), (8, b"9")):
        for last in lasts:
            yield call("zbase32-read", b"y" * (count - 1) + bytes([last]), 20)
    yield note("room one byte short, exact, one more, none, the most (R2.4)")
    for room in (4, 5, 6, 0, 65536):
        yield call("zbase32-read", b"9" * 8, room)
        yield call("zbase32-write", b"\xff" * 5, min(65536, room + 3))
    yield note("faults together: 1 before 2 before 11 (R5.5)")
    for text in (b"yyyy0", b"yyy0", b"0", b"yyy", b"yb", b"yyyy"):
        yield call("zbase32-read", text, 0)


def zbase32():
    yield from zbase32_examples()
    yield from zbase32_characters()
    yield from zbase32_lengths()


SECTIONS = [Section(VARINTS, varints), Section(BASE64, base64), Section(ZBASE32, zbase32)]
