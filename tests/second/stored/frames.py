"""Stored calls of the frame verbs."""

from ..cases.framing import ID, laid_out, with_crc
from ..forms import varint_write
from ..frames import AUTH, KEY, MAIN, Frame, frame_write
from .payloads import AUTH_BYTES, LONGEST_BYTES, SHARD_BYTES
from .script import Section, call, note, title


def read(raw, is_=None):
    """A call of frame-read."""
    return call("frame-read", raw, is_=is_)


def main(index, total, data=b"x", kind=MAIN):
    """A frame of any numbers."""
    return frame_write(Frame(kind, ID, index, total, data))


def frame_fields():
    yield from title("Frames (R6.1, D2.4): the three types (R6.2)")
    yield read(main(2, 5, b"data"), is_=f"0 44 {ID.hex()} 2 5 64617461")
    yield read(main(0, 1, AUTH_BYTES, AUTH), is_=f"0 41 {ID.hex()} 0 1 {AUTH_BYTES.hex()}")
    yield read(main(0, 1, SHARD_BYTES, KEY), is_=f"0 4b {ID.hex()} 0 1 {SHARD_BYTES.hex()}")
    yield note("P11: frame 0 of 1 without data has 19 bytes; P12: 480 bytes make 500 (R17.1)")
    yield read(main(0, 1, b""), is_=f"0 44 {ID.hex()} 0 1 -")
    yield read(main(1, 2, b"z" * 480), is_=f"0 44 {ID.hex()} 1 2 {'7a' * 480}")
    yield note("every truncation of a frame is 3 (R6.4)")
    whole = main(2, 5, b"data")
    yield from (read(whole[:length], is_="3") for length in range(len(whole)))
    yield note("one byte behind it, too; and one byte of data left out (R6.5)")
    yield read(whole + b"\0", is_="3")
    yield read(with_crc(whole[:-5]), is_="3")


def frame_faults():
    yield note("magic 4, judged once it is whole: one wrong byte alone is 3 (R6.4)")
    yield read(b"B", is_="3")
    yield read(b"BP", is_="4")
    yield read(laid_out(magic=b"AY"), is_="4")
    yield note("version: not 1 is 5, not shortest is 7 (R6.4)")
    yield from (read(laid_out(version=varint_write(n)), is_="5") for n in (0, 2, 128, 2**64 - 1))
    yield from (read(laid_out(version=v), is_="7") for v in (b"\x81\x00", b"\xff" * 10))
    yield read(b"AP\x81", is_="3")
    yield note("type 6 (R6.2)")
    for kind in (b"\x00", b"\x40", b"\x43", b"\x64", b"\xff"):
        yield read(laid_out(kind=kind), is_="6")
    yield note("INDEX, TOTAL and the length of the data not shortest, or 2^64 and more: 7 (R6.4)")
    for bad in (b"\x80\x00", b"\xff" * 9 + b"\x02"):
        yield from (read(laid_out(**{f: bad}), is_="7") for f in ("index", "total", "length"))
    yield note("a length of the data that does not fit, also where adding 4 would run over (R6.5)")
    for length in (3, 5, 2**63, 2**64 - 4, 2**64 - 1):
        yield read(laid_out(length=varint_write(length)), is_="3")


def frame_numbers():
    yield note("checksum 10, before 8 and 9 (R6.5)")
    whole = main(2, 5, b"data")
    yield read(whole[:-1] + bytes([whole[-1] ^ 1]), is_="10")
    yield read(main(97, 97, b"z" * 481)[:-1] + b"?", is_="10")
    yield note("page 95 of 96 is read, TOTAL 97 is 9 (R3.1), INDEX 1 of TOTAL 1 is 8 (R17.2)")
    yield read(main(95, 96), is_=f"0 44 {ID.hex()} 95 96 78")
    yield read(main(96, 97), is_="9")
    yield read(main(0, 97), is_="9")
    yield read(main(1, 1), is_="8")
    yield read(main(0, 0), is_="8")
    yield read(main(96, 96), is_="8")
    yield note("an A or K frame with a TOTAL that is not 1: 8 (R6.6), also where 9 is true (R6.7)")
    for kind in (AUTH, KEY):
        yield from (read(main(0, total, b"x", kind), is_="8") for total in (0, 2, 97))
    yield note("481 data bytes are 9 (R3.2, R17.2); with INDEX out of range 8 comes first")
    yield read(main(0, 1, b"z" * 481), is_="9")
    yield read(main(1, 1, b"z" * 481), is_="8")


def frames():
    yield from frame_fields()
    yield from frame_faults()
    yield from frame_numbers()


def page(ciphertext, size, number, room, is_=None):
    """A call of page-write."""
    return call("page-write", ciphertext, size, number, room, is_=is_)


def pages():
    yield from title("Printing (D2.5): five bytes on pages of two (R7.2, R7.3)")
    yield from (page(b"pages", 2, number, 21) for number in (0, 1, 2))
    yield page(b"pages", 2, 3, 21, is_="8")
    yield note("room: 18 bytes and the data (R6.1)")
    yield from (page(b"pages", 5, 0, room) for room in (23, 24, 25, 0))
    yield note("page size 0 and 481, and no ciphertext: 19 before all else (R7.4)")
    yield page(b"pages", 0, 0, 600, is_="19")
    yield page(b"x" * 97, 481, 97, 0, is_="19")
    yield page(b"", 480, 0, 600, is_="19")
    yield note("97 pages are 9, before a page number out of range; 96 are not (R3.1, R7.4)")
    yield page(b"x" * 97, 1, 97, 0, is_="9")
    yield page(b"x" * 96, 1, 95, 600)
    yield page(b"x" * 96, 1, 96, 0, is_="8")
    yield page(b"x" * 96, 1, 95, 0, is_="11")
    yield note("the largest numbers")
    yield page(b"x", 2**64 - 1, 0, 600, is_="19")
    yield page(b"x", 480, 2**64 - 1, 600, is_="8")


def singles(verb, good):
    """Stored calls of key-write or auth-frame-write."""
    def entries():
        exact = 18 + len(good) + len(varint_write(len(good)))
        yield from title(f"{verb} (D2.6): id 19, data 9, the reader's refusal, room 11 (R7.5)")
        yield from (call(verb, ID, good, room) for room in (exact, exact - 1))
        yield call(verb, ID[:7], b"z" * 481, 0, is_="19")
        yield call(verb, ID + b"\0", good, 600, is_="19")
        yield call(verb, ID, b"z" * 481, 0, is_="9")
        yield call(verb, ID, b"z" * 480, 0, is_="18")
        yield call(verb, ID, good + b"\0", 0, is_="3")
        yield call(verb, ID, b"", 0, is_="3")
        yield call(verb, ID, good[:-1] + b"\x00", 0, is_="19")
    return entries


def keys():
    yield from singles("key-write", SHARD_BYTES)()
    yield note("the longest shard, of 456 bytes, fits (R11.9): 476 in a frame; 9 is for other data")
    yield call("key-write", ID, LONGEST_BYTES, 476, is_=f"0 {main(0, 1, LONGEST_BYTES, KEY).hex()}")
    yield call("key-write", ID, LONGEST_BYTES, 475, is_="11")
    yield read(main(0, 1, LONGEST_BYTES, KEY), is_=f"0 4b {ID.hex()} 0 1 {LONGEST_BYTES.hex()}")


SECTIONS = [
    Section(["frame-read"], frames), Section(["page-write"], pages),
    Section(["key-write", "frame-read"], keys),
    Section(["auth-frame-write"], singles("auth-frame-write", AUTH_BYTES)),
]
