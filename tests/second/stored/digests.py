"""Stored calls of the sums and digests."""

from .script import Section, call, note, title

TWO_BLOCKS = b"abcdbcdecdefdefgefghfghighijhijkijkljklmklmnlmnomnopnopq"

SHA256 = {
    b"": "e3b0c44298fc1c149afbf4c8996fb92427ae41e4649b934ca495991b7852b855",
    b"abc": "ba7816bf8f01cfea414140de5dae2223b00361a396177a9cb410ff61f20015ad",
    TWO_BLOCKS: "248d6a61d20638b8e5c026930c3e6039a33ce45964ff2167f6ecedd419db06c1",
}
BLAKE2B = {
    b"": "0e5751c026e543b2e8ab2eb06099daa1d1e5df47778f7787faab45cdf12fe3a8",
    b"abc": "bddd813c634239723171ef3fee98579b94964e3bb1cb3e427262c8c068d52319",
}


def counting(length):
    """Bytes that count up from 00."""
    return bytes(i % 256 for i in range(length))


def crc():
    yield from title("CRC-32/ISO-HDLC (R6.3): its check value is that of the digits 1 to 9")
    yield call("crc", b"123456789", is_="0 cbf43926")
    yield note("no bytes, and single bytes")
    yield call("crc", b"", is_="0 00000000")
    for data in (b"\x00", b"\x01", b"\x80", b"\xff"):
        yield call("crc", data)
    yield note("zeros are counted, and so is where a byte stands")
    for data in (b"\0\0", b"\0\0\0\0", b"\xff\xff\xff\xff", b"\0\1", b"\1\0"):
        yield call("crc", data)
    yield note("lengths around eight and sixteen bytes, 508 as in a block of the collection")
    for length in (7, 8, 9, 15, 16, 17, 508):
        yield call("crc", counting(length))


def sha256():
    yield from title("SHA-256 (D2.3): FIPS 180-4, one block, two blocks, and the empty message")
    yield call("sha256", b"abc", is_=f"0 {SHA256[b'abc']}")
    yield call("sha256", TWO_BLOCKS, is_=f"0 {SHA256[TWO_BLOCKS]}")
    yield call("sha256", b"", is_=f"0 {SHA256[b'']}")
    yield note("lengths around the padding (55, 56) and the block (64), once more a block later")
    for length in (1, 54, 55, 56, 57, 63, 64, 65, 111, 112, 118, 119, 120, 121, 127, 128, 129):
        yield call("sha256", counting(length))
    yield note("bytes 80 and 00 look like padding and are not")
    for data in (b"\x80", b"\x80" + bytes(63), bytes(64), bytes(55), bytes(56)):
        yield call("sha256", data)


def blake2b():
    yield from title("BLAKE2b of RFC 7693, unkeyed, 32-byte output (D2.3): `abc` and no bytes")
    yield call("blake2b", b"abc", is_=f"0 {BLAKE2B[b'abc']}")
    yield call("blake2b", b"", is_=f"0 {BLAKE2B[b'']}")
    yield note("lengths around the block of 128 bytes: no empty block follows a full one")
    for length in (1, 55, 56, 63, 64, 65, 111, 112, 119, 120, 127, 128, 129, 255, 256, 257):
        yield call("blake2b", counting(length))
    yield note("zeros are counted")
    for data in (b"\0", b"\0\0", bytes(127), bytes(128), bytes(129)):
        yield call("blake2b", data)


def doc_id():
    yield from title("The document id: the first 8 bytes of that BLAKE2b (R7.1)")
    yield call("doc-id", b"abc", is_=f"0 {BLAKE2B[b'abc'][:16]}")
    yield call("doc-id", b"", is_=f"0 {BLAKE2B[b''][:16]}")
    yield call("doc-id", counting(300))


SECTIONS = [Section(["crc"], crc), Section(["sha256"], sha256), Section(["blake2b"], blake2b),
            Section(["doc-id"], doc_id)]
