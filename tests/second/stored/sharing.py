"""Stored calls of `split` and `recover`. What is beside a call was worked out without the field, or
is published."""

from ..cases.common import with_byte
from ..cases.recovering import recover_line
from ..payloads import Shard
from .payloads import AUTH_VALUES
from .script import Entry, Section, call, note, raw, title

# RFC 4493, section 4: L and its products with x and x^2, which are the elements 2 and 4. So the
# element 3 gives L + DOUBLE; and 3 * 3 is 5, which gives L + FOURFOLD.
L = bytes.fromhex("7df76b0c1ab899b33e42f047b91b546f")
DOUBLE = bytes.fromhex("fbeed618357133667c85e08f7236a8de")
FOURFOLD = bytes.fromhex("f7ddac306ae266ccf90bc11ee46d513b")
NOTHING = bytes(16)

# What ssss makes (B. Poettering; `ssss-split -t T -x -D`), as pycryptodome's own tests have it: the
# threshold, the secret, and shares from index 1 on. Its curve has a 1 before x^T too, so by our
# count the threshold is one more.
BY_SSSS = [
    (2, "bf4f902d9a7efafd1f3ffd9291fd5de9",
     ["557bd3b0748064b533469722d1cc7935", "6b2717164783c66d47cd28f2119f14d0",
      "8113548ba97d58256bb4424251ae300c", "179e9e5a218483ddaeda57539139cf04"]),
    (3, "ec96aa5c14c9faa699354cf1da74e904",
     ["64579fbf1908d66f7239bf6e2b4e41e1", "6cd9428df8017b52322561e8c672ae3e",
      "e418776ef5c0579bd9299277374806dd", "ab3f77a0107398d23b323e581bb43f5d",
      "23fe42431db2b41bd03ecdc7ea8e97ac"]),
    (5, "5398717c982db935d968eebe53a47f5a",
     ["be7be2dd4c068e7ef576aaa1b1c11b01", "f821f5848441cb98b3eb467e2733ee21",
      "25ee52f53e203f6e29a0297b5ab486b5", "fc9fb58ef74dab947fbf9acd9d5d83cd",
      "b1949cce46d81552e65f248d3f74cc5c", "d64797f59977c4d4a7956ad916da7699",
      "ab608a6546a8b9af8820ff832b1135c7"]),
    (10, "eccbf6d66d680b49b073c4f1ddf804aa",
     ["7d8ac32fe4ae209ead1f3220fda34466", "f9144e76988aad647d2e61353a6e96d5",
      "b14c3b80179203363922d60760271c98", "770bb2a8c28f6cee89e00f4d5cc7f861",
      "6e3d7073ea368334ef67467871c66799", "248792bc74a98ce024477c13c8fb5f8d",
      "fcea4640d2db820c0604851e293d2487", "2776c36fb714bb1f8525a0be36fc7dba",
      "6ee7ac8be773e473a4bf75ee5f065762", "33657fc073354cf91d4a68c735aacfc8",
      "7645c65094a5868bf225c516fdee2d0c", "840485aacb8226631ecd9c70e3018086"]),
]

SECRET = b"cross at ebbtide"


def added(*blocks):
    """The sum of blocks: bit by bit, without the field."""
    return bytes(a ^ b ^ c for a, b, c in zip(*blocks, *[NOTHING] * (3 - len(blocks))))


def slip(share, index=1, threshold=1, count=3, length=16, **others):
    """A slip of some share."""
    shard = Shard(*AUTH_VALUES, b"passphrase", share, length, threshold, count, index)
    return shard._replace(**others)


def recovering(room, *slips, is_=None):
    """A call of recover."""
    return Entry(recover_line(room, slips), is_)


def done(*blocks):
    """The answer that has these bytes."""
    return "0 " + b"".join(blocks).hex()


def shares():
    yield from title("Shares (R19.1 to R19.5, D2.14)")
    yield note("a threshold of 1: each share is the padded secret")
    yield call("split", b"pier", 1, 3, b"", 48, is_=done(*[b"pier" + bytes(12)] * 3))
    yield note("L times 1, 2, 3 and 4: RFC 4493 has its products with 2 and 4")
    lines = [L, DOUBLE, added(L, DOUBLE), FOURFOLD]
    yield call("split", NOTHING, 2, 4, L, 64, is_=done(*lines))
    yield call("split", SECRET, 2, 4, L, 64, is_=done(*[added(SECRET, one) for one in lines]))
    yield note("the lowest power first: L before x, then L before x^2")
    squares = [L, FOURFOLD, added(L, FOURFOLD)]
    yield call("split", NOTHING, 3, 3, L + NOTHING, 48, is_=done(*lines[:3]))
    yield call("split", NOTHING, 3, 3, NOTHING + L, 48, is_=done(*squares))
    yield note("and for each block of the secret in turn: a share has its blocks side by side")
    pairs = [block for pair in zip(lines, squares) for block in pair]
    yield call("split", bytes(32), 3, 3, L + NOTHING + NOTHING + L, 96, is_=done(*pairs))
    yield note("the lowest bits, and the highest: times 2 it leaves x^7 + x^2 + x + 1")
    for bit in (0, 127):
        yield call("split", NOTHING, 2, 9, (1 << bit).to_bytes(16, "big"), 144)
    yield call("split", bytes(range(40)), 2, 3, bytes(range(100, 148)), 144)


def split_refused():
    yield note("1 <= threshold <= count <= 255, else 19")
    for threshold, count in ((0, 0), (0, 1), (2, 1), (1, 256), (256, 256), (257, 257), (1, 0),
                             (2**60 + 1, 2**60 + 1), (1, 2**64 - 1), (2**64 - 1, 2**64 - 1)):
        yield call("split", b"a", threshold, count, b"", 65536, is_="19")
    yield note("a secret of 1 to 224 bytes, else 19")
    yield call("split", b"", 1, 1, b"", 10, is_="19")
    yield call("split", bytes(225), 1, 1, b"", 240, is_="19")
    yield call("split", b"\x5a" * 224, 1, 1, b"", 224, is_=done(b"\x5a" * 224))
    yield note("threshold - 1 blocks for each of the secret, else 19")
    for length, given in ((16, 15), (16, 17), (16, 0), (16, 32), (17, 16), (17, 31), (17, 33)):
        yield call("split", bytes(length), 2, 2, bytes(given), 0, is_="19")
    yield call("split", b"a", 1, 1, b"a", 16, is_="19")
    yield note("11 where not all shares fit")
    for room in (0, 31, 32):
        yield call("split", b"a", 1, 2, b"", room, is_="11" if room < 32 else None)


def recovered():
    yield note("two slips, the later index first; then three, which add up for 1, 2 and 3")
    first, second = added(SECRET, L), added(SECRET, DOUBLE)
    yield recovering(16, slip(second, 2, 2), slip(first, 1, 2), is_=done(SECRET))
    three = [slip(share, at, 3) for share, at in ((added(SECRET, L, DOUBLE), 3), (L, 1),
                                                  (DOUBLE, 2))]
    yield recovering(16, *three, is_=done(SECRET))
    yield note("four shares that ssss made; any three give the secret, and the fourth is theirs")
    threshold, secret, made = BY_SSSS[0]
    slips = [slip(bytes.fromhex(share), index, threshold + 1, 4)
             for index, share in enumerate(made, start=1)]
    yield recovering(16, *slips, is_="0 " + secret)
    yield note("rooms; then a byte behind the length is not zero: 30, before 11")
    for room in (8, 9):
        short = slip(b"low water" + bytes(7), length=9)
        yield recovering(room, short, is_=done(b"low water") if room == 9 else "11")
    yield recovering(0, slip(with_byte(SECRET, 15, 1), length=15), is_="30")


def recover_refused():
    yield note("the reader's refusal of the first slip that has one; then no slip: 26")
    for text, answer in ((b"9 -", "3"), (b"9 - a0", "3"), (b"9 a0 -", "18"), (b"0", "26"),
                         (b"65536", "26")):
        yield raw(b"recover " + text, answer)
    one, two = slip(SECRET, 1), slip(SECRET, 2)
    few = slip(SECRET, 1, 3)
    yield raw(recover_line(16, [few]) + b" -", "3")
    yield note("fewer than the first slip's threshold: 26, though the second differs")
    yield recovering(16, few, two, is_="26")
    yield note("another type, threshold, length, hash or key: 27; a signature may differ")
    for other in ({"type": b"signing-seed"}, {"threshold": 2}, {"length": 15},
                  {"hash": with_byte(one.hash, 31, 0)}, {"pub": with_byte(one.pub, 0, 0)}):
        yield recovering(16, one, two._replace(**other), is_="27")
    yield recovering(16, one, two._replace(sig=bytes(64)), is_=done(SECRET))
    yield note("another count: 27 before 28; 28 before 29, 29 before 30")
    yield recovering(16, one, one._replace(count=4), is_="27")
    yield recovering(16, one, one._replace(share=L), is_="28")
    ill = slip(SECRET, 1, length=9)
    yield recovering(9, ill, ill._replace(index=2, share=L), is_="29")
    yield note("300 slips on a line, and 301")
    for many, answer in ((300, "3"), (301, "?")):
        yield raw(b"recover 0" + b" -" * many, answer)


def forms():
    yield note("arguments in another form (D1.5)")
    for text in (b"split 61 1 1 -", b"split 61 1 1 - 16 16", b"split 61 -1 1 - 16",
                 b"split 61 1 18446744073709551616 - 16", b"split 61 1 1 6 16", b"recover",
                 b"recover -", b"recover 65537", b"recover 9 a", b"recover 9 - ", b"recover - 9"):
        yield raw(text, "?")


def sharing():
    for part in (shares, split_refused, recovered, recover_refused, forms):
        yield from part()


SECTIONS = [Section(["split", "recover"], sharing)]
