"""Auth and shard payloads: section 11 of docs/RULES.md."""

from collections import namedtuple

from .answers import OUT_OF_RANGE, lend, refuse_if
from .cbor import BYTES, TEXT, Items, byte_string, integer, text

MOST_SHARE = 224  # R3.7
TYPES = (b"passphrase", b"signing-seed")  # R11.4

# R11.7
AUTH_DOMAIN = b"ETHERNITY-AUTH-V1"
SHARD_DOMAIN = b"ETHERNITY-SHARD-V1"

Auth = namedtuple("Auth", "pub sig hash")
Shard = namedtuple("Shard", "pub sig hash type share length threshold count index")


# Encoding: the items of each map in their order, as (key, item) pairs.


def encode(pairs):
    """A map of up to 23 pairs: its head, then key and item in turn (R10.1)."""
    return bytes([0xA0 + len(pairs)]) + b"".join(text(k) + item for k, item in pairs)


def without_sig(pairs):
    """The map that gets signed (R11.7)."""
    return [(key, item) for key, item in pairs if key != b"sig"]


def auth_pairs(auth):
    """Four items (R11.1)."""
    return [(b"pub", byte_string(auth.pub)), (b"sig", byte_string(auth.sig)),
            (b"hash", byte_string(auth.hash)), (b"version", integer(1))]


def shard_pairs(shard):
    """Ten items (R11.3)."""
    return [(b"pub", byte_string(shard.pub)), (b"sig", byte_string(shard.sig)),
            (b"hash", byte_string(shard.hash)), (b"type", text(shard.type)),
            (b"share", byte_string(shard.share)), (b"length", integer(shard.length)),
            (b"version", integer(1)), (b"threshold", integer(shard.threshold)),
            (b"share_count", integer(shard.count)), (b"share_index", integer(shard.index))]


# Auth.


def auth_read(raw):
    """A map of four (R11.1), of which three have one length and the last one value (R11.2)."""
    items = Items(raw)
    items.byte(0xA4)
    items.key(b"pub")
    pub = items.exactly(32)
    items.key(b"sig")
    sig = items.exactly(64)
    items.key(b"hash")
    digest = items.exactly(32)
    items.key(b"version")
    items.integer(1, 1)
    items.end()
    return Auth(pub, sig, digest)


def judge_auth(auth, signed=False):
    """The values, of any length (R11.8), in the map's order (R10.7); sig apart if signed."""
    refuse_if(len(auth.pub) != 32, OUT_OF_RANGE)
    refuse_if(not signed and len(auth.sig) != 64, OUT_OF_RANGE)
    refuse_if(len(auth.hash) != 32, OUT_OF_RANGE)


def auth_write(auth, room):
    """The values, then 11: no 9 (R11.9)."""
    judge_auth(auth)
    return lend(room, encode(auth_pairs(auth)))


def auth_signed(auth, room):
    """The domain, then the map without `sig`: values as by the writer, then 11 (R11.7)."""
    judge_auth(auth, signed=True)
    return lend(room, AUTH_DOMAIN + encode(without_sig(auth_pairs(auth))))


# Shard.


def padded(length):
    """The bytes of a share: whole blocks of 16, the fewest that hold the secret (R11.5)."""
    return (length + 15) // 16 * 16


def shard_read(raw):
    """A map of ten (R11.3). What a rule says of two items is judged once both are read (R10.5)."""
    items = Items(raw)
    items.byte(0xAA)
    items.key(b"pub")
    pub = items.exactly(32)
    items.key(b"sig")
    sig = items.exactly(64)
    items.key(b"hash")
    digest = items.exactly(32)
    secret = shard_secret(items)
    items.key(b"version")
    items.integer(1, 1)
    numbers = shard_numbers(items)
    items.end()
    return Shard(pub, sig, digest, *secret, *numbers)


def shard_secret(items):
    """`type` (R11.4), `share` and `length`, which are compared at `length` (R11.5)."""
    items.key(b"type")
    kind = items.string(TEXT, lambda n: n in map(len, TYPES), OUT_OF_RANGE)
    refuse_if(kind not in TYPES, OUT_OF_RANGE)
    items.key(b"share")
    share = items.string(BYTES, lambda n: n <= MOST_SHARE, OUT_OF_RANGE)
    items.key(b"length")
    length = items.integer(1, 2**64)
    refuse_if(len(share) != padded(length), OUT_OF_RANGE)
    return kind, share, length


def shard_numbers(items):
    """`threshold`, `share_count`, `share_index`: 1 to 255, none above the count (R11.6)."""
    items.key(b"threshold")
    threshold = items.integer(1, 255)
    items.key(b"share_count")
    count = items.integer(1, 255)
    refuse_if(threshold > count, OUT_OF_RANGE)
    items.key(b"share_index")
    index = items.integer(1, 255)
    refuse_if(index > count, OUT_OF_RANGE)
    return threshold, count, index


def judge_shard(shard, signed=False):
    """The values, of any length (R11.8), in the map's order (R10.7); sig apart if signed."""
    judge_auth(Auth(shard.pub, shard.sig, shard.hash), signed)
    refuse_if(shard.type not in TYPES, OUT_OF_RANGE)
    refuse_if(len(shard.share) > MOST_SHARE, OUT_OF_RANGE)
    refuse_if(shard.length < 1, OUT_OF_RANGE)
    refuse_if(len(shard.share) != padded(shard.length), OUT_OF_RANGE)
    refuse_if(not 1 <= shard.threshold <= 255, OUT_OF_RANGE)
    refuse_if(not 1 <= shard.count <= 255, OUT_OF_RANGE)
    refuse_if(shard.threshold > shard.count, OUT_OF_RANGE)
    refuse_if(not 1 <= shard.index <= shard.count, OUT_OF_RANGE)


def shard_write(shard, room):
    """The values, then 11: no payload of such values is too large for a page (R11.9)."""
    judge_shard(shard)
    return lend(room, encode(shard_pairs(shard)))


def shard_signed(shard, room):
    """The domain, then the map without `sig`: values as by the writer, then 11 (R11.7)."""
    judge_shard(shard, signed=True)
    return lend(room, SHARD_DOMAIN + encode(without_sig(shard_pairs(shard))))
