"""Calls of the auth and shard verbs: section 11 of docs/RULES.md."""

from itertools import product

from ..payloads import TYPES, auth_pairs, encode, shard_pairs, without_sig
from .common import Group, damaged, line, rooms, single, some_room
from .samples import auth_payload, auth_values, longest, shard_payload, shard_values
from .tokens import variations

SMALL = [0, 1, 2, 3, 23, 24, 254, 255, 256, 65535, 65536, 2**32, 2**64 - 1]
TRIPLES = [0, 1, 2, 254, 255, 256]
SHARES = [0, 1, 15, 16, 17, 31, 32, 33, 48, 207, 208, 209, 223, 224, 225, 239, 240, 256, 300]
LENGTHS = [0, 1, 15, 16, 17, 31, 32, 33, 48, 208, 209, 223, 224, 225, 240, 256, 2**32, 2**63,
           2**64 - 16, 2**64 - 1]
KINDS = [b"", b"passphrase", b"signing-seed", b"Passphrase", b"passphrasf", b"signing-seee",
         b"passphrases", b"signing_seed", b"x" * 10, b"x" * 12, b"x" * 11, b"seed", b"x" * 300]


def auth_write_edges(rng):
    """Each value of a wrong length (R11.2, R11.8), and every room."""
    good = auth_values(rng)
    for sizes in product((0, 31, 32, 33), (0, 63, 64, 65), (0, 31, 32, 33)):
        yield line("auth-write", *map(rng.randbytes, sizes), 157)
        yield line("auth-write", *map(rng.randbytes, sizes), 0)
    yield from (line("auth-write", *good, room) for room in rooms(157))


def auth_signed_edges(rng):
    """The same without `sig` (R11.7)."""
    for pub, digest in product((0, 31, 32, 33, 64), repeat=2):
        yield line("auth-signed", rng.randbytes(pub), rng.randbytes(digest), 104)
        yield line("auth-signed", rng.randbytes(pub), rng.randbytes(digest), 0)
    good = auth_values(rng)
    yield from (line("auth-signed", good.pub, good.hash, room) for room in rooms(104))


def auth_edges(rng):
    """The edges of the three auth verbs."""
    reads = (line("auth-read", raw) for raw in variations(rng, auth_payload(rng)))
    yield from single(reads)
    yield from single(auth_write_edges(rng))
    yield from single(auth_signed_edges(rng))


def auth_chance(rng):
    """A call of an auth verb."""
    values, kind = auth_values(rng), rng.random()
    if kind < 0.2:
        return [line("auth-read", encode(auth_pairs(values)))]
    if kind < 0.6:
        return [line("auth-read", damaged(rng, encode(auth_pairs(values))))]
    if rng.random() < 0.2:
        values = values._replace(**{rng.choice(values._fields): rng.randbytes(rng.randrange(70))})
    if kind < 0.8:
        return [line("auth-write", *values, some_room(rng, 157))]
    return [line("auth-signed", values.pub, values.hash, some_room(rng, 104))]


# Shards.


def shard_lines(shard, extra=True):
    """One shard's values read, written and signed (R11.7), with room and without."""
    raw = encode(shard_pairs(shard))
    signed = 18 + len(encode(without_sig(shard_pairs(shard))))
    unsigned = [value for name, value in shard._asdict().items() if name != "sig"]
    yield line("shard-read", raw)
    for room in (len(raw), 0) if extra else (len(raw),):
        yield line("shard-write", *shard, room)
    for room in (signed, 0) if extra else (signed,):
        yield line("shard-signed", *unsigned, room)


def shard_grid(rng):
    """Values at each bound and one past: share and length (R11.5), numbers (R11.6), type."""
    good = shard_values(rng)
    for share, length in product(SHARES, LENGTHS):
        yield from shard_lines(good._replace(share=rng.randbytes(share), length=length), False)
    for threshold, count, index in product(TRIPLES, repeat=3):
        numbers = {"threshold": threshold, "count": count, "index": index}
        yield from shard_lines(good._replace(**numbers), False)
    for kind in KINDS:
        yield from shard_lines(good._replace(type=kind))
    for name, number in product(("threshold", "count", "index", "length"), SMALL):
        yield from shard_lines(good._replace(**{name: number}), False)
    for name, size in product(("pub", "sig", "hash"), (0, 31, 32, 33, 63, 64, 65)):
        yield from shard_lines(good._replace(**{name: rng.randbytes(size)}))


def every_share(rng):
    """Every length that a share may have (R3.7), with each neighbour of its padding (R11.5)."""
    good = shard_values(rng)
    for length in range(0, 242):
        for share in sorted({(length + 15) // 16 * 16, length, length // 16 * 16}):
            yield line("shard-read", encode(shard_pairs(
                good._replace(share=bytes(share), length=length))))


def shard_rooms(rng):
    """Every room around the exact one, for the shortest and the longest shard (R11.9)."""
    good = shard_values(rng)
    short = good._replace(type=TYPES[0], share=bytes(16), length=1, threshold=1, count=1, index=1)
    for shard in (short, longest(good)):
        unsigned = [value for name, value in shard._asdict().items() if name != "sig"]
        exact = len(encode(shard_pairs(shard)))
        signed = 18 + len(encode(without_sig(shard_pairs(shard))))
        yield from (line("shard-write", *shard, room) for room in rooms(exact))
        yield from (line("shard-signed", *unsigned, room) for room in rooms(signed))


def shard_edges(rng):
    """The edges of the three shard verbs."""
    reads = (line("shard-read", raw) for raw in variations(rng, shard_payload(rng)))
    yield from single(reads)
    for part in (shard_grid, every_share, shard_rooms):
        yield from single(part(rng))


def some_other(rng, shard):
    """One value of a shard changed."""
    name = rng.choice(shard._fields)
    value = getattr(shard, name)
    if isinstance(value, bytes):
        return shard._replace(**{name: damaged(rng, value)})
    return shard._replace(**{name: rng.choice([max(0, value - 1), value + 1, *SMALL])})


def shard_chance(rng):
    """A call of a shard verb."""
    shard = shard_values(rng)
    if rng.random() < 0.3:
        shard = some_other(rng, shard)
    raw, kind = encode(shard_pairs(shard)), rng.random()
    if kind < 0.6:
        return [line("shard-read", raw if kind < 0.3 else damaged(rng, raw))]
    if kind < 0.8:
        return [line("shard-write", *shard, some_room(rng, len(raw)))]
    unsigned = [value for name, value in shard._asdict().items() if name != "sig"]
    return [line("shard-signed", *unsigned, some_room(rng, len(raw) - 53))]


AUTH_SAMPLE = (bytes(32), bytes(64), bytes(32))
SHARD_SAMPLE = (TYPES[0], bytes(16), 9, 2, 3, 1)

GROUPS = [
    Group(["auth-read", "auth-write", "auth-signed"], 3,
          [b"auth-read a0", line("auth-write", *AUTH_SAMPLE, 200),
           line("auth-signed", bytes(32), bytes(32), 200)], auth_edges, auth_chance),
    Group(["shard-read", "shard-write", "shard-signed"], 4,
          [b"shard-read a0", line("shard-write", *AUTH_SAMPLE, *SHARD_SAMPLE, 500),
           line("shard-signed", bytes(32), bytes(32), *SHARD_SAMPLE, 500)],
          shard_edges, shard_chance),
]
