"""Calls of `recover`: R19.8 and R19.7 of docs/RULES.md.

A fault here takes slips and gives others, so that several can meet in one call.
"""

from itertools import islice, permutations, product

from ..payloads import TYPES, Shard, encode, padded, shard_pairs
from ..sharing import Curves
from .common import (MOST_ROOM, Group, damaged, line, rooms, single, some_bytes, some_room,
                     truncations, with_byte)
from .malformed import LONGEST
from .samples import auth_values
from .splitting import FEW, LENGTHS, some_numbers, some_secret_length
from .tokens import variations

MOST_SLIPS = 300

# Slips.


def payload(slip):
    """A slip's bytes."""
    return encode(shard_pairs(slip))


def recover_line(room, slips):
    """A call with these slips."""
    return line("recover", room, *map(payload, slips))


def slips_of(rng, secret, length, threshold, count, indexes):
    """Slips of one split of a padded secret; the signature of each is its own."""
    shared = Shard(*auth_values(rng), rng.choice(TYPES), b"", length, threshold, count, 0)
    curves = Curves(secret, threshold, rng.randbytes(len(secret) * (threshold - 1)))
    return [shared._replace(sig=rng.randbytes(64), share=curves.share(index), index=index)
            for index in indexes]


def some_slips(rng, length, threshold, count, many=None):
    """So many slips of a split, or all, in any order."""
    secret = some_bytes(rng, length).ljust(padded(length), b"\0")
    indexes = rng.sample(range(1, count + 1), count if many is None else many)
    return slips_of(rng, secret, length, threshold, count, indexes)


def ill_padded(rng, length, threshold, count, many):
    """Slips of a secret that has a byte behind its length which is not zero, if there is room."""
    size = padded(length)
    secret = bytearray(rng.randbytes(length) + bytes(size - length))
    if size > length:
        secret[rng.randrange(length, size)] = 1 << rng.randrange(8)
    indexes = rng.sample(range(1, count + 1), many)
    return slips_of(rng, bytes(secret), length, threshold, count, indexes)


# Faults.


def replaced(items, at, new):
    """A list with one item replaced."""
    return [*items[:at], new, *items[at + 1:]]


def flipped(rng, data, at):
    """One bit or more of a byte changed."""
    return with_byte(data, at, data[at] ^ rng.choice((1, 0x80, rng.randrange(1, 256))))


def differing(rng, slip):
    """Slips that the reader takes, and that differ in what all slips of a split share."""
    yield slip._replace(type=TYPES[slip.type == TYPES[0]])
    for threshold in sorted({1, slip.threshold - 1, slip.threshold + 1, slip.count}):
        if 1 <= threshold <= slip.count and threshold != slip.threshold:
            yield slip._replace(threshold=threshold)
    for count in sorted({slip.count - 1, slip.count + 1, 255} - {slip.count}):
        if max(slip.threshold, slip.index) <= count <= 255:
            yield slip._replace(count=count)
    for more in (-16, -1, 1, 16):
        length = slip.length + more
        if 1 <= length <= 224:
            size = padded(length)
            yield slip._replace(length=length, share=slip.share[:size].ljust(size, b"\0"))
    for name, at in product(("hash", "pub"), (0, 15, 31)):
        yield slip._replace(**{name: flipped(rng, getattr(slip, name), at)})


def mixed(rng, slips):
    """One slip of another split: 27."""
    at = rng.randrange(len(slips))
    return replaced(slips, at, rng.choice(list(differing(rng, slips[at]))))


def repeated(rng, slips):
    """An index twice, 28: a slip once more, or instead of another, or its index alone."""
    if len(slips) == 1 or rng.random() < 0.4:
        at = rng.randrange(len(slips) + 1)
        return [*slips[:at], rng.choice(slips), *slips[at:]]
    one, at = rng.sample(range(len(slips)), 2)
    new = rng.choice((slips[one], slips[at]._replace(index=slips[one].index)))
    return replaced(slips, at, new)


def off_curve(rng, slips):
    """One byte of a share changed: 29 if there are more slips than are needed."""
    at = rng.randrange(len(slips))
    share = slips[at].share
    new = slips[at]._replace(share=flipped(rng, share, rng.randrange(len(share))))
    return replaced(slips, at, new)


def unreadable(rng, raw):
    """A payload that the reader mostly refuses, with any of its numbers."""
    at = rng.randrange(len(raw) + 1)
    ways = (b"", raw[:at], raw + b"\0", raw.replace(b"flength", b"flengtH"),
            raw.replace(b"gversion\x01", b"gversion\x02"),
            raw.replace(b"passphrase", b"passphrasf").replace(b"seed", b"seee"), damaged(rng, raw))
    return rng.choice(ways)


def with_unreadable(rng, raws):
    """One payload, or two, so damaged."""
    for _ in range(rng.choice((1, 1, 2))):
        at = rng.randrange(len(raws))
        raws = replaced(raws, at, unreadable(rng, raws[at]))
    return raws


# Edges.


def round_trips(rng):
    """Slips of every kind of length: just enough in rooms around the secret, and all."""
    for length, (threshold, count) in product(LENGTHS, FEW):
        enough = some_slips(rng, length, threshold, count, threshold)
        yield from (recover_line(room, enough) for room in rooms(length))
        yield recover_line(length, some_slips(rng, length, threshold, count))
        yield recover_line(MOST_ROOM, some_slips(rng, length, threshold, count)[:threshold - 1])


def choices(rng):
    """Any three of five in any order, and all five; any two of 255, and two more."""
    slips = some_slips(rng, 20, 3, 5)
    yield from (recover_line(20, chosen) for chosen in permutations(slips, 3))
    yield from (recover_line(20, chosen) for chosen in islice(permutations(slips), 0, 120, 5))
    slips = some_slips(rng, 5, 2, 255)
    for at in range(0, 255, 2):
        yield recover_line(5, [slips[at], slips[at - 1]])
        yield recover_line(5, [slips[at], slips[at - 7], slips[at - 90], slips[at - 200]])


def share_damage(rng):
    """Each byte of each share changed: with slips beyond the threshold, and without."""
    for length in (16, 17, 31):
        slips = some_slips(rng, length, 2, 4)
        for many, at in ((4, 0), (4, 1), (4, 2), (4, 3), (3, 2), (2, 0), (2, 1)):
            for byte in range(0, padded(length), 1 if many < 4 else 3):
                new = slips[at]._replace(share=flipped(rng, slips[at].share, byte))
                yield recover_line(length, replaced(slips[:many], at, new))


def differences(rng):
    """Each slip differs in each thing that all have in common, alone and with other faults; that
    their signatures differ is as it must be."""
    for length, threshold, count in ((20, 2, 4), (16, 1, 3), (48, 3, 3)):
        slips = some_slips(rng, length, threshold, count)
        for at in range(count):
            for other in differing(rng, slips[at]):
                new = replaced(slips, at, other)
                yield recover_line(length, new)
                yield recover_line(length, rng.choice((repeated, off_curve))(rng, new))
    slips = some_slips(rng, 20, 2, 3)
    yield recover_line(20, [slip._replace(sig=bytes(64)) for slip in slips])


def other_thresholds(rng):
    """Slips that all name another threshold than their split had, and slips of two splits."""
    for length, told, threshold, count in product((16, 20), range(1, 7), (1, 2, 3, 5), (6,)):
        slips = some_slips(rng, length, threshold, count)
        retold = [slip._replace(threshold=told) for slip in slips]
        for many in sorted({told - 1, told, told + 1, count}):
            yield recover_line(MOST_ROOM, retold[:many])
    for length, threshold, many in product((16, 20), (1, 2, 3), (0, 1, 2)):
        one, other = (some_slips(rng, length, threshold, 6) for _ in range(2))
        alike = [slip._replace(**{name: getattr(one[0], name) for name in ("type", "hash", "pub")})
                 for slip in other]
        foreign = [slip for slip in alike if slip.index not in {s.index for s in one[:threshold]}]
        yield recover_line(length, one[:threshold] + foreign[:many])
        yield recover_line(length, foreign[:1] + one[:threshold - 1 + many])
        yield recover_line(length, one[:threshold] + alike[:many])


def padding(rng):
    """Each byte of the padding, and the last byte before it, is not zero; and bytes that would be
    0 if they were added up."""
    for length, many in product((1, 15, 17, 30, 209, 223), (2, 4)):
        size = padded(length)
        for at in range(length - 1, size):
            secret = with_byte(bytes(size), at, rng.choice((1, 0x80, 0xFF)))
            slips = slips_of(rng, secret, length, 2, 4, rng.sample(range(1, 5), many))
            yield recover_line(rng.choice((0, length)), slips)
    for wrong in (b"\x80\x80", b"\x01\xff", b"\x5a\x5a", b"\x80" * 6):
        for secret in (bytes(10) + wrong.ljust(6, b"\0"), bytes(10) + wrong.rjust(6, b"\0")):
            yield recover_line(10, slips_of(rng, secret, 10, 2, 3, (2, 3)))


def unreadables(rng):
    """One slip, or two, that the reader refuses: each of its numbers before each other."""
    slips = some_slips(rng, 20, 2, 4)
    raws = [payload(slip) for slip in slips]
    wrong = [*rng.sample(list(variations(rng, raws[1])), 150), *truncations(raws[1])[::9], b""]
    for raw in wrong:
        yield line("recover", 20, *replaced(raws, rng.randrange(4), raw))
    cut, other, out = raws[0][:50], b"\xa9" + raws[0][1:], payload(slips[0]._replace(index=9))
    for pair in permutations((cut, other, out, raws[0], payload(slips[1]._replace(index=1))), 2):
        yield line("recover", 0, *pair)
        yield line("recover", 20, raws[2], pair[0], raws[3], pair[1])
        yield line("recover", 20, *(payload(slip._replace(threshold=4)) for slip in slips), *pair)
    yield from (line("recover", room) for room in (0, 1, 20, MOST_ROOM))


FAULTS = (mixed, repeated, off_curve)


def with_faults(rng, sizes, ill, faults):
    """Slips, more than are needed where there are, with these faults in any order."""
    length, threshold, count = sizes
    many = rng.randrange(threshold, count + 1)
    slips = (ill_padded if ill else some_slips)(rng, length, threshold, count, many)
    for fault in rng.sample(faults, len(faults)):
        slips = fault(rng, slips)
    return slips


def orders(rng):
    """Every set of faults: unreadable, 26 to 30, and 11, each before all that come later."""
    for few, ill, unread, short, *chosen in product((False, True), repeat=4 + len(FAULTS)):
        faults = [fault for fault, wanted in zip(FAULTS, chosen) if wanted]
        for sizes in ((20, 2, 4), (17, 3, 6), (9, 1, 3), (47, 4, 5)):
            slips = with_faults(rng, sizes, ill, faults)
            raws = [payload(slip) for slip in slips][:sizes[1] - 1 if few else None]
            raws = with_unreadable(rng, raws) if unread and raws else raws
            yield line("recover", rng.randrange(sizes[0]) if short else sizes[0], *raws)


def longest_line(raws):
    """As many of these slips as a line holds (D1.5), over and over, and one more."""
    fits = (LONGEST - len(b"recover 224")) // (1 + 2 * len(raws[0]))
    endless = raws * 2
    yield from (line("recover", 224, *endless[:many]) for many in (fits, fits + 1))


def many_slips(rng):
    """As many slips as there may be: 255 that can be told apart, and 300 on a line."""
    for length, threshold, many in ((224, 255, 255), (16, 255, 255), (17, 254, 255), (1, 128, 255),
                                    (40, 3, 255), (224, 1, 255), (16, 255, 254), (33, 60, 61)):
        slips = some_slips(rng, length, threshold, 255, many)
        yield recover_line(length, slips)
        yield recover_line(length, off_curve(rng, slips))
    slips = some_slips(rng, 16, 2, 255)
    for many in (256, 257, MOST_SLIPS - 1, MOST_SLIPS, MOST_SLIPS + 1, MOST_SLIPS + 50):
        yield recover_line(16, (slips * 2)[:many])
        yield line("recover", 16, *[b""] * many)
        yield line("recover", 16, *[payload(slips[0])] * (many - 1), b"\xa0")
    longest = [slip._replace(type=TYPES[1], threshold=200)
               for slip in some_slips(rng, 224, 1, 255) if slip.index > 23]
    yield from longest_line([payload(slip) for slip in longest])


def recover_edges(rng):
    """The edges of `recover`."""
    for part in (round_trips, choices, share_damage, differences, other_thresholds, padding,
                 unreadables, orders, many_slips):
        yield from single(part(rng))


# By chance.


def recover_chance(rng):
    """A call of `recover`: mostly one that is done, else with a fault or several."""
    (threshold, count), length = some_numbers(rng), some_secret_length(rng)
    faults = rng.choices(FAULTS, (1, 1, 2), k=rng.choice((0, 0, 0, 0, 1, 1, 1, 2, 3)))
    slips = with_faults(rng, (length, threshold, count), rng.random() < 0.15, faults)
    raws = [payload(slip) for slip in slips]
    if rng.random() < 0.1:
        raws = with_unreadable(rng, raws)
    if rng.random() < 0.07:
        raws = raws[:rng.randrange(len(raws))]
    return [line("recover", some_room(rng, length), *raws)]


SAMPLE = Shard(bytes(32), bytes(64), bytes(32), TYPES[0], bytes(16), 9, 1, 3, 1)

GROUPS = [Group(["recover"], 4, [recover_line(9, [SAMPLE, SAMPLE._replace(index=2)]),
                                 b"recover 9"], recover_edges, recover_chance)]
