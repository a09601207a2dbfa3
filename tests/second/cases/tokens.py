"""A good CBOR payload taken apart into items, and each item made wrong.

An item here is a head and the contents of its string; the heads of maps and
lists are items of their own.
"""

from ..cbor import BYTES, TEXT, WIDTHS
from .common import byte_damage, truncations

INTEGERS = [0, 1, 2, 22, 23, 24, 25, 254, 255, 256, 257, 65535, 65536, 2**32 - 1, 2**32,
            2**63 - 1, 2**63, 2**64 - 1]


def split(payload):
    """The items of a good payload, as pairs of head and contents."""
    items, at = [], 0
    while at < len(payload):
        major, info = payload[at] >> 5, payload[at] & 31
        body = at + 1 + WIDTHS.get(info, 0)
        number = int.from_bytes(payload[at + 1:body], "big") if info > 23 else info
        end = body + (number if major in (BYTES, TEXT) else 0)
        items.append((payload[at:body], payload[body:end]))
        at = end
    return items


def joined(items):
    """The payload of such items."""
    return b"".join(head + contents for head, contents in items)


def wide(major, number, width):
    """A head of any width that holds the number, 0 for none behind the first byte."""
    if width == 0:
        return bytes([major << 5 | number])
    info = {w: i for i, w in WIDTHS.items()}[width]
    return bytes([major << 5 | info]) + number.to_bytes(width, "big")


def all_heads(major, number):
    """Every head of this kind that holds the number, shortest or not (R10.1)."""
    return [wide(major, number, width) for width in (0, 1, 2, 4, 8)
            if number < (24 if width == 0 else 1 << 8 * width)]


def other_heads(contents):
    """Heads in the place of one: each width, each kind, lengths off by some (R10.3, R10.4)."""
    length = len(contents)
    for major in range(8):
        yield from all_heads(major, length)
    for major in (0, 1, 2, 3, 4):
        for number in INTEGERS:
            yield from all_heads(major, number)
    for wrong in (length - 1, length + 1, length + 16):
        yield from (wide(major, max(0, wrong), 1) for major in (BYTES, TEXT))
        yield from (wide(major, max(0, wrong), 0) for major in (BYTES, TEXT) if wrong < 24)


def at_each_item(items):
    """One item left out, doubled, exchanged with the next, or under another head (R10.1)."""
    for at, (head, contents) in enumerate(items):
        before, after = items[:at], items[at + 1:]
        yield before + after
        yield before + [items[at]] * 2 + after
        yield before + after[:1] + [items[at]] + after[1:]
        for byte in range(256):
            yield before + [(bytes([byte]) + head[1:], contents)] + after
        for other in other_heads(contents):
            yield before + [(other, contents)] + after


def resized(items):
    """Each string with a right head for other contents."""
    for at, (head, contents) in enumerate(items):
        major = head[0] >> 5
        if major in (BYTES, TEXT):
            for new in (contents[:-1], contents + b"\0", b"", contents * 2, contents * 8):
                yield items[:at] + [(all_heads(major, len(new))[0], new)] + items[at + 1:]


def variations(rng, payload):
    """A good payload made wrong in every one of these ways, and as it is (R10.2, R10.3)."""
    yield payload
    yield from truncations(payload)
    yield from (payload + rng.randbytes(more) for more in (1, 2, 9, 100))
    for at in range(len(payload)):
        yield from byte_damage(rng, payload, at)
    items = split(payload)
    yield from map(joined, at_each_item(items))
    yield from map(joined, resized(items))
