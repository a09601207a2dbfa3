"""Calls of the varint and text verbs: sections 4 and 5 of docs/RULES.md."""

from collections import namedtuple

from .. import forms
from .common import (MOST_ROOM, Group, damaged, line, rooms, single, some_bytes, some_length,
                     some_room, truncations)

# Varints.


def numbers():
    """Every power of two and its neighbours, as far as 2^64 - 1."""
    wanted = {2**k + d for k in range(65) for d in (-2, -1, 0, 1)}
    return sorted(n for n in wanted if 0 <= n < 2**64)


def longer_forms(form):
    """Forms of the same number that are not shortest (R4.2)."""
    open_form = form[:-1] + bytes([form[-1] | 0x80])
    return [open_form + b"\x80" * more + b"\0" for more in range(10 - len(form))]


def ten_byte_forms():
    """Nine bytes that go on and a tenth, at and around what is allowed (R4.3)."""
    for start in (b"\x80" * 9, b"\xff" * 9, b"\x80" * 8 + b"\x81"):
        for tenth in (0, 1, 2, 3, 0x7E, 0x7F, 0x80, 0x81, 0xFE, 0xFF):
            yield start + bytes([tenth])
            yield start + bytes([tenth]) + b"\x01"


def varint_inputs(rng):
    """What varint-read is given; cut short it is 3 (R4.4)."""
    yield from (bytes([byte]) for byte in range(256))
    yield from (bytes([byte] * count) for byte in (0x80, 0xFF) for count in range(13))
    yield from ten_byte_forms()
    for form in map(forms.varint_write, numbers()):
        yield form
        yield form + rng.randbytes(rng.randrange(1, 12))
        yield from truncations(form)
        yield from longer_forms(form)


def varint_edges(rng):
    """The edges of both varint verbs."""
    yield from (line("varint-read", data) for data in varint_inputs(rng))
    for number in numbers():
        for room in rooms(forms.varint_length(number)):
            yield line("varint-write", number, room)


def varint_chance(rng):
    """A call of a varint verb."""
    number = rng.getrandbits(rng.randrange(65))
    form = forms.varint_write(number)
    kind = rng.random()
    if kind < 0.4:
        return [line("varint-write", number, some_room(rng, len(form)))]
    if kind < 0.6:
        return [line("varint-read", form + rng.randbytes(rng.randrange(4)))]
    if kind < 0.8:
        return [line("varint-read", damaged(rng, form))]
    return [line("varint-read", rng.randbytes(rng.randrange(13)))]


# Texts. A group of characters stands for whole bytes: 4 for 3, or 8 for 5.

Form = namedtuple("Form", "name alphabet skipped write group whole")

BASE64 = Form("base64", forms.BASE64, forms.SPACES, forms.base64_write, 4, 3)
ZBASE32 = Form("zbase32", forms.ZBASE32, forms.SPACES + forms.DASH, forms.zbase32_write, 8, 5)


def some_text(rng, form, count):
    """So many characters of the alphabet."""
    return bytes(rng.choices(form.alphabet, k=count))


def bad_character(rng, form):
    """A byte that the form neither reads (R5.2, R5.3) nor skips (R5.4)."""
    return rng.choice([c for c in range(256) if c not in form.alphabet + form.skipped])


def spaced(rng, form, text, share=0.3):
    """The text with skipped characters in it."""
    out = bytearray()
    for character in text:
        while rng.random() < share:
            out.append(rng.choice(form.skipped))
        out.append(character)
    return bytes(out) + bytes(rng.choices(form.skipped, k=rng.randrange(3)))


def text_writes(rng, form):
    """Every short length, none too (R5.7), written and read back, in rooms around it (R2.4)."""
    for length in range(42):
        for data in (rng.randbytes(length), b"\0" * length, b"\xff" * length):
            text = form.write(data)
            for room in rooms(len(text)):
                yield line(form.name + "-write", data, room)
            for room in rooms(length):
                yield line(form.name + "-read", text, room)


def text_characters(rng, form):
    """Every byte alone, and at each place of one group (R5.2, R5.3, R5.4)."""
    good = form.alphabet[:1] * form.group
    for byte in range(256):
        yield line(form.name + "-read", bytes([byte]), 10)
        for at in range(form.group):
            text = good[:at] + bytes([byte]) + good[at + 1:]
            yield line(form.name + "-read", text, 10)


def text_counts(rng, form):
    """Every count modulo the group, with each last character: leftover bits (R5.6)."""
    for count in range(3 * form.group):
        zeros = form.alphabet[:1] * count
        yield line(form.name + "-read", zeros, 20)
        for last in form.alphabet:
            if count < 2 * form.group:
                yield line(form.name + "-read", some_text(rng, form, count) + bytes([last]), 20)
                yield line(form.name + "-read", zeros + bytes([last]), 20)


def text_spaces(rng, form):
    """Skipped characters: alone, in front, inside, behind; and the near misses (R5.4)."""
    near = bytes([0x00, 0x08, 0x0E, 0x1F, 0x21, 0x2D, 0x3D, 0x5F, 0x7F, 0x80, 0x85, 0xA0])
    for character in form.skipped + near:
        one = bytes([character])
        yield from (line(form.name + "-read", one * count, 0) for count in (1, 2, 3))
        text = form.write(rng.randbytes(5))
        for mixed in (one + text, text[:3] + one + text[3:], text + one, one.join([text, text])):
            yield from (line(form.name + "-read", mixed, room) for room in (0, 4, 5, 10))
    for length in range(16):
        text = spaced(rng, form, form.write(rng.randbytes(length)))
        yield from (line(form.name + "-read", text, room) for room in rooms(length))


def text_orders(rng, form):
    """Faults together, so that the order 1, 2, 11 shows (R5.5)."""
    for count in range(2 * form.group + 1):
        for last in (bad_character(rng, form), form.alphabet[0], form.alphabet[-1]):
            text = some_text(rng, form, count) + bytes([last])
            for room in (0, 1, 64):
                yield line(form.name + "-read", text, room)
                yield line(form.name + "-read", bytes([bad_character(rng, form)]) + text, room)


def text_largest(rng, form):
    """Around the largest output on either side."""
    most = MOST_ROOM // form.group * form.whole
    for length in (most - 1, most, most + 1):
        data = rng.randbytes(length)
        yield line(form.name + "-write", data, MOST_ROOM)
        yield line(form.name + "-write", data, MOST_ROOM - 1)
    for length in (MOST_ROOM - 1, MOST_ROOM, MOST_ROOM + 1):
        text = form.write(rng.randbytes(length))
        yield line(form.name + "-read", text, MOST_ROOM)


def text_edges(form):
    """The edges of one text form."""
    def edges(rng):
        for part in (text_writes, text_characters, text_counts, text_spaces, text_orders,
                     text_largest):
            yield from part(rng, form)
    return edges


def text_chance(form):
    """A call of one text form."""
    def chance(rng):
        data = some_bytes(rng, some_length(rng, 600))
        text = form.write(data)
        kind = rng.random()
        if kind < 0.3:
            return [line(form.name + "-write", data, some_room(rng, len(text)))]
        if kind < 0.5:
            text = spaced(rng, form, text)
        elif kind < 0.7:
            text = damaged(rng, text)
        elif kind < 0.85:
            text = some_text(rng, form, rng.randrange(40))
        elif kind < 0.9:
            text = rng.randbytes(rng.randrange(20))
        return [line(form.name + "-read", text, some_room(rng, len(data)))]
    return chance


def blocks(edges):
    """Edges that are single lines."""
    return lambda rng: single(edges(rng))


GROUPS = [
    Group(["varint-read", "varint-write"], 3,
          [b"varint-read ac02", b"varint-write 300 10"], blocks(varint_edges), varint_chance),
    Group(["base64-read", "base64-write"], 3,
          [b"base64-read 515641 10", b"base64-write 4150 10"],
          blocks(text_edges(BASE64)), text_chance(BASE64)),
    Group(["zbase32-read", "zbase32-write"], 3,
          [b"zbase32-read 65666579 10", b"zbase32-write 4150 10"],
          blocks(text_edges(ZBASE32)), text_chance(ZBASE32)),
]
