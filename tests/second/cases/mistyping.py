"""Calls of the verbs of typed lines: R5.8 to R5.13 of docs/RULES.md.

A slip leaves as many characters as there were, all of the alphabet: only the check can tell.
"""

from itertools import combinations, product

from ..forms import ZBASE32, zbase32_write
from ..typing_lines import (FEED, FULL, MOST_BYTES, MOST_LINES, SKIPPED, check_of, laid_out,
                            write_typed)
from .common import (MOST_ROOM, Group, damaged, line, rooms, single, some_bytes, some_length,
                     some_room, truncations, with_byte)
from .plain_forms import Form, blocks, some_text, spaced

TYPED = Form("typed", ZBASE32, SKIPPED, write_typed, 8, 5)
NOT_ALLOWED = bytes(c for c in range(256) if c not in ZBASE32 + SKIPPED + FEED)

# Two full lines and one of 24 data characters: every slip is tried on it.
SAMPLE_BYTES = 65

# Slips.


def others(character):
    """The alphabet without one character."""
    return ZBASE32.replace(bytes([character]), b"")


def places(text):
    """Where a text has no line feed."""
    return [at for at, character in enumerate(text) if character not in FEED]


def exchanged(items, at, to):
    """A list with two of its items in each other's place."""
    items = list(items)
    items[at], items[to] = items[to], items[at]
    return items


def replacements(text):
    """Each character, of data and of checks, replaced by every other of the alphabet."""
    for at in places(text):
        yield from (with_byte(text, at, other) for other in others(text[at]))


def exchanges(text):
    """Each two characters of a line exchanged."""
    first = 0
    for row in text.split(FEED):
        behind = first + len(row)
        for at, to in combinations(range(first, behind), 2):
            yield bytes(exchanged(text, at, to))
        first = behind + 1


def line_exchanges(text):
    """Each two lines exchanged."""
    rows = text.split(FEED)
    for at, to in combinations(range(len(rows)), 2):
        yield FEED.join(exchanged(rows, at, to))


def mistyped(rng, text):
    """One character, and another letter in its place."""
    at = rng.choice(places(text))
    return with_byte(text, at, rng.choice(others(text[at])))


def mistyped_lines(rng, text, *chosen):
    """A text with one such slip on each of the chosen lines."""
    rows = text.split(FEED)
    return FEED.join(mistyped(rng, row) if at in chosen else row for at, row in enumerate(rows))


def slips(rng):
    """Every slip on a short text; on a full page one at every place, and at every two lines."""
    text = write_typed(rng.randbytes(SAMPLE_BYTES))
    yield from replacements(text)
    yield from exchanges(text)
    yield from line_exchanges(text)
    page = write_typed(rng.randbytes(MOST_BYTES))
    yield from (with_byte(page, at, rng.choice(others(page[at]))) for at in places(page))
    yield from (bytes(exchanged(page, at, at + 1)) for at in range(len(page) - 1))
    yield from line_exchanges(page)
    for pair in combinations(range(MOST_LINES), 2):
        yield mistyped_lines(rng, page, *pair)


# Characters.


def put_in(text, more):
    """A text with something more at every place."""
    return [text[:at] + more + text[at:] for at in range(len(text) + 1)]


def every_byte(rng):
    """Each byte alone; and instead of a data, a check or a last character, of a line feed, and
    between two (R5.11)."""
    text = write_typed(rng.randbytes(30))
    for byte in range(256):
        yield bytes([byte])
        for at in (0, FULL // 2, FULL, FULL + 1, FULL + 2, len(text) - 1):
            yield with_byte(text, at, byte)
            yield text[:at] + bytes([byte]) + text[at:]


def parted(rng):
    """What is skipped, what looks so, and line feeds: at every place, and alone (R5.8, R5.11)."""
    text = write_typed(rng.randbytes(SAMPLE_BYTES))
    apart = [b" ", b"\t", b"-", b"- \t", b"\r", b"\n", b"\r\n", b"\n\n", b"\x0b", b"\x0c",
             b"\xa0", b"_", b"Y", b"l"]
    for more in apart:
        yield from put_in(text, more)
        yield from (more * count for count in (1, 2, 3, 19, 20, 21))
        yield from (text.replace(FEED, more), more.join([b"", text, b""]), text.upper() + more)
        yield from (FEED.join([text, more]), FEED.join([more, text]))
    yield from (b"", b" \t-" * 20000, b" " * 100000 + text, text + b"-" * 100000)


# Counts.


def line_of(rng, number, count):
    """A line of so many data characters, with the check that it has at this number."""
    contents = some_text(rng, TYPED, count) if rng.random() < 0.5 else ZBASE32[:1] * count
    return contents + check_of(number, contents)


def full_lines(rng, count):
    """So many full lines with their checks."""
    return [line_of(rng, number, FULL) for number in range(1, count + 1)]


def counts(rng):
    """Lines of 2 to 45 characters with right checks, last and not last, and one too many lines;
    then numbers of lines and of characters that a counter of few bits would take for others (R5.9).
    """
    for number in (1, 2, MOST_LINES - 1, MOST_LINES, MOST_LINES + 1):
        before = full_lines(rng, number - 1)
        for count, behind in product(range(FULL + 4), ([], [8], [FULL])):
            after = [line_of(rng, number + 1, more) for more in behind]
            yield FEED.join([*before, line_of(rng, number, count), *after])
    for number in (MOST_LINES, 21, 22, 255, 256, 257, 256 + MOST_LINES):
        yield FEED.join(full_lines(rng, number))
    for count in (256, 256 + FULL, 2**16, 2**16 + FULL):
        yield FEED.join([*full_lines(rng, 1), line_of(rng, 2, count)])
    yield from truncations(write_typed(rng.randbytes(SAMPLE_BYTES)))


def tails(rng):
    """Each number of data characters modulo 8, with each last one, under right checks (R5.6)."""
    for count in (*range(17), *range(FULL - 2, FULL + 9), *range(792, 800)):
        for last in ZBASE32:
            yield laid_out(some_text(rng, TYPED, count) + bytes([last]))


# Faults together.


def miscounted(rng, text):
    """One character too few, or one or a whole line too many."""
    at = rng.choice(places(text))
    return rng.choice((text[:at] + text[at + 1:], text[:at] + text[at:at + 1] + text[at:],
                       text + FEED, FEED + text, text + FEED + text))


def misspelt(rng, text):
    """A character that is not allowed, instead of one or between two."""
    at = rng.choice(places(text))
    return text[:at] + bytes([rng.choice(NOT_ALLOWED)]) + text[at + rng.randrange(2):]


FAULTS = (mistyped, miscounted, misspelt)


def some_tail(rng, kept):
    """Another last character: mostly bits are then left over (R5.6)."""
    return kept[:-1] + bytes([rng.choice(others(kept[-1]))])


def with_faults(rng, data, tail, faults):
    """The typed lines of bytes, of which there is one or more, with these faults."""
    kept = zbase32_write(data)
    text = laid_out(some_tail(rng, kept) if tail else kept)
    for fault in faults:
        text = fault(rng, text)
    return text


def orders(rng):
    """Every set of faults, in rooms around the length: the order 1, 2, 23, 2, 11 (R5.12)."""
    for tail, *chosen in product((False, True), repeat=1 + len(FAULTS)):
        faults = [fault for fault, wanted in zip(FAULTS, chosen) if wanted]
        for length in (1, 4, 24, 26, 79, 499) * 4:
            text = with_faults(rng, rng.randbytes(length), tail, faults)
            yield from (line("typed-read", text, room) for room in rooms(length))


# Calls.


def round_trips(rng):
    """Lengths around each number of lines, written, and read back as written and with spaces, in
    rooms around them (R2.4); more than 500 bytes are 9, whatever the room (R5.13)."""
    for length in (*range(28), *range(48, 53), *range(474, MOST_BYTES + 1)):
        for data in (rng.randbytes(length), b"\0" * length, b"\xff" * length):
            text = write_typed(data)
            yield from (line("typed-write", data, room) for room in rooms(len(text)))
            yield from (line("typed-read", text, room) for room in rooms(length))
            yield line("typed-read", spaced(rng, TYPED, text), length)
    for length in (MOST_BYTES + 1, MOST_BYTES + 2, 525, 756, 1000, 65536, 66036, 131000):
        data = rng.randbytes(length)
        yield from (line("typed-write", data, room) for room in (0, 858, 859, 900, MOST_ROOM))


def edges(rng):
    """The edges of both verbs."""
    yield from round_trips(rng)
    for part in (slips, every_byte, parted, counts, tails):
        yield from (line("typed-read", text, some_room(rng, MOST_BYTES)) for text in part(rng))
    yield from orders(rng)


def some_lines(rng):
    """Right texts in any spelling, with faults of each kind, and what was never one."""
    data = some_bytes(rng, rng.choice((rng.randrange(1, MOST_BYTES + 1), rng.randrange(1, 60))))
    text, kind = write_typed(data), rng.random()
    if kind < 0.2:
        return data, spaced(rng, TYPED, text, rng.choice((0, 0.1, 0.3)))
    if kind < 0.3:
        return data, mistyped_lines(rng, text, *rng.sample(range(MOST_LINES), 3))
    if kind < 0.4:
        return data, bytes(exchanged(text, *rng.choices(range(len(text)), k=2)))
    if kind < 0.7:
        faults = [fault for fault in FAULTS if rng.random() < 0.3]
        return data, with_faults(rng, data, rng.random() < 0.3, faults)
    if kind < 0.8:
        return data, laid_out(some_text(rng, TYPED, rng.randrange(1, 821)))
    if kind < 0.9:
        return data, damaged(rng, text)
    return data, bytes(rng.choices(rng.choice((ZBASE32 + FEED, bytes(range(256)))),
                                   k=rng.randrange(60)))


def chance(rng):
    """A call of one of the two verbs: mostly of the reader."""
    if rng.random() < 0.15:
        data = some_bytes(rng, some_length(rng, MOST_BYTES + 20))
        return [line("typed-write", data, some_room(rng, len(laid_out(zbase32_write(data)))))]
    data, text = some_lines(rng)
    return [line("typed-read", text, some_room(rng, len(data)))]


GROUPS = [Group(["typed-read", "typed-write"], 3,
                [line("typed-read", write_typed(b"AP"), 10), b"typed-write 4150 10"],
                blocks(edges), chance)]
