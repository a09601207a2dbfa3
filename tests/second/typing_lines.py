"""Typed lines: R5.8 to R5.14 of docs/RULES.md."""

from .answers import BAD_LENGTH, MISTYPED, TOO_LARGE, refuse_if
from .forms import DASH, ZBASE32, characters, zbase32_read, zbase32_write

FEED = b"\n"  # R5.8
SKIPPED = b" \t" + DASH  # R5.11

MOST_LINES = 20  # R5.8
FULL = 40  # data characters of a line; two more are its check (R5.9)
MOST_BYTES = 500  # R5.13


def check_of(number, data):
    """The two characters that check the data of a line (R5.10)."""
    weighed = sum(place * ZBASE32.index(character) for place, character in enumerate(data, start=1))
    return bytes(ZBASE32[value] for value in divmod((weighed + 41 * number) % 1021, 32))


def refuse_count(line, last):
    """2 for a line that is too long, or too short for its place (R5.9)."""
    least = 1 if last else FULL
    refuse_if(not least + 2 <= len(line) <= FULL + 2, BAD_LENGTH)


def refuse_check(line, number):
    """23 with the line's number, where its check is wrong (R5.10)."""
    refuse_if(line[-2:] != check_of(number, line[:-2]), MISTYPED, number)


def read_typed(text):
    """The bytes of typed lines: 1, 2, 23, 2, each over the whole text (R5.12)."""
    kept = characters(text, ZBASE32 + FEED, SKIPPED)
    lines = kept.split(FEED) if text else []
    refuse_if(len(lines) > MOST_LINES, BAD_LENGTH)
    for number, line in enumerate(lines, start=1):
        refuse_count(line, number == len(lines))
    for number, line in enumerate(lines, start=1):
        refuse_check(line, number)
    return zbase32_read(b"".join(line[:-2] for line in lines))


def judge_line(text, number, last):
    """Leaves with 1, 2 or 23 where a text is not the line of this number (R5.14)."""
    line = characters(text, ZBASE32, SKIPPED)
    refuse_if(not 1 <= number <= MOST_LINES, BAD_LENGTH)
    refuse_count(line, last)
    refuse_check(line, number)


def laid_out(kept):
    """Characters of the alphabet, however many, in lines with their checks (R5.9)."""
    rows = (kept[at:at + FULL] for at in range(0, len(kept), FULL))
    return FEED.join(row + check_of(number, row) for number, row in enumerate(rows, start=1))


def write_typed(data):
    """The typed lines of up to 500 bytes; more are 9 (R5.13)."""
    refuse_if(len(data) > MOST_BYTES, TOO_LARGE)
    return laid_out(zbase32_write(data))
