"""Typed lines by hand and by every slip: R5.8 to R5.14 of docs/RULES.md."""

import random
from itertools import combinations

from ..answers import WITH_PLACE
from ..cases import mistyping
from ..cases.common import with_byte
from ..forms import ZBASE32, zbase32_read
from ..stored.typed_lines import AROUND_1021, WORKED_OUT, ZERO_CHECKS
from ..typing_lines import (FEED, SKIPPED, check_of, judge_line, laid_out, read_typed,
                            write_typed)
from .common import answer_of, check, same, says


@check
def typed_lines_worked_out():
    """R5.10 by hand, both ways; and the place of 23, which no other new number has (R2.3)."""
    for data, text in WORKED_OUT + AROUND_1021:
        same((write_typed(data), read_typed(text)), (text, data))
    same([check_of(number, b"y" * 40) for number in range(1, 21)], ZERO_CHECKS)
    says("typed-read " + b"efeynb".hex() + " 2", "23 1")
    same(WITH_PLACE, (15, 16, 21, 23))


@check
def bounds_of_typed_lines():
    """R5.8, R5.9 and R5.11 on each side: what is skipped, characters of a line, lines."""
    full = b"y" * 40 + b"bj"
    for text, number in ((b"", 0), (b" ", 2), (b"\n", 2), (b" ef-ey\tnu ", 0), (b"efeynu\r", 1),
                         (b"bj", 2), (b"yybj", 0), (full, 0), (b"y" + full, 2), (full + b"\n", 2),
                         (full + b"\nyyn1", 0), (full[1:] + b"\nyyyn1", 2),
                         (b"y" + full + b"\nyn1", 2), (laid_out(b"y" * 800), 0),
                         (laid_out(b"y" * 802), 2)):
        same(answer_of(read_typed, text)[0], number, text[:50])


@check
def every_slip_in_a_line_is_found():
    """Of data characters, each replaced by each other of the alphabet and each two exchanged, and
    of check characters, each replaced: 23 with the line's number, on every line of full pages."""
    rng = random.Random(19)
    for data in (rng.randbytes(500), bytes(500), b"\xff" * 500):
        for number, row in enumerate(write_typed(data).split(FEED), start=1):
            pairs = combinations(range(len(row) - 2), 2)
            wrong = {*mistyping.replacements(row),
                     *(bytes(mistyping.exchanged(row, *pair)) for pair in pairs)} - {row}
            same({answer_of(judge_line, text, number, True) for text in wrong}, {(23, number)})


@check
def every_slip_on_a_page_is_found():
    """Each character of a page replaced, and each two lines exchanged, whatever they hold."""
    rng = random.Random(20)
    for data in (rng.randbytes(500), bytes(500)):
        page = write_typed(data)
        for at in mistyping.places(page):
            wrong = with_byte(page, at, rng.choice(mistyping.others(page[at])))
            same(answer_of(read_typed, wrong), (23, at // 43 + 1))
        pairs = combinations(range(1, 21), 2)
        for (first, _), wrong in zip(pairs, mistyping.line_exchanges(page), strict=True):
            same(answer_of(read_typed, wrong), (23, first))


@check
def typed_lines_are_written_and_read_back():
    """R5.13 of each length, and R1.3: what is read is what is written, but for skipped ones."""
    rng = random.Random(21)
    for length in range(501):
        data = rng.randbytes(length)
        text = write_typed(data)
        same(len(text), max(0, 43 * -(-length // 25) - 1 - (-length % 25 * 8 // 5)), length)
        same((read_typed(text), text.translate(None, ZBASE32 + FEED)), (data, b""))
    same(answer_of(write_typed, bytes(501)), (9, 0))
    kept = 0
    for _ in range(5000):
        text = mistyping.some_lines(rng)[1]
        number, value = answer_of(read_typed, text)
        if number == 0:
            kept += 1
            same(write_typed(value), text.translate(None, SKIPPED))
    same(kept > 1000, True)


def due(text):
    """What a reader must answer, if each line is judged by itself (R5.14)."""
    rows = text.split(FEED) if text else []
    answers = [answer_of(judge_line, row, number, number == len(rows))
               for number, row in enumerate(rows, start=1)]
    for refusal in (1, 2, 23):
        told = [answer for answer in answers if answer[0] == refusal]
        if told:
            return told[0]
    joined = b"".join(row.translate(None, SKIPPED)[:-2] for row in rows)
    return answer_of(zbase32_read, joined)


@check
def a_page_is_judged_as_its_lines_are():
    """R5.12 and R5.14: 1, 2 and 23, each the first of all lines, and then the data; no line has the
    number 0, and a line by itself has no line feed."""
    rng = random.Random(22)
    chance = [mistyping.some_lines(rng)[1] for _ in range(5000)]
    parts = (mistyping.every_byte, mistyping.parted, mistyping.counts, mistyping.tails)
    edges = [text for part in parts for text in part(rng)]
    for text in chance + edges:
        same(answer_of(read_typed, text), due(text), text[:100])
    for number, answer in ((0, (2, 0)), (1, (0, None)), (2, (23, 2)), (20, (23, 20)), (21, (2, 0))):
        same(answer_of(judge_line, b"efey nu", number, True), answer)
    for text, last, answer in ((b"efeynu\n", True, 1), (b"efeynu", False, 2), (b"nu", True, 2)):
        same(answer_of(judge_line, text, 1, last), (answer, 0))
