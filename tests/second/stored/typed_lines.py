"""Stored calls of typed lines. What is beside a call was worked out by hand from R5.10."""

from ..typing_lines import FEED, laid_out, write_typed
from .script import Section, call, note, raw, title

# Bytes and their typed lines. The first: e, f, e and y have the values 8, 5, 8 and 0, so the check
# is 1 * 8 + 2 * 5 + 3 * 8 + 4 * 0 + 41 * 1 = 83 = 2 * 32 + 19, which n and u stand for.
WORKED_OUT = [
    (b"AP", b"efeynu"),
    (b"\0", b"yybj"),
    (b"\xff", b"9hry"),
    (bytes(25), b"y" * 40 + b"bj"),
    (b"\xff" * 25, b"9" * 40 + b"77"),
    (bytes(26), b"y" * 40 + b"bj\nyyn1"),
    (bytes(50) + b"\xff", b"y" * 40 + b"bj\n" + b"y" * 40 + b"n1\n9hg1"),
]

# First lines whose sum is 1020, 1021 and 1022: 41 for the number, 960 for an a in place 40, and 19,
# 20 or 21 for a b in that place.
AROUND_1021 = [
    (bytes(11) + b"\x02" + bytes(12) + b"\x18", b"y" * 18 + b"b" + b"y" * 20 + b"a9h"),
    (bytes(12) + b"\x10" + bytes(11) + b"\x18", b"y" * 19 + b"b" + b"y" * 19 + b"ayy"),
    (bytes(13) + b"\x80" + bytes(10) + b"\x18", b"y" * 20 + b"b" + b"y" * 18 + b"ayb"),
]

# A page of zeros: 41 times each line's number.
ZERO_CHECKS = [b"bj", b"n1", b"d5", b"fr", b"gp", b"8s", b"e9", b"ke", b"mt", b"c4", b"qd", b"xc",
               b"oi", b"t6", b"u8", b"wo", b"i3", b"zn", b"am", b"3w"]

SAMPLE = bytes(range(65))
TEXT = write_typed(SAMPLE)
FIRST, SECOND, THIRD = TEXT.split(FEED)


def reading(text, room, is_):
    """A call of typed-read."""
    return call("typed-read", text, room, is_=is_)


def bytes_read(data):
    """The answer that has these bytes."""
    return f"0 {data.hex() or '-'}"


def both_ways(pairs):
    """Bytes written, and read back."""
    for data, text in pairs:
        yield call("typed-write", data, 859, is_=bytes_read(text))
        yield reading(text, 500, bytes_read(data))


def examples():
    yield from title("Typed lines (R5.8 to R5.13, D2.13)")
    yield from both_ways(WORKED_OUT)
    yield note("sums of 1020, 1021 and 1022 on the first line: the check is 1020, 0 and 1 (R5.10)")
    yield from both_ways(AROUND_1021)
    yield note("500 zeros: 20 lines, of which only the checks differ, and no line feed behind them")
    yield from both_ways([(bytes(500), FEED.join(b"y" * 40 + check for check in ZERO_CHECKS))])
    yield note("no bytes have no lines, and no lines have no bytes (R5.8)")
    yield call("typed-write", b"", 0, is_="0 -")
    yield reading(b"", 0, "0 -")
    yield note("lengths around one line, two and twenty")
    counting = bytes(i * 7 % 256 for i in range(500))
    for length in (1, 24, 25, 26, 49, 50, 51, 499, 500):
        yield call("typed-write", counting[:length], 859)


def swapped(row, at):
    """A line with two neighbours exchanged."""
    return row[:at] + row[at + 1:at + 2] + row[at:at + 1] + row[at + 2:]


def mistyped():
    yield note("one character for another: first, middle and last of the data, both of the check")
    for at in (0, 20, 39, 40, 41):
        other = b"y" if SECOND[at:at + 1] != b"y" else b"b"
        wrong = SECOND[:at] + other + SECOND[at + 1:]
        yield reading(FEED.join([FIRST, wrong, THIRD]), 65, "23 2")
    yield note("neighbours exchanged, on each line")
    for number, rows in enumerate(([swapped(FIRST, 3), SECOND, THIRD],
                                   [FIRST, swapped(SECOND, 38), THIRD],
                                   [FIRST, SECOND, swapped(THIRD, 11)]), start=1):
        yield reading(FEED.join(rows), 65, f"23 {number}")
    yield note("two lines exchanged; of two wrong lines the first is told")
    yield reading(FEED.join([SECOND, FIRST, THIRD]), 65, "23 1")
    yield reading(FEED.join([FIRST, swapped(SECOND, 5), swapped(THIRD, 5)]), 65, "23 2")
    yield note("a line left out, and one typed twice")
    yield reading(FEED.join([FIRST, THIRD]), 65, "23 2")
    yield reading(FEED.join([FIRST, FIRST, SECOND, THIRD]), 65, "23 2")


def characters():
    yield note("space, tab and dash are skipped wherever they stand (R5.11)")
    for apart in (b" ", b"\t", b"-", b"- \t-"):
        text = apart + apart.join(bytes([c]) for c in b"efeynu") + apart
        yield reading(text, 2, "0 4150")
        yield reading(apart + TEXT.replace(FEED, apart + FEED + apart), 65, bytes_read(SAMPLE))
    yield note("nothing else is: 1, the carriage return too, at either end and inside")
    for bad in (b"\r", b"\x0b", b"\x0c", b"\0", b"E", b"0", b"2", b"l", b"v", b"_", b"=", b"\x7f",
                b"\x80", b"\xa0", b"\xff"):
        yield from (reading(text, 2, "1") for text in (bad + b"efeynu", b"efe" + bad + b"ynu",
                                                       b"efeynu" + bad))
    yield reading(TEXT.replace(FEED, b"\r\n"), 65, "1")
    yield reading(TEXT.upper(), 65, "1")


def lines():
    yield note("a line feed at either end, or doubled, makes a line that is empty: 2 (R5.8)")
    for text in (TEXT + FEED, FEED + TEXT, TEXT.replace(FEED, FEED * 2), FEED, FEED * 2, FEED * 20):
        yield reading(text, 65, "2")
    yield note("and so is one of nothing but what is skipped (R5.8)")
    yield from (reading(text, 0, "2") for text in (b" ", b"-", b"\t", b" - \t", b" \n-"))
    yield note("the last line has 3 to 42 characters, each other one 42 (R5.9)")
    for count, answer in ((0, "2"), (2, "0 00"), (40, bytes_read(bytes(25))), (41, "2")):
        yield reading(b"y" * count + b"bj", 25, answer)
    for count in (40, 41, 39, 2, 1, 0):
        rest = b"y" * (-count % 8 + 2)  # all data are then of whole bytes
        answer = bytes_read(bytes(26)) if count == 40 else "2"
        yield reading(b"y" * count + b"bj\n" + rest + b"n1", 26, answer)
    yield from (reading(text, 0, "2") for text in (b"y", b"bj"))
    yield note("a 21st line is 2, though all checks are right (R5.8)")
    yield reading(laid_out(b"y" * 802), 600, "2")
    yield reading(laid_out(b"y" * 840), 600, "2")


def tails():
    yield note("right checks, and then 1, 3 and 6 characters modulo 8: 2 (R5.6)")
    for count in (1, 3, 6, 9, 11, 14, 41, 43, 46, 793, 795, 798):
        yield reading(laid_out(b"y" * count), 500, "2")
    yield note("right checks, and bits behind the last byte: 2 (R5.6)")
    for text in (b"yb", b"yyyb", b"yyyyb", b"yyyyyyb", b"y" * 41 + b"b"):
        yield reading(laid_out(text), 500, "2")


def orders():
    yield note("room: one byte short, exact, one more, none, the most (R2.4)")
    for room in (64, 65, 66, 0, 65536):
        yield reading(TEXT, room, bytes_read(SAMPLE) if room >= 65 else "11")
    for room in (5, 6, 7, 0, 65536):
        yield call("typed-write", b"AP", room, is_=bytes_read(b"efeynu") if room >= 6 else "11")
    for room in (858, 859):
        yield call("typed-write", b"\xa5" * 500, room, is_="11" if room < 859 else None)
    yield note("more than 500 bytes: 9 before 11 (R5.13)")
    for length, room in ((501, 0), (501, 859), (501, 65536), (525, 65536), (756, 65536)):
        yield call("typed-write", bytes(length), room, is_="9")
    yield note("faults together: 1, 2, 23, 2, 11 (R5.12)")
    for text, answer in ((b"ybyy\n" + THIRD + b"0", "1"), (b"ybyy\n" + THIRD, "2"),
                         (b"ybyy", "23 1"), (b"ybbm", "2"), (b"yybj", "11")):
        yield reading(text, 0, answer)
    yield note("arguments in another form (D1.5)")
    for text in (b"typed-read", b"typed-read 65666579", b"typed-read 6566657 10", b"typed-write 41",
                 b"typed-write 4150 65537", b"typed-write 4150 10 10", b"typed 4150 10"):
        yield raw(text, "?")


def typed():
    for part in (examples, mistyped, characters, lines, tails, orders):
        yield from part()


SECTIONS = [Section(["typed-read", "typed-write"], typed)]
