"""The runs of `typist` (R15.14 to R15.16): stored, by chance, and at a terminal."""

import os
import random

from second.forms import ZBASE32, base64_read, zbase32_write
from second.frames import KEY, MAIN, Frame, frame_write
from second.pantry import Done
from second.typing_lines import FEED, check_of, laid_out, write_typed
from second.typist import MOST, dialogue
from programs import differences
from runs import Document, Run


class Page:
    """A page and its typed lines, and what can happen to them."""

    def __init__(self, frame):
        self.frame, self.lines = frame, write_typed(frame).split(FEED)

    def text(self):
        """As it is given through a pipe."""
        return FEED.join(self.lines) + FEED

    def but(self, number, line):
        """The same with another line in the place of one, or without it."""
        lines = [*self.lines[:number - 1], *([] if line is None else [line]), *self.lines[number:]]
        return FEED.join(lines) + FEED

    def line(self, number):
        """The line of a number."""
        return self.lines[number - 1]


def slipped(line, at=17):
    """A line with one character replaced by the next of the alphabet."""
    return line[:at] + ZBASE32[(ZBASE32.index(line[at:at + 1]) + 1) % 32:][:1] + line[at + 1:]


def grouped(line, size=6, part=b" "):
    """A line in groups, as it is printed (R15.4)."""
    return part.join(line[at:at + size] for at in range(0, len(line), size))


def pages():
    """A full page, a short one, and the slip of a key."""
    rng = random.Random(20261130)
    full = Page(base64_read(Document(rng, 5700).scans[3]))
    short = Page(base64_read(Document(rng, 60).scans[0]))
    return full, short, Page(frame_write(Frame(KEY, rng.randbytes(8), 0, 1, rng.randbytes(90))))


def stored_typist():
    """Each kind of page, each kind of fault (R15.14), and the words (R15.16)."""
    full, short, key = pages()
    for name, given in (*of_pages(full, short, key), *of_faults(full, short), *of_several(full)):
        yield Run(name, "typist", (), given)
    for name, words in (("help", ("--help",)), ("version", ("--version",)), ("help_and_more", ("--help", "typed")), ("version_twice", ("--version",) * 2),
                        ("unknown_word", ("lines",)), ("empty_word", ("",)), ("short_option", ("-h",)), ("late_status", ("--status-3",)),
                        ("word_of_64_bytes", ("w" * 64,)), ("word_of_65_bytes", ("w" * 65,)), ("word_with_controls", ("\x1b[2J\x7f\t",))):
        yield Run(name, "typist", words, full.text())


def of_pages(full, short, key):
    """Lines that are a page."""
    yield "full_page", full.text()
    yield "short_page", short.text()
    yield "key_frame", key.text()
    yield "without_the_last_line_feed", short.text()[:-1]
    yield "in_groups", b"".join(grouped(line) + FEED for line in full.lines)
    yield "spaces_tabs_and_dashes", b"".join(b"\t - " + grouped(line, 4, b"-") + b" \t" + FEED for line in short.lines)
    yield "as_long_as_can_be", (b" " * MOST + short.text())[-MOST:]
    yield "one_line", write_typed(frame_write(Frame(MAIN, bytes(8), 0, 1, b"")))


def of_faults(full, short):
    """Lines with one fault."""
    seven = full.line(7)
    yield "line_7_mistyped", full.but(7, slipped(seven))
    yield "line_7_two_exchanged", full.but(7, seven[:3] + seven[4:5] + seven[3:4] + seven[5:]) if seven[3] != seven[4] else full.but(7, slipped(seven))
    yield "line_7_check_mistyped", full.but(7, slipped(seven, 41))
    yield "lines_7_and_8_exchanged", FEED.join([*full.lines[:6], full.line(8), seven, *full.lines[8:]]) + FEED
    yield "line_7_left_out", full.but(7, None)
    yield "line_7_twice", full.but(7, seven + FEED + seven)
    yield "line_7_too_short", full.but(7, seven[:-1])
    yield "line_7_empty", full.but(7, b"")
    yield "line_7_too_long", full.but(7, seven + b"y")
    yield "last_line_too_long", full.but(len(full.lines), seven + b"y")
    yield "last_line_too_short", short.but(len(short.lines), b"yy")
    yield "last_line_left_out", full.but(len(full.lines), None)
    yield "two_line_feeds_at_the_end", full.text() + FEED
    yield "a_line_feed_in_front", FEED + full.text()
    yield "twenty_one_lines", b"".join(FEED[:number] + b"y" * 40 + check_of(number + 1, b"y" * 40) for number in range(21))
    yield "line_7_with_a_capital", full.but(7, b"Y" + seven[1:])
    for name, sign in (("l", b"l"), ("v", b"v"), ("0", b"0"), ("2", b"2"), ("byte_0b", b"\x0b"), ("byte_00", b"\x00"), ("byte_ff", b"\xff")):
        yield f"line_7_with_{name}", full.but(7, seven[:9] + sign + seven[10:])
    yield "carriage_returns", full.text().replace(FEED, b"\r\n")
    yield "carriage_return_at_the_end", short.text()[:-1] + b"\r"
    yield "nothing", b""
    yield "one_line_feed", FEED
    yield "two_line_feeds", FEED * 2
    yield "a_space", b" "
    yield "one_byte_too_many", b" " * (MOST + 1)
    yield "far_too_many_bytes", full.text() * 100


def of_several(full):
    """Several faults, of which the first kind is told (R5.12); and right lines that are no page."""
    yield "mistyped_and_too_short", full.but(9, full.line(9)[1:]).replace(full.line(3), slipped(full.line(3)))
    yield "too_short_and_a_capital", full.but(12, full.line(12)[:-1] + b"Y").replace(full.line(3), full.line(3)[1:])
    yield "two_mistyped", full.but(9, slipped(full.line(9))).replace(full.line(3), slipped(full.line(3)))
    yield "twenty_one_lines_and_one_too_short", FEED.join([b"y" * 41] + [b"y" * 42] * 20)
    frame = bytearray(full.frame)
    frame[200] ^= 1
    yield "no_frame_checksum", write_typed(bytes(frame)) + FEED
    yield "no_frame_magic", write_typed(b"BP" + full.frame[2:]) + FEED
    yield "no_frame_too_long", write_typed(full.frame[:-20] + bytes(20)) + FEED
    yield "no_frame_five_hundred_bytes", write_typed(bytes(500)) + FEED
    yield "does_not_end_as_bytes_do", laid_out(b"y") + FEED
    yield "bits_left_over", laid_out(zbase32_write(b"AP")[:-1] + b"9") + FEED


def chance_typist(rng, count):
    """Pages by chance, of which most have slips."""
    for number in range(count):
        document = Document(rng, rng.randrange(1, 1500), rng.choice((480, rng.randrange(16, 481))))
        lines = Page(base64_read(rng.choice(document.scans))).lines
        for _ in range(rng.choice((0, 0, 1, 1, 1, 2, 3))):
            rng.choice((replaced, dropped, doubled, exchanged, moved, spaced, spoilt))(rng, lines)
        yield Run(f"page {number}", "typist", (), FEED.join(lines) + rng.choice((FEED, FEED, b"", FEED * 2)))


def somewhere(rng, lines):
    """A line that has a character, and one of its places."""
    number = rng.choice([k for k, line in enumerate(lines) if line] or [0])
    lines[number] = lines[number] or b"y"
    return number, rng.randrange(len(lines[number]))


def replaced(rng, lines):
    """One character is another."""
    k, at = somewhere(rng, lines)
    lines[k] = lines[k][:at] + bytes([rng.choice(ZBASE32)]) + lines[k][at + 1:]


def dropped(rng, lines):
    """One is left out, or a whole line."""
    k, at = somewhere(rng, lines)
    lines[k:k + 1] = [lines[k][:at] + lines[k][at + 1:]] if rng.random() < 0.7 or len(lines) == 1 else []


def doubled(rng, lines):
    """One is typed twice, or a whole line."""
    k, at = somewhere(rng, lines)
    lines[k:k + 1] = [lines[k][:at] + lines[k][at:at + 1] + lines[k][at:]] if rng.random() < 0.7 else [lines[k]] * 2


def exchanged(rng, lines):
    """Two neighbours are exchanged."""
    k, at = somewhere(rng, lines)
    lines[k] = lines[k][:at] + lines[k][at:at + 2][::-1] + lines[k][at + 2:]


def moved(rng, lines):
    """Two lines are exchanged."""
    k, j = rng.randrange(len(lines)), rng.randrange(len(lines))
    lines[k], lines[j] = lines[j], lines[k]


def spaced(rng, lines):
    """Something that is skipped."""
    k, at = somewhere(rng, lines)
    lines[k] = lines[k][:at] + rng.choice((b" ", b"-", b"\t", b" - ")) + lines[k][at:]


def spoilt(rng, lines):
    """A byte that may be anything but a line feed."""
    k, at = somewhere(rng, lines)
    lines[k] = lines[k][:at] + bytes([rng.choice([b for b in range(256) if b != 10])]) + lines[k][at + 1:]


# At a terminal (R15.15).


def typed_pages(rng, count):
    """What is typed, line by line, with slips: a name, and the lines."""
    full, short, key = pages()
    seven, last = full.line(7), short.lines[-1]
    yield "a full page", full.lines
    yield "a key", [grouped(line, 6) for line in key.lines]
    yield "a slip in each line", [line for each in short.lines for line in (slipped(each, 1), each)]
    yield "one line wrong in every way", [*full.lines[:6], slipped(seven), seven[1:], seven + b"y", seven.upper(), b"y", b" ", b"y" * 513, seven + b" " * 470,
                                          full.line(8), *full.lines[6:]]
    yield "a line behind the last", [*short.lines, b"anything", last]
    yield "a short line that is right", [*full.lines[:3], b"yy" + check_of(4, b"yy"), full.line(5), *full.lines[3:]]
    yield "no line", []
    yield "lines that are no page", full.lines[:4]
    yield "twenty lines", Page(bytes(500)).lines
    yield "a line behind the twentieth", [*Page(bytes(500)).lines, b"y"]
    yield "a line of 512 bytes", [short.line(1) + b" " * (512 - len(short.line(1))), *short.lines[1:]]
    for number in range(count):
        lines = []
        for line in Page(base64_read(rng.choice(Document(rng, rng.randrange(1, 700)).scans))).lines:
            slips = [line]
            rng.choice((replaced, dropped, exchanged, spaced))(rng, slips)
            lines += [*(slip for slip in slips if rng.random() < 0.3), line]
        yield f"by chance {number}", lines


def at_a_terminal(programs, count=20):
    """Pages that are typed, then an empty line or the end of the input; one ends within a line."""
    full, short, _ = pages()
    for name, lines in typed_pages(random.Random(20261201), count):
        for end, keys in (("an empty line", b"\n"), ("the end of the input", b"\x04")):
            yield terminal(programs, f"{name}, then {end}", lines, b"".join(line + FEED for line in lines) + keys)
    for name, lines in (("half of a line", [*full.lines[:2], full.line(3)[:20]]), ("a short page", short.lines), ("too much", [b"y" * 600])):
        yield terminal(programs, f"{name}, and the end of the input within", lines, FEED.join(lines) + b"\x04\x04", True)


def terminal(programs, name, lines, keys, within=False):
    """One of them: its row, and what is wrong."""
    near, far = os.openpty()
    os.write(near, keys)
    run = Run(name, "typist", (), b"")
    got = programs.run(run, stdin=far)
    os.close(far)
    os.close(near)
    wanted = Done(*dialogue(lines, within), {})
    answer = "a scan" if wanted.printed else "no scan"
    return ("typist", f"{answer}, at a terminal"), [f"typist, at a terminal ({name}): {fault}" for fault in differences(wanted, got)]
