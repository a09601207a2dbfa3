"""`typist`, which makes a scan of the typed lines of a page: R15.14 to R15.16 of the rules."""

from .answers import BAD_CHARACTER, BAD_LENGTH, MISTYPED, Refusal
from .forms import ZBASE32, base64_write, zbase32_read
from .frames import frame_read
from .press import WrongWord, ended
from .typing_lines import FEED, FULL, MOST_LINES, SKIPPED, check_of, read_typed

MOST = 16384  # R15.16
LINE_ROOM = 512  # R15.15
RIGHT = "typist takes --help or --version alone, and lines on standard input"


def typist(given, arguments=()):
    """What `typist` prints, what it tells a person, and its status (R15.16)."""
    if arguments == ("--help",):
        return b"", helps, 0
    if arguments == ("--version",):
        return b"", b"typist 1: Ethernity paper format, version 1\n", 0
    if arguments:
        return b"", WrongWord(arguments[0], RIGHT).line(), 2
    if len(given) > MOST:
        return b"", ended([b"more than %d bytes were given: give the lines of one page" % MOST]), 1
    return page(given.removesuffix(FEED))


def helps(told):
    """Whether this says what `typist` reads, and speaks of its other word and of the status."""
    return all(word in told for word in (b"typist < LINES", b"--version", b"status"))


def page(text):
    """The same of the lines of a page (R15.14)."""
    wrong = next(faults(text), None)
    if (wrong and wrong[0]) != refused(text):
        raise AssertionError(f"told as {wrong}, refused with {refused(text)}")
    return (b"", ended([wrong[1]]), 1) if wrong else (ended([base64_write(read_typed(text))]), b"", 0)


def refused(text):
    """The number with which the lines, or their frame, are refused (R5.12, R6.4), or nothing."""
    try:
        frame_read(read_typed(text))
        return None
    except Refusal as refusal:
        return refusal.number


def kept(line):
    """A line's characters (R5.11)."""
    return line.translate(None, delete=SKIPPED)


def faults(text):
    """What is wrong with a page: each time the number of the refusal and the words (R15.14)."""
    lines = list(enumerate(map(kept, text.split(FEED)), start=1)) if text else []
    if lines:
        for find in (odd, lambda n, line: miscounted(n, line, n == len(lines)), mistyped):
            yield from filter(None, (find(number, line) for number, line in lines))
    try:
        frame_read(zbase32_read(b"".join(line[:-2] for _, line in lines)))
    except Refusal as refusal:
        words = b"these lines are no good frame: refused %d: see that all lines of one page are there, in order" % refusal.number
        yield refusal.number, words if lines else b"no line was given: type the lines of one page, or give them on standard input"


def odd(number, line):
    """A character that no line has (R5.11, R5.12)."""
    if line.strip(ZBASE32):
        return BAD_CHARACTER, b"line %d has a character that is not in the alphabet, which has no capitals, no l, v, 0 or 2, and no carriage return" % number


def miscounted(number, line, last):
    """Another number of characters than the line may have, or a 21st line (R5.9, R5.12)."""
    if number > MOST_LINES:
        return BAD_LENGTH, b"line %d is one too many: a page has at most %d" % (number, MOST_LINES)
    full = FULL + 2
    if len(line) < (3 if last else full):
        return BAD_LENGTH, b"line %d has too few characters: %d, and %s belong there" % (number, len(line), b"at least 3" if last else b"42")
    if len(line) > full:
        return BAD_LENGTH, b"line %d has too many characters: %d, and %s belong there" % (number, len(line), b"at most 42" if last else b"42")


def mistyped(number, line):
    """A check that is wrong (R5.10)."""
    if line[-2:] != check_of(number, line[:-2]):
        return MISTYPED, b"line %d was mistyped" % number


def dialogue(typed, within=False):
    """What `typist` prints, what it tells and its status where these lines are typed (R15.15).

    Behind them is an empty line, or the input ends; it can also end within the last.
    """
    told, lines = [b"type the lines of one page; an empty line ends it\n"], []
    for line in typed if within else [*typed, b""]:
        number = len(lines) + 1
        if number > MOST_LINES:
            break
        told.append(b"line %d: " % number)
        if not line:
            break
        if len(line) > LINE_ROOM:
            told.append(b"line %d is too long\n" % number)
        elif lines and miscounted(number - 1, kept(lines[-1]), False):
            told.append(ended([miscounted(number - 1, kept(lines.pop()), False)[1]]))
        else:
            text = kept(line)
            wrong = odd(number, text) or miscounted(number, text, True) or mistyped(number, text)
            if wrong:
                told.append(ended([wrong[1]]))
            else:
                lines.append(line)
    printed, words, status = page(FEED.join(lines))
    return printed, b"".join(told) + words, status
