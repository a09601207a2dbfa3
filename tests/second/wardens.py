"""`wardens`, which gives a secret back from slips: R15.17 to R15.21 of the rules."""

from .answers import (BAD_CHARACTER, FRAME_CRC, INDEX_TWICE, MISTYPED, OFF_THE_CURVE, OTHER_SPLIT,
                      TOO_FEW_SLIPS, TOO_LARGE, Refusal)
from .forms import base64_read
from .frames import KEY, MAIN, frame_read
from .payloads import shard_read
from .sharing import common, recover
from .typing_lines import FEED, FULL, SKIPPED, read_typed, write_typed

MOST = 524288  # R15.18
MOST_SLIPS = 300  # R15.18
MOST_FRAME = 500  # no good frame has more bytes (R3.2)
GROUP = 6  # R15.4


class Told(Exception):
    """Words for a person: nothing is printed, and the status is 1."""


def line_words(line, words):
    return Told(b"line %d%s" % (line, words))


def refused(line, number, words):
    return line_words(line, b": refused %d: %s" % (number, words))


def pieces(given):
    """The slips of an input: the first line of each, whether it is typed, and its text (R15.18)."""
    found, run = [], None
    for number, line in enumerate(given.split(FEED), start=1):
        count = len(line.translate(None, delete=SKIPPED))
        if not 1 <= count <= FULL + 2:
            run = None
        if count > FULL + 2:
            found.append([number, False, line])
        elif count and run:
            run[2] += FEED + line
        elif count:
            run = [number, True, line]
            found.append(run)
    return found


def text_words(number, typed):
    if number == BAD_CHARACTER:
        return b"it has a character that a slip may not have"
    return b"one of these typed lines is too long or too short" if typed else b"the scan is cut, or has too much"


def slip_read(line, typed, text):
    """A slip's frame and its payload, or what the text is instead (R15.19)."""
    try:
        raw = read_typed(text) if typed else base64_read(text)
    except Refusal as refusal:
        if refusal.number == MISTYPED:
            raise refused(line + refusal.place - 1, MISTYPED, b"it was mistyped: type it again")
        raise refused(line, refusal.number, text_words(refusal.number, typed))
    if len(raw) > MOST_FRAME:
        raise refused(line, TOO_LARGE, b"it has more bytes than a slip")
    try:
        frame = frame_read(raw)
    except Refusal as refusal:
        words = b"its checksum differs: scan or type it again" if refusal.number == FRAME_CRC else b"it is no frame"
        raise refused(line, refusal.number, words)
    if frame.type != KEY:
        what = b"a page of a document" if frame.type == MAIN else b"an auth frame"
        raise line_words(line, b" is no slip: it is " + what)
    try:
        return raw, frame.data, shard_read(frame.data)
    except Refusal as refusal:
        raise refused(line, refusal.number, b"it is a key frame, but no share is in it")


def slips_of(given):
    """All slips, each with the line where it begins."""
    if len(given) > MOST:
        raise Told(b"more than %d bytes were given: give the slips of one secret" % MOST)
    slips = []
    for number, (line, typed, text) in enumerate(pieces(given)):
        if number == MOST_SLIPS:
            raise Told(b"more than %d slips were given: give the slips of one secret" % MOST_SLIPS)
        slips.append((line, *slip_read(line, typed, text)))
    return slips


def number_of(payloads):
    """The number with which these payloads are refused, or 0."""
    try:
        recover(10 ** 6, *payloads)
        return 0
    except Refusal as refusal:
        return refusal.number


def united(slips):
    """The secret of slips, or why they give none (R15.19)."""
    payloads = [payload for _, _, payload, _ in slips]
    try:
        return recover(10 ** 6, *payloads)
    except Refusal as refusal:
        raise why_none(refusal.number, slips, payloads)


def why_none(number, slips, payloads):
    if number == TOO_FEW_SLIPS:
        if not slips:
            return Told(b"refused 26: no slip was given: give scans or typed lines on standard input")
        return Told(b"refused 26: too few slips: %d here, %d more needed" % (len(slips), slips[0][3].threshold - len(slips)))
    if number == OTHER_SPLIT:
        line = next(slip[0] for slip in slips if common(slip[3]) != common(slips[0][3]))
        return refused(line, OTHER_SPLIT, b"it is a slip of another secret than the first")
    if number == INDEX_TWICE:
        seen = {}
        for line, _, _, shard in slips:
            if shard.index in seen:
                return refused(line, INDEX_TWICE, b"it has the same number as the slip on line %d" % seen[shard.index])
            seen[shard.index] = line
    if number == OFF_THE_CURVE:
        needed = slips[0][3].threshold
        line = next(slip[0] for slip in slips[needed:] if number_of([*payloads[:needed], slip[2]]) == OFF_THE_CURVE)
        return refused(line, OFF_THE_CURVE, b"it does not fit the slips before it: one of them is damaged or false")
    return Told(b"refused 30: the slips fit each other, but give no secret: one of them is damaged or false")


def in_groups(line):
    """A line in groups of six characters (R15.4)."""
    return b" ".join(line[at:at + GROUP] for at in range(0, len(line), GROUP))


def typed_of(slips):
    """For each slip which it is, and its typed lines (R15.21)."""
    shown = []
    for _, raw, _, shard in slips:
        lines = [b"slip %d of %d" % (shard.index, shard.count)]
        lines += [in_groups(line) for line in write_typed(raw).split(FEED)]
        shown.append(b"".join(line + FEED for line in lines))
    return FEED.join(shown)


def wardens(verb, given):
    """What `wardens recover` or `wardens typed` prints, what it tells, and its status (R15.17)."""
    try:
        slips = slips_of(given)
        return (united(slips) if verb == "recover" else typed_of(slips)), b"", 0
    except Told as told:
        return b"", told.args[0] + FEED, 1
