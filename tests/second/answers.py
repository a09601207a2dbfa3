"""The numbers that a call may answer: section 2 of docs/RULES.md."""

# What each says is R2.2.
BAD_CHARACTER = 1
BAD_LENGTH = 2
ENDS_OR_LEFT_OVER = 3
MAGIC = 4
VERSION = 5
FRAME_TYPE = 6
VARINT = 7
INDEX_TOTAL = 8
TOO_LARGE = 9
FRAME_CRC = 10
NO_ROOM = 11
OTHER_DOCUMENT = 12
NOT_WELL_FORMED = 13
TOTALS_DISAGREE = 14
PAGE_DISPUTED = 15
MISSING = 16
WRONG_ID = 17
NOT_CANONICAL = 18
OUT_OF_RANGE = 19
BAD_PATH = 20
NOT_THE_FILES = 21
MISTYPED = 23
TOO_FEW_SLIPS = 26
OTHER_SPLIT = 27
INDEX_TWICE = 28
OFF_THE_CURVE = 29
NOT_ZERO_PADDED = 30

# R2.3
WITH_PLACE = (PAGE_DISPUTED, MISSING, NOT_THE_FILES, MISTYPED)


class Refusal(Exception):
    """A call's answer where it is not 0 (R2.1), and its place, mostly 0 (R2.3)."""

    def __init__(self, number, place=0):
        super().__init__(number, place)
        self.number = number
        self.place = place


def refuse_if(fault, number, place=0):
    """Leave at once with this number where the fault is there."""
    if fault:
        raise Refusal(number, place)


def lend(room, output):
    """Output into a buffer of `room` bytes: 11 where it is too short, judged last (R2.4)."""
    refuse_if(len(output) > room, NO_ROOM)
    return output
