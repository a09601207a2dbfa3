"""CBOR items: section 10 of docs/RULES.md, over RFC 8949.

Each method of `Items` judges an item in the order of R10.3.
"""

from .answers import NOT_CANONICAL, OUT_OF_RANGE, refuse_if
from .cursor import Cursor

UNSIGNED, NEGATIVE, BYTES, TEXT, ARRAY = 0, 1, 2, 3, 4
FALSE, TRUE, NULL = 0xF4, 0xF5, 0xF6

WIDTHS = {24: 1, 25: 2, 26: 4, 27: 8}


def head(major, number):
    """The shortest head of a kind with its number (R10.1)."""
    if number < 24:
        return bytes([major << 5 | number])
    for info, width in WIDTHS.items():
        if number < 1 << 8 * width:
            return bytes([major << 5 | info]) + number.to_bytes(width, "big")
    raise ValueError("no CBOR head holds this number")


def integer(value):
    """An integer of either sign."""
    return head(UNSIGNED, value) if value >= 0 else head(NEGATIVE, -1 - value)


def byte_string(data):
    """A byte string."""
    return head(BYTES, len(data)) + data


def text(data):
    """A text string, given as its bytes."""
    return head(TEXT, len(data)) + data


class Items(Cursor):
    """Items read one after the other; each method is one item of a payload."""

    def byte(self, *allowed):
        """A first byte out of those named, else 18 (R10.3)."""
        refuse_if(self.peek() not in allowed, NOT_CANONICAL)
        return self.take(1)[0]

    def key(self, name):
        """The named key: its head, of one byte (R10.6), 18; cut 3; its letters 18 (R10.3)."""
        self.byte(TEXT << 5 | len(name))
        refuse_if(self.take(len(name)) != name, NOT_CANONICAL)

    def head(self, *majors):
        """A head of one of these kinds: its kind and its number. 18, 3, 18 (R10.3)."""
        first = self.peek()
        major, info = first >> 5, first & 31
        refuse_if(major not in majors or info > 27, NOT_CANONICAL)
        self.take(1)
        number = info
        if info in WIDTHS:
            number = int.from_bytes(self.take(WIDTHS[info]), "big")
        refuse_if(len(head(major, number)) != 1 + WIDTHS.get(info, 0), NOT_CANONICAL)
        return major, number

    def integer(self, low, high):
        """An integer within its range, else 19 (R10.3); both signs are one kind (R10.4)."""
        major, number = self.head(UNSIGNED, NEGATIVE)
        value = number if major == UNSIGNED else -1 - number
        refuse_if(not low <= value <= high, OUT_OF_RANGE)
        return value

    def string(self, major, length_allowed, number):
        """A byte or text string; a length not allowed gives the number (R10.3)."""
        _, length = self.head(major)
        refuse_if(not length_allowed(length), number)
        return self.take(length)

    def exactly(self, length):
        """A byte string of this one length, else 19."""
        return self.string(BYTES, lambda n: n == length, OUT_OF_RANGE)
