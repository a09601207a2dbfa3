"""Fields one after the other, of which the first bad one is refused (R6.4, R10.2)."""

from .answers import ENDS_OR_LEFT_OVER, refuse_if
from .forms import varint_read


class Cursor:
    """A place in the input. Where the input ends in a field, that is 3, whichever it is (R6.4)."""

    def __init__(self, data):
        self.data = data
        self.at = 0

    def left(self):
        """How many bytes remain."""
        return len(self.data) - self.at

    def take(self, count):
        """The next bytes; 3 where the input ends inside them."""
        refuse_if(self.left() < count, ENDS_OR_LEFT_OVER)
        self.at += count
        return self.data[self.at - count:self.at]

    def peek(self):
        """The next byte, not yet read; 3 where there is none."""
        refuse_if(self.left() == 0, ENDS_OR_LEFT_OVER)
        return self.data[self.at]

    def varint(self):
        """The next varint: 3 or 7 as the varint reader says (R6.4)."""
        value, used = varint_read(self.data[self.at:self.at + 10])
        self.at += used
        return value

    def end(self):
        """Nothing may follow: 3 for bytes that are left over (R10.2)."""
        refuse_if(self.left() != 0, ENDS_OR_LEFT_OVER)
