"""Every half, and singles and doubles of every exponent: a desk held to this program and to cbor2.

Each item is read as it is, shortest or not, and the value that it stands for is written (R10.8).
"""

import random
import struct

from .cases.common import line
from .cases.floating import double_of, grid, halves, some_item
from .compare import Comparison, shortened, table, verdict
from .floats import DOUBLE, SINGLE, finite
from .library import LACKING, is_known_fault

ROOM = 9


def sets(seed, count):
    """The sets of items by name; as many by chance as are asked for."""
    rng = random.Random(f"{seed} floats")
    return {"halves": halves(), "singles": grid(SINGLE), "doubles": grid(DOUBLE),
            "items by chance": [some_item(rng) for _ in range(count)]}


def calls(items):
    """The lines for these items: each read, and its value written."""
    return [call for item in items
            for call in (line("float-read", item), line("float-write", double_of(item), ROOM))]


class Opinion:
    """What cbor2 says of the values that a desk wrote."""

    def __init__(self, comparison, writers):
        self.comparison = comparison
        self.in_python, self.given = writers
        self.compared = self.known_faults = 0

    def on(self, double, printed):
        """One finite value: a fault where the desk or cbor2's other writer has another form."""
        number, = struct.unpack(">d", double)
        form, other = self.in_python(number), self.given(number)
        self.compared += 1
        if printed != b"0 " + form.hex().encode("ascii"):
            self.fault(double, form, shortened(printed))
        if other != form and is_known_fault(number, other):
            self.known_faults += 1
        elif other != form:
            self.fault(double, form, f"{other.hex()} by cbor2's other writer")

    def fault(self, double, form, printed):
        """A form that is not the canonical one."""
        self.comparison.fault(f"value    {double.hex()}\n  cbor2    {form.hex()}\n"
                              f"  printed  {printed}", line("float-write", double, ROOM))

    def rows(self):
        """What was compared."""
        yield f"{self.compared} written values compared with cbor2's canonical form"
        if self.known_faults:
            yield (f"{self.known_faults} of them are halves of 32768 or above, for which cbor2's "
                   "compiled writer has singles: its fault (tests/second/library.py)")


def compare(command, named, verbs, writers, tell=print, keep=None):
    """Whether a desk answers on these sets as this program does, and writes as cbor2 does.

    The desk is run once. Where there are no writers of cbor2 that is said, and all else decides.
    """
    items = [item for part in named.values() for item in part]
    comparison = Comparison(command, verbs, tell)
    printed = comparison.chunk(calls(items), last_feed=True)
    tell(", ".join(f"{len(part)} {name}" for name, part in named.items()))
    for row in table(comparison.counts):
        tell(row)
    for row in opinions(comparison, items, printed[1::2], writers):
        tell(row)
    return verdict(comparison, 2 * len(items), tell, keep)


def opinions(comparison, items, written, writers):
    """What there is to tell of cbor2, after each finite value has been held to it."""
    if writers is None:
        return [f"not compared with cbor2: {LACKING}"]
    if len(written) != len(items):
        return ["not compared with cbor2: lines are missing"]
    opinion = Opinion(comparison, writers)
    for item, printed in zip(items, written):
        double = double_of(item)
        if finite(double):
            opinion.on(double, printed)
    return opinion.rows()
