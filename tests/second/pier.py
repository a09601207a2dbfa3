"""The small program: section 15 of docs/RULES.md."""

import re

from . import collection, forms
from .answers import OUT_OF_RANGE, Refusal

LONGEST = 1024  # R15.2
ID = re.compile(rb"[0-9a-f]{16}")


def lines_of(given):
    """The lines of an input; the last may lack its line feed (R15.3)."""
    lines = given.split(b"\n")
    return lines[:-1] if lines[-1] == b"" else lines


def scanned(saved, line):
    """The collection after one line: a bad scan, or too long a line, is passed over (R15.2)."""
    if len(line) > LONGEST:
        return saved
    try:
        return collection.offer(saved, forms.base64_read(line))[0]
    except Refusal:
        return saved


def collected(given):
    """The collection after an input, or None where the first line is no document id (R15.1)."""
    first, *scans = lines_of(given) or [b""]
    if not ID.fullmatch(first):
        return None
    saved = collection.open_collection(bytes.fromhex(first.decode("ascii")), collection.SIZE)
    for line in scans:
        saved = scanned(saved, line)
    return saved


def printed(given):
    """What the program prints for an input (R15.1)."""
    saved = collected(given)
    text = f"refused {OUT_OF_RANGE}" if saved is None else collection.status(saved)
    return text.encode("ascii") + b"\n"
