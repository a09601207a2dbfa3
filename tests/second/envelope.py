"""The envelope: section 14 of docs/RULES.md."""

from .answers import ENDS_OR_LEFT_OVER, MAGIC, NOT_THE_FILES, VERSION, lend, refuse_if
from .cursor import Cursor
from .forms import varint_write
from .manifest import manifest_read
from .sums import sha256


def envelope_read(raw):
    """The fields one after the other (R14.2), then what manifest and payload say (R14.3)."""
    cursor = Cursor(raw)
    refuse_if(cursor.take(2) != b"AY", MAGIC)
    refuse_if(cursor.varint() != 1, VERSION)
    manifest = cursor.take(cursor.varint())
    length = cursor.varint()
    refuse_if(cursor.left() != length, ENDS_OR_LEFT_OVER)
    payload = cursor.take(length)
    judge_contents(manifest, payload)
    return manifest, payload


def judge_contents(manifest, payload):
    """The manifest as its reader judges it; the sum of the sizes; each file's digest (R14.3)."""
    files = manifest_read(manifest).files
    refuse_if(sum(f.size for f in files) != len(payload), NOT_THE_FILES, len(files))
    start = 0
    for place, entry in enumerate(files):
        contents = payload[start:start + entry.size]
        refuse_if(sha256(contents) != entry.hash, NOT_THE_FILES, place)
        start += entry.size


def envelope_bytes(manifest, payload):
    """The layout alone (R14.1); nothing is judged."""
    return (b"AY" + varint_write(1) + varint_write(len(manifest)) + manifest
            + varint_write(len(payload)) + payload)


def envelope_write(manifest, payload, room):
    """The two parts are judged as in reading, and then the room (R14.4)."""
    judge_contents(manifest, payload)
    return lend(room, envelope_bytes(manifest, payload))
