"""Paths, file entries and the manifest: sections 12 and 13 of docs/RULES.md.

A time of creation is ("i", number) or ("f", the eight bytes of a double).
"""

from collections import namedtuple

from .answers import BAD_PATH, OUT_OF_RANGE, TOO_LARGE, lend, refuse_if
from .cbor import ARRAY, FALSE, NULL, TEXT, TRUE, Items, byte_string, head, integer, text
from .floats import WIDTHS, finite, float_item, next_float
from .payloads import encode

MOST_BYTES = 16384  # R3.3
MOST_FILES = 64  # R3.4
MOST_PATH = 200  # R3.5
MOST_SIZE = 2**32 - 1  # R3.6
LOW, HIGH = -2**63, 2**63 - 1  # R13.6
NO_NAMES = {b"", b".", b".."}  # R12.2

File = namedtuple("File", "hash path size mtime")
Manifest = namedtuple("Manifest", "seed files sealed created")


# Paths.


def path_allowed(path):
    """1 to 200 bytes (R3.5) of UTF-8 below U+0300 (R12.1), none 00 (R12.3), in names (R12.2)."""
    try:
        letters = path.decode("utf-8", errors="strict")
    except UnicodeDecodeError:
        return False
    return (1 <= len(path) <= MOST_PATH and all(0 < ord(letter) < 0x300 for letter in letters)
            and NO_NAMES.isdisjoint(path.split(b"/")))


def judge_path(path, before):
    """20 for a path that may not be (R12.6), and for one out of order (R12.5)."""
    refuse_if(not path_allowed(path), BAD_PATH)
    refuse_if(before is not None and not before < path, BAD_PATH)


# Encoding.


def file_pairs(entry):
    """Four items (R13.5)."""
    mtime = bytes([NULL]) if entry.mtime is None else integer(entry.mtime)
    return [(b"hash", byte_string(entry.hash)), (b"path", text(entry.path)),
            (b"size", integer(entry.size)), (b"mtime", mtime)]


def created_item(created):
    """An integer stays one (R13.6); a float is in its shortest form (R10.8)."""
    kind, value = created
    return integer(value) if kind == "i" else float_item(value)


def manifest_pairs(manifest):
    """Five items (R13.1)."""
    seed = bytes([NULL]) if manifest.seed is None else byte_string(manifest.seed)
    entries = b"".join(encode(file_pairs(entry)) for entry in manifest.files)
    return [(b"seed", seed), (b"files", head(ARRAY, len(manifest.files)) + entries),
            (b"sealed", bytes([TRUE if manifest.sealed else FALSE])),
            (b"created", created_item(manifest.created)), (b"version", integer(1))]


# Reading.


def manifest_read(raw):
    """Its size first (R13.2), then the items (R13.1); seed and sealed agree at `sealed` (R13.3)."""
    refuse_if(len(raw) > MOST_BYTES, TOO_LARGE)
    items = Items(raw)
    items.byte(0xA5)
    items.key(b"seed")
    seed = seed_read(items)
    items.key(b"files")
    files = files_read(items)
    items.key(b"sealed")
    sealed = items.byte(FALSE, TRUE) == TRUE
    refuse_if(sealed != (seed is None), OUT_OF_RANGE)
    items.key(b"created")
    created = created_read(items)
    items.key(b"version")
    items.integer(1, 1)
    items.end()
    return Manifest(seed, files, sealed, created)


def seed_read(items):
    """Null or 32 bytes (R13.3)."""
    if items.peek() == NULL:
        items.take(1)
        return None
    return items.exactly(32)


def files_read(items):
    """A list of 1 to 64 entries (R13.4), paths strictly ascending (R12.5)."""
    _, count = items.head(ARRAY)
    refuse_if(not 1 <= count <= MOST_FILES, OUT_OF_RANGE)
    files = []
    for _ in range(count):
        before = files[-1].path if files else None
        files.append(file_read(items, before))
    return tuple(files)


def file_read(items, before):
    """One entry (R13.5); the length of a path is judged by its head (R12.6)."""
    items.byte(0xA4)
    items.key(b"hash")
    digest = items.exactly(32)
    items.key(b"path")
    path = items.string(TEXT, lambda n: 1 <= n <= MOST_PATH, BAD_PATH)
    judge_path(path, before)
    items.key(b"size")
    size = items.integer(0, MOST_SIZE)
    items.key(b"mtime")
    return File(digest, path, size, mtime_read(items))


def mtime_read(items):
    """Null, or an integer in its range (R13.6)."""
    if items.peek() == NULL:
        items.take(1)
        return None
    return items.integer(LOW, HIGH)


def created_read(items):
    """A float by its first byte (R10.9); whatever else is judged as an integer (R13.6)."""
    if items.peek() in WIDTHS:
        return "f", next_float(items)
    return "i", items.integer(LOW, HIGH)


# Writing.


def judge_manifest(manifest):
    """The values in the map's order (R10.7)."""
    refuse_if(manifest.seed is not None and len(manifest.seed) != 32, OUT_OF_RANGE)
    refuse_if(not 1 <= len(manifest.files) <= MOST_FILES, OUT_OF_RANGE)
    before = None
    for entry in manifest.files:
        judge_file(entry, before)
        before = entry.path
    refuse_if(manifest.sealed != (manifest.seed is None), OUT_OF_RANGE)
    judge_created(manifest.created)


def judge_file(entry, before):
    """One entry: hash 19, path 20, size 19, mtime 19 (R13.5)."""
    refuse_if(len(entry.hash) != 32, OUT_OF_RANGE)
    judge_path(entry.path, before)
    refuse_if(not 0 <= entry.size <= MOST_SIZE, OUT_OF_RANGE)
    refuse_if(entry.mtime is not None and not LOW <= entry.mtime <= HIGH, OUT_OF_RANGE)


def judge_created(created):
    """An integer in range or a finite float, else 19 (R13.6)."""
    kind, value = created
    refuse_if(kind == "i" and not LOW <= value <= HIGH, OUT_OF_RANGE)
    refuse_if(kind == "f" and not finite(value), OUT_OF_RANGE)


def manifest_write(manifest, room):
    """The values, then 9 above 16,384 bytes, then 11 (R10.7). The files are not sorted (R13.4)."""
    judge_manifest(manifest)
    raw = encode(manifest_pairs(manifest))
    refuse_if(len(raw) > MOST_BYTES, TOO_LARGE)
    return lend(room, raw)
