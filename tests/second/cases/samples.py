"""Good payloads by chance, and payloads of any values."""

from ..manifest import File, Manifest, manifest_pairs, path_allowed
from ..payloads import TYPES, Auth, Shard, auth_pairs, encode, shard_pairs
from ..sums import sha256
from .floating import some_finite

LETTERS = "abcdefghijklmnopqrstuvwxyzABCXYZ0189 ._-/\u00e9\u00df\u0100\u02ff"


def auth_values(rng):
    """A good auth payload's values."""
    return Auth(rng.randbytes(32), rng.randbytes(64), rng.randbytes(32))


def auth_payload(rng):
    """A good auth payload."""
    return encode(auth_pairs(auth_values(rng)))


def shard_values(rng):
    """A good shard's values."""
    length = rng.choice((1, 15, 16, 17, 32, 208, 209, 224, rng.randrange(1, 225)))
    share = rng.randbytes((length + 15) // 16 * 16)
    count = rng.choice((1, 2, 23, 24, 255, rng.randrange(1, 256)))
    threshold, index = rng.randrange(1, count + 1), rng.randrange(1, count + 1)
    return Shard(*auth_values(rng), rng.choice(TYPES), share, length, threshold, count, index)


def longest(shard):
    """A shard of the same signer with every other value as long as it can be."""
    return shard._replace(type=TYPES[1], share=bytes(224), length=224, threshold=255, count=255,
                          index=255)


def shard_payload(rng):
    """A good shard payload."""
    return encode(shard_pairs(shard_values(rng)))


def longest_payload(rng):
    """A good shard payload of 456 bytes, the most that one has (R11.9)."""
    return encode(shard_pairs(longest(shard_values(rng))))


def some_path(rng):
    """An allowed path, mostly short."""
    while True:
        count = rng.choice((1, 2, 5, 9, rng.randrange(1, 24), rng.randrange(1, 100)))
        path = "".join(rng.choices(LETTERS, k=count)).encode("utf-8")
        if path_allowed(path):
            return path


def some_mtime(rng):
    """Null or an integer of any width."""
    if rng.random() < 0.3:
        return None
    return rng.choice((-1, 1)) * rng.getrandbits(rng.randrange(63))


def some_created(rng):
    """An integer, or a finite double as eight bytes, of any width when it is written."""
    if rng.random() < 0.6:
        return "i", rng.choice((-1, 1)) * rng.getrandbits(rng.randrange(63))
    return "f", some_finite(rng)


def some_files(rng, contents):
    """Entries for these contents, under ascending paths."""
    paths = set()
    while len(paths) < len(contents):
        paths.add(some_path(rng))
    return tuple(File(sha256(data), path, len(data), some_mtime(rng))
                 for path, data in zip(sorted(paths), contents))


def some_contents(rng, most=4):
    """The contents of a few files, some of them empty."""
    return [rng.randbytes(rng.choice((0, 1, 23, 24, 55, 64, 300, rng.randrange(100))))
            for _ in range(rng.randrange(1, most + 1))]


def manifest_values(rng, files=None):
    """A good manifest's values."""
    sealed = rng.random() < 0.5
    files = some_files(rng, some_contents(rng)) if files is None else files
    return Manifest(None if sealed else rng.randbytes(32), files, sealed, some_created(rng))


def manifest_payload(manifest):
    """The manifest's bytes, whatever its values."""
    return encode(manifest_pairs(manifest))


def sized_files(target, base):
    """64 entries whose manifest, made like `base`, has exactly `target` bytes."""
    def entries(lengths):
        return tuple(File(bytes(32), b"%02d" % i + b"p" * (length - 2), 0, None)
                     for i, length in enumerate(lengths))

    lengths = [30] * 64
    while True:
        size = len(manifest_payload(base._replace(files=entries(lengths))))
        if size == target:
            return entries(lengths)
        shortest = min(range(64), key=lambda i: lengths[i])
        lengths[shortest] += min(target - size, 200 - lengths[shortest])
