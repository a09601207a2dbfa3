"""Calls of the manifest and envelope verbs: sections 12, 13 and 14 of docs/RULES.md."""

from itertools import chain, product

from ..cbor import ARRAY
from ..envelope import envelope_bytes
from ..forms import varint_write
from ..manifest import File, Manifest
from .common import Group, damaged, line, rooms, single, some_room, truncations, with_byte
from .floating import LONGER, NOT_FINITE, SHORTEST, double_of, edge_items, some_item
from .samples import (manifest_payload, manifest_values, sized_files, some_contents, some_files)
from .tokens import INTEGERS, all_heads, joined, split, variations

BOUNDS = [-2**63, -2**63 + 1, -2**32 - 1, -2**32, -2**16 - 1, -2**16, -257, -256, -25, -24, -1,
          0, 1, 23, 24, 255, 256, 65535, 65536, 2**32 - 1, 2**32, 2**63 - 2, 2**63 - 1]
DOUBLES = ["0000000000000000", "8000000000000000", "0000000000000001", "000fffffffffffff",
           "0010000000000000", "3ff0000000000000", "3ff8000000000000", "40f86a0000000000",
           "7fefffffffffffff", "ffefffffffffffff", "7ff0000000000000", "fff0000000000000",
           "7ff0000000000001", "7ff8000000000000", "fff8000000000000", "7fffffffffffffff",
           "ffffffffffffffff", "7fe0000000000000", "3ff199999999999a", "c1e0000000000000"]
# Doubles that are halves or singles when they are written, and doubles next to such.
SHORTER = ["3e70000000000000", "3e60000000000000", "3e70000000000001", "3f10000000000000",
           "3f0ff80000000000", "40effc0000000000", "40effe0000000000", "40f0000000000000",
           "c010000000000000", "36a0000000000000", "3690000000000000", "3810000000000000",
           "380fffffc0000000", "47efffffe0000000", "47efffffe0000001", "c7efffffe0000000"]


def manifest_line(manifest, room):
    """A call of manifest-write."""
    entries = [value for entry in manifest.files for value in entry]
    kind, value = manifest.created
    created = kind + (value.hex() if kind == "f" else str(value))
    return line("manifest-write", manifest.seed, int(manifest.sealed), created,
                len(manifest.files), *entries, room)


def both(manifest, room=40000):
    """A manifest's values read and written, where a line can write them."""
    yield line("manifest-read", manifest_payload(manifest))
    yield manifest_line(manifest, room)


def plain(rng):
    """A manifest of one plain file."""
    return manifest_values(rng, (File(bytes(32), b"a", 0, None),))


# Values.


def paths(rng):
    """Paths on both sides of the rules for bytes: UTF-8 and U+0300 (R12.1), 00 (R12.3)."""
    yield from (bytes([byte]) for byte in range(256))
    yield from (b"a" + bytes([byte]) for byte in range(128, 256))
    for lead in range(0xC0, 0xE0):
        yield from (bytes([lead, tail]) for tail in (0x7F, 0x80, 0x9F, 0xA0, 0xBF, 0xC0))
    yield from (chr(c).encode("utf-8") for c in (0x2FF, 0x300, 0x301, 0x7FF, 0x800, 0xFFFF,
                                                  0x10000, 0x10FFFF))
    yield from (b"\xe0\x80\x80", b"\xed\xa0\x80", b"\xf4\x90\x80\x80", b"\xf8\x88\x80\x80\x80",
                b"a\xcb", b"\xcb\xbf/", b"/a", b"//", b"a/", b"a//b", b"../a", b".", b"a\0b",
                b"\xc3\xa9/", b"")
    for length in (23, 24, 25, 198, 199, 200, 201, 202, 255, 256, 257, 1000):  # R3.5
        yield b"p" * length
        yield b"p" * (length - 1) + b"\xff"
        yield b"p" * (length - 2) + "\u00e9".encode("utf-8")
        yield b"p" * (length - 1) + b"\xc3"


def parted_paths():
    """Paths by their parts: one that is no name in every place, and names that look so (R12.2)."""
    yield from (bytes(path) for n in range(7) for path in product(b"/.a", repeat=n))
    names = [b"a", b"..a", b"a..", b"...", b".a", b"\xc3\xa9", b"\xcb\xbf", b"\xc3\xa9.",
             b".\xc3\xa9"]
    bad = [b"", b".", b"..", b"\0", b"a\0", b"\0a", b"\xc3", b"\xa9", b"\xcc\x80"]
    for part, name in product(bad + names, names):
        for parts in ((part,), (part, name), (name, part, name), (name, part),
                      (name, name, part, part), (part, name, part)):
            yield b"/".join(parts)
    # a bad part at the end of a path of 200 bytes, the longest that R3.5 allows
    for length, end in product((199, 200, 201), [b"/" + part for part in bad + names] + [b"\0"]):
        yield b"p" * (length - len(end)) + end
        yield end[1:] + b"/" + b"p" * (length - len(end))


def path_lines(rng):
    """Each path alone (R12.6); pairs and triples in and out of order (R12.5)."""
    good = plain(rng)
    for path in chain(paths(rng), parted_paths()):
        yield from both(good._replace(files=(File(bytes(32), path, 0, None),)))
    names = [b"a", b"a/b", b"a0", b"aa", b"b", b"B", "\u00e9".encode("utf-8"), b"z", b"/z", b"",
             "\u0300".encode("utf-8")]
    for pair in product(names, repeat=2):
        yield from both(good._replace(files=tuple(File(bytes(32), p, 0, None) for p in pair)))
    for triple in product((b"a", b"b", b"c"), repeat=3):
        yield from both(good._replace(files=tuple(File(bytes(32), p, 0, None) for p in triple)))


def count_lines(rng):
    """Lists of 0 to 66 entries (R3.4), of which the desk takes 0 to 65 (D2.10)."""
    good = plain(rng)
    for count in (0, 1, 2, 23, 24, 25, 63, 64, 65, 66, 255, 256):
        files = tuple(File(bytes(32), b"%05d" % i, 0, None) for i in range(count))
        manifest = good._replace(files=files)
        yield line("manifest-read", manifest_payload(manifest))
        if count < 67:
            yield manifest_line(manifest, 30000)
            yield manifest_line(manifest._replace(sealed=not manifest.sealed), 30000)


def list_heads(rng):
    """The head of the list with every number and every width (R10.1, R13.4)."""
    items = split(manifest_payload(plain(rng)))
    place = next(i for i, (head, _) in enumerate(items) if head[0] >> 5 == ARRAY)
    for number in [*INTEGERS, 63, 64, 65]:
        for head in all_heads(ARRAY, number):
            changed = items[:place] + [(head, b"")] + items[place + 1:]
            yield line("manifest-read", joined(changed))


def number_lines(rng):
    """Sizes (R3.6), times (R13.6) and floats (R10.8) at each bound and one past."""
    good = plain(rng)
    entry = good.files[0]
    for size in INTEGERS:
        yield from both(good._replace(files=(entry._replace(size=size),)))
    for mtime in (None, *BOUNDS):
        yield from both(good._replace(files=(entry._replace(mtime=mtime),)))
    for created in BOUNDS:
        yield from both(good._replace(created=("i", created)))
    for double in DOUBLES + SHORTER:
        yield from both(good._replace(created=("f", bytes.fromhex(double))))
    for past in (2**63, 2**63 + 1, 2**64 - 1, -2**63 - 1, -2**64 + 1):
        yield from both(good._replace(files=(entry._replace(mtime=past),)))
        yield from both(good._replace(created=("i", past)))
    for past in (-2**64, 2**64):
        yield manifest_line(good._replace(files=(entry._replace(mtime=past),)), 40000)
    yield line("manifest-read", manifest_payload(good._replace(created=("i", -2**64))))
    for negative in (-1, -24, -25, -2**32, -2**64):
        changed = good._replace(files=(entry._replace(size=negative),))
        yield line("manifest-read", manifest_payload(changed))


def with_created(raw, item):
    """A manifest with these bytes for its `created`; behind it come the key of `version` and 1."""
    items = split(raw)
    return joined(items[:-3] + [(item, b"")] + items[-2:])


def float_lines(rng):
    """Floats as `created`: every width, also too long or not finite (R10.9), and each cut short."""
    raw = manifest_payload(plain(rng))
    for item in edge_items():
        yield line("manifest-read", with_created(raw, item))
    front = joined(split(raw)[:-3])
    for item in map(bytes.fromhex, SHORTEST + LONGER + NOT_FINITE):
        yield line("manifest-read", with_created(raw, item))
        yield from (line("manifest-read", front + cut) for cut in (*truncations(item), item))
        for byte in range(256):
            yield line("manifest-read", with_created(raw, with_byte(item, 0, byte)))
    for double in map(double_of, edge_items()):
        yield manifest_line(plain(rng)._replace(created=("f", double)), 200)


def seal_lines(rng):
    """Seeds of each length against both seals (R13.3), with other faults behind them."""
    good = plain(rng)
    faults = (good, good._replace(files=()), good._replace(created=("f", b"\x7f\xf0" + bytes(6))))
    seeds = (None, b"", bytes(31), bytes(32), bytes(33), bytes(64))
    for manifest, seed, sealed in product(faults, seeds, (False, True)):
        changed = manifest._replace(seed=seed, sealed=sealed)
        yield from both(changed)
        yield manifest_line(changed, 0)


def order_lines(rng):
    """Two faults in one list: the first from the left decides (R10.2, R10.7)."""
    good = plain(rng)
    entry = good.files[0]
    faults = (entry, entry._replace(hash=bytes(31)), entry._replace(path=b"/"),
              entry._replace(size=2**32), entry._replace(hash=b"", path=b""),
              entry._replace(path=b"", size=2**40))
    for one, two in product(faults, repeat=2):
        two = two._replace(path=b"b") if two.path == b"a" else two
        for sealed in (False, True):
            yield from both(good._replace(files=(one, two), sealed=sealed), 0)


def size_lines(rng):
    """Manifests around 16,384 bytes (R3.3), good and bad (R13.2), and every room."""
    for target in (16382, 16383, 16384, 16385, 16386):
        good = manifest_values(rng)
        good = good._replace(files=sized_files(target, good))
        raw = manifest_payload(good)
        yield line("manifest-read", raw)
        yield line("manifest-read", with_byte(raw, 0, 0xA4))
        yield from (manifest_line(good, room) for room in rooms(target))
        yield manifest_line(good._replace(sealed=not good.sealed), target)
    for length in (16383, 16384, 16385, 65536, 120000):
        yield line("manifest-read", b"\xa5" * length)
        yield line("manifest-read", manifest_payload(plain(rng)).ljust(length, b"\0"))
    small = plain(rng)
    yield from (manifest_line(small, room) for room in rooms(len(manifest_payload(small))))


def manifest_edges(rng):
    """The edges of both manifest verbs."""
    sample = manifest_values(rng, some_files(rng, [b"x", b"yy"]))
    sealed = sample._replace(seed=None, sealed=True, created=("f", bytes.fromhex(DOUBLES[5])))
    unsealed = sample._replace(seed=bytes(32), sealed=False, created=("i", -1))
    for manifest in (sealed, unsealed):
        raw = manifest_payload(manifest)
        yield from single(line("manifest-read", bad) for bad in variations(rng, raw))
    for part in (path_lines, count_lines, list_heads, number_lines, float_lines, seal_lines,
                 order_lines, size_lines):
        yield from single(part(rng))


def some_parts(rng):
    """A few short parts, names or not, with slashes between them."""
    part = (lambda: "".join(rng.choices("..a\u00e9", k=rng.choice((0, 1, 1, 2, 2, 3, 5)))))
    path = "/".join(part() for _ in range(rng.choice((1, 2, 2, 3, 5)))).encode("utf-8")
    return path if rng.random() < 0.9 else damaged(rng, path)


def some_fault(rng, manifest):
    """One value of a manifest changed."""
    place = rng.randrange(len(manifest.files))
    entry = manifest.files[place]
    changed = rng.choice((
        entry._replace(hash=damaged(rng, entry.hash)),
        entry._replace(path=damaged(rng, entry.path)),
        entry._replace(path=some_parts(rng)),
        entry._replace(size=rng.choice((2**32 - 1, 2**32, 2**64 - 1))), entry))
    files = manifest.files[:place] + (changed,) + manifest.files[place + 1:]
    if rng.random() < 0.3:
        files = tuple(rng.sample(files, len(files)))
    sealed = manifest.sealed ^ (rng.random() < 0.1)
    return manifest._replace(files=files, sealed=sealed)


def manifest_chance(rng):
    """A call of a manifest verb."""
    manifest = manifest_values(rng)
    if rng.random() < 0.3:
        manifest = some_fault(rng, manifest)
    raw, kind = manifest_payload(manifest), rng.random()
    if kind < 0.1:
        return [line("manifest-read", with_created(raw, some_item(rng)))]
    if kind < 0.7:
        return [line("manifest-read", raw if kind < 0.25 else damaged(rng, raw))]
    return [manifest_line(manifest, some_room(rng, len(raw)))]


# Envelopes.


def some_envelope(rng, most=4):
    """A manifest and the payload that goes with it."""
    contents = some_contents(rng, most)
    manifest = manifest_values(rng, some_files(rng, contents))
    return manifest, b"".join(contents)


def envelope_fields(rng):
    """Each field of an envelope at and past its bounds (R14.1)."""
    manifest, payload = some_envelope(rng)
    raw = manifest_payload(manifest)
    sizes = varint_write(len(raw)), varint_write(len(payload))
    bad_numbers = [b"\x80\x00", b"\x81\x00", b"\xff" * 9 + b"\x02", b"\xff" * 10, b"\x80" * 9]
    for magic in (b"AY", b"AP", b"YA", b"BY", b"\0\0"):
        yield magic + b"\x01" + sizes[0] + raw + sizes[1] + payload
    for version in [varint_write(n) for n in INTEGERS] + bad_numbers:
        yield b"AY" + version + sizes[0] + raw + sizes[1] + payload
    for length in [varint_write(n) for n in (*INTEGERS, len(raw) - 1, len(raw) + 1)] + bad_numbers:
        yield b"AY\x01" + length + raw + sizes[1] + payload
    wrong = (*INTEGERS, max(0, len(payload) - 1), len(payload) + 1)
    for length in [varint_write(n) for n in wrong] + bad_numbers:
        yield b"AY\x01" + sizes[0] + raw + length + payload


def envelope_damage(rng):
    """Every truncation, every byte changed, and bytes behind (R14.2)."""
    manifest, payload = some_envelope(rng, 2)
    raw = envelope_bytes(manifest_payload(manifest), payload)
    yield raw
    yield from truncations(raw)
    yield from (raw + rng.randbytes(more) for more in (1, 4, 100))
    yield from (with_byte(raw, at, raw[at] ^ rng.choice((1, 0x80))) for at in range(len(raw)))


def mismatches(rng):
    """Manifest and payload that do not go together: the sum, then each digest (R14.3)."""
    contents = [b"", b"one", b"", b"three", rng.randbytes(129), b""]
    manifest = manifest_values(rng, some_files(rng, contents))
    payload = b"".join(contents)
    yield manifest, payload
    yield from ((manifest, other) for other in (b"", payload[:-1], payload + b"\0", payload[::-1]))
    for place, entry in enumerate(manifest.files):
        for changed in (entry._replace(hash=with_byte(entry.hash, 31, entry.hash[31] ^ 1)),
                        entry._replace(size=entry.size + 1), entry._replace(size=2**32 - 1),
                        entry._replace(hash=bytes(32), size=entry.size + 7)):
            files = manifest.files[:place] + (changed,) + manifest.files[place + 1:]
            yield manifest._replace(files=files), payload
    for at in range(len(payload)):
        yield manifest, with_byte(payload, at, payload[at] ^ 1)
    huge = tuple(f._replace(size=2**32 - 1) for f in manifest.files)
    yield manifest._replace(files=huge), payload


def faulty(rng):
    """Manifests with a fault of their own, with a right payload and with a wrong one (R14.3)."""
    manifest, payload = some_envelope(rng, 1)
    entry = manifest.files[0]
    faults = [manifest._replace(sealed=not manifest.sealed), manifest._replace(files=()),
              manifest._replace(created=("f", b"\xff" * 8))]
    for changes in ({"hash": bytes(31)}, {"path": b"/a"}, {"path": b""}, {"size": 2**32},
                    {"path": b"a/../../b"}, {"path": b"a/"}, {"path": b"a//b"}, {"path": b"a\0"}):
        faults.append(manifest._replace(files=(entry._replace(**changes),)))
    for bad in faults:
        yield from ((bad, payload), (bad, payload + b"x"))


def large_envelopes(rng):
    """Manifests around 16,384 bytes, payloads around the largest room."""
    for target in (16383, 16384, 16385):
        good = manifest_values(rng)
        good = good._replace(files=sized_files(target, good))
        empty_digest = some_files(rng, [b""])[0].hash
        right = tuple(entry._replace(hash=empty_digest) for entry in good.files)
        yield from ((good, b""), (good._replace(files=right), b""), (good, b"x"))
    for length in (40000, 65000, 65536, 70000):
        contents = [rng.randbytes(length // 2), rng.randbytes(length - length // 2)]
        yield manifest_values(rng, some_files(rng, contents)), b"".join(contents)


def envelope_pair_lines(raw, payload):
    """One manifest with a payload, read and written (R14.4)."""
    whole = envelope_bytes(raw, payload)
    yield line("envelope-read", whole)
    for room in rooms(len(whole)):
        yield line("envelope-write", raw, payload, room)


def envelope_edges(rng):
    """The edges of both envelope verbs."""
    for part in (envelope_fields, envelope_damage):
        yield from single(line("envelope-read", raw) for raw in part(rng))
    for part in (mismatches, faulty, large_envelopes):
        for manifest, payload in part(rng):
            yield from single(envelope_pair_lines(manifest_payload(manifest), payload))
    manifest, payload = some_envelope(rng)
    for item in map(bytes.fromhex, SHORTEST + LONGER + NOT_FINITE):
        raw = with_created(manifest_payload(manifest), item)
        yield from single(envelope_pair_lines(raw, payload))
        yield from single(envelope_pair_lines(raw, payload + b"x"))
    for bad in (b"", b"\xa5", b"x" * 16384, b"x" * 16385, b"x" * 20000):
        yield from single(envelope_pair_lines(bad, b""))
        yield from single(envelope_pair_lines(bad, b"payload"))


def envelope_chance(rng):
    """A call of an envelope verb."""
    manifest, payload = some_envelope(rng)
    if rng.random() < 0.2:
        manifest = some_fault(rng, manifest)
    raw = manifest_payload(manifest)
    if rng.random() < 0.15:
        raw = damaged(rng, raw)
    if rng.random() < 0.15:
        payload = damaged(rng, payload)
    whole, kind = envelope_bytes(raw, payload), rng.random()
    if kind < 0.6:
        return [line("envelope-read", whole if kind < 0.4 else damaged(rng, whole))]
    return [line("envelope-write", raw, payload, some_room(rng, len(whole)))]


EMPTY = Manifest(None, (), True, ("i", 0))

GROUPS = [
    Group(["manifest-read", "manifest-write"], 4,
          [b"manifest-read a0", manifest_line(EMPTY, 100),
           manifest_line(EMPTY._replace(files=(File(bytes(32), b"a", 0, 7),)), 200)],
          manifest_edges, manifest_chance),
    Group(["envelope-read", "envelope-write"], 3,
          [b"envelope-read 415901", b"envelope-write a0 00 100"], envelope_edges, envelope_chance),
]
