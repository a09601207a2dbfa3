"""Stored calls of the auth, shard, manifest and envelope verbs."""

from ..cases.common import argument, with_byte
from ..cases.listing import manifest_line, with_created
from ..cases.samples import longest, manifest_payload
from ..cases.tokens import joined, split, wide
from ..envelope import envelope_bytes
from ..manifest import File, Manifest
from ..payloads import Auth, Shard, auth_pairs, encode, shard_pairs, without_sig
from ..sums import sha256
from .script import Entry, Section, call, note, title

AUTH_VALUES = Auth(b"\x11" * 32, b"\x22" * 64, b"\x33" * 32)
AUTH_BYTES = encode(auth_pairs(AUTH_VALUES))
SHARD_VALUES = Shard(*AUTH_VALUES, b"passphrase", b"\x44" * 32, 17, 2, 3, 1)
SHARD_BYTES = encode(shard_pairs(SHARD_VALUES))
LONGEST = longest(SHARD_VALUES)
LONGEST_BYTES = encode(shard_pairs(LONGEST))


def items_changed(payload, place, head, contents):
    """A payload with one of its items replaced."""
    items = split(payload)
    return joined(items[:place] + [(head, contents)] + items[place + 1:])


def auth_reading():
    yield from title("Auth payloads (R11.1, D2.7): 157 bytes (R17.2)")
    shown = " ".join(value.hex() for value in AUTH_VALUES)
    yield call("auth-read", AUTH_BYTES, is_=f"0 {shown}")
    yield note("head of the map 18; the input ends 3 (R10.3); bytes after it 3 (R10.2)")
    yield call("auth-read", b"\xa3" + AUTH_BYTES[1:], is_="18")
    yield call("auth-read", b"\xbf" + AUTH_BYTES[1:], is_="18")
    yield from (call("auth-read", AUTH_BYTES[:n], is_="3") for n in (0, 1, 2, 4, 5, 6, 7, 38, 156))
    yield call("auth-read", AUTH_BYTES + b"\0", is_="3")
    yield note("a key of another head or letters 18; cut short 3, whatever its letters (R10.3)")
    yield call("auth-read", AUTH_BYTES.replace(b"cpub", b"dpub"), is_="18")
    yield call("auth-read", AUTH_BYTES.replace(b"cpub", b"cPub"), is_="18")
    yield call("auth-read", b"\xa4cP", is_="3")
    yield note("pub as text, of reserved or indefinite length, with a long head 18, cut 3 (R10.3)")
    for head in (b"\x78\x20", b"\x5c\x20", b"\x5f", b"\x59\x00\x20", b"\x5b" + bytes(7) + b"\x20"):
        yield call("auth-read", items_changed(AUTH_BYTES, 2, head, b"\x11" * 32), is_="18")
    yield call("auth-read", b"\xa4cpub\x59\x00", is_="3")
    yield note("pub of 31 bytes 19 (R11.2), before the input's end (R10.3)")
    yield call("auth-read", b"\xa4cpub\x58\x1f", is_="19")
    yield call("auth-read", b"\xa4cpub\x57", is_="19")
    yield note("version 0, 2, -1 (R10.4) and 256 are 19; 1 with a long head 18; a float 18")
    for item, number in ((b"\x00", "19"), (b"\x02", "19"), (b"\x20", "19"), (b"\x19\x01\x00", "19"),
                         (b"\x18\x01", "18"), (b"\xf9\x3c\x00", "18"), (b"\x18", "3")):
        yield call("auth-read", AUTH_BYTES[:-1] + item, is_=number)


def auth_writing():
    yield note("writing: a wrong length 19 (R11.8), then room 11; 104 bytes get signed (R11.7)")
    yield call("auth-write", *AUTH_VALUES, 157, is_=f"0 {AUTH_BYTES.hex()}")
    yield call("auth-write", *AUTH_VALUES, 156, is_="11")
    yield call("auth-write", b"\x11" * 31, b"\x22" * 64, b"\x33" * 32, 0, is_="19")
    yield call("auth-write", b"\x11" * 32, b"\x22" * 63, b"\x33" * 32, 157, is_="19")
    yield call("auth-write", b"\x11" * 32, b"\x22" * 64, b"", 157, is_="19")
    signed = b"ETHERNITY-AUTH-V1" + encode(without_sig(auth_pairs(AUTH_VALUES)))
    yield call("auth-signed", AUTH_VALUES.pub, AUTH_VALUES.hash, 104, is_=f"0 {signed.hex()}")
    yield call("auth-signed", AUTH_VALUES.pub, AUTH_VALUES.hash, 103, is_="11")
    yield call("auth-signed", b"", AUTH_VALUES.hash, 0, is_="19")


def auth():
    yield from auth_reading()
    yield from auth_writing()


def shard_of(**changes):
    """A shard payload with some values changed."""
    return encode(shard_pairs(SHARD_VALUES._replace(**changes)))


def shard_reading():
    yield from title("Shard payloads (R11.3, D2.8)")
    yield call("shard-read", SHARD_BYTES)
    yield call("shard-read", shard_of(type=b"signing-seed"))
    yield note("type: of another length 19 before its contents, other letters 19, bytes 18 (R11.4)")
    for kind in (b"passphrasf", b"passphrases", b"signing-seee", b""):
        yield call("shard-read", shard_of(type=kind), is_="19")
    yield call("shard-read", SHARD_BYTES.replace(b"jpassphrase", b"Jpassphrase"), is_="18")
    yield call("shard-read", SHARD_BYTES[:SHARD_BYTES.index(b"jpass")] + b"\x6b", is_="19")
    yield note("share 224 passes, 240 is 19 (R3.7, R17.2); length is judged behind it (R11.5)")
    yield call("shard-read", shard_of(share=bytes(224), length=224))
    yield call("shard-read", shard_of(share=bytes(240), length=240), is_="19")
    at = SHARD_BYTES.index(b"flength")
    yield call("shard-read", SHARD_BYTES[:at - 34] + b"\x4f" + bytes(15) + b"flengt", is_="3")
    yield call("shard-read", SHARD_BYTES[:at - 34] + b"\x58\xf0", is_="19")
    for length in (0, 1, 16, 17, 32, 33, 2**64 - 1):
        yield call("shard-read", shard_of(length=length))
    yield call("shard-read", shard_of(share=b"", length=0), is_="19")
    yield note("threshold, share_count, share_index: 1 to 255, none above the count (R11.6)")
    for numbers in ((1, 1, 1), (255, 255, 255), (0, 3, 1), (2, 0, 1), (2, 3, 0), (4, 3, 1),
                    (2, 3, 4), (3, 3, 3), (256, 256, 1), (1, 256, 1), (1, 255, 256)):
        named = dict(zip(("threshold", "count", "index"), numbers))
        yield call("shard-read", shard_of(**named))
    yield note("a threshold above the count is found at the count, before the index (R10.5)")
    cut = shard_of(threshold=4)
    yield call("shard-read", cut[:cut.index(b"kshare_index")], is_="19")
    yield call("shard-read", cut[:cut.index(b"kshare_count")], is_="3")


def unsigned(shard):
    """A shard's values without `sig`."""
    return [value for name, value in shard._asdict().items() if name != "sig"]


def shard_writing():
    size = len(SHARD_BYTES)
    yield note("writing and signing (R11.7): the values in order, then room 11 (R10.7)")
    yield call("shard-write", *SHARD_VALUES, size, is_=f"0 {SHARD_BYTES.hex()}")
    yield call("shard-write", *SHARD_VALUES, size - 1, is_="11")
    signed = b"ETHERNITY-SHARD-V1" + encode(without_sig(shard_pairs(SHARD_VALUES)))
    yield call("shard-signed", *unsigned(SHARD_VALUES), len(signed), is_=f"0 {signed.hex()}")
    yield call("shard-signed", *unsigned(SHARD_VALUES), len(signed) - 1, is_="11")
    for changes in ({"pub": b""}, {"sig": bytes(63)}, {"hash": bytes(33)}, {"type": b"seed"},
                    {"share": bytes(240), "length": 240}, {"share": bytes(31)}, {"length": 0},
                    {"share": b"", "length": 0},
                    {"length": 33}, {"threshold": 0}, {"threshold": 4}, {"count": 256},
                    {"index": 4}, {"index": 2**64 - 1}):
        shard = SHARD_VALUES._replace(**changes)
        yield call("shard-write", *shard, 0, is_="19")
        yield call("shard-signed", *unsigned(shard), 0, is_="11" if "sig" in changes else "19")


def shard_longest():
    yield note("no shard has more than 456 bytes (R11.9), and this one has them; 404 get signed")
    shown = " ".join(map(argument, LONGEST))
    yield call("shard-write", *LONGEST, 456, is_=f"0 {LONGEST_BYTES.hex()}")
    yield call("shard-write", *LONGEST, 455, is_="11")
    yield call("shard-read", LONGEST_BYTES, is_=f"0 {shown}")
    signed = b"ETHERNITY-SHARD-V1" + encode(without_sig(shard_pairs(LONGEST)))
    yield call("shard-signed", *unsigned(LONGEST), 404, is_=f"0 {signed.hex()}")
    yield call("shard-signed", *unsigned(LONGEST), 403, is_="11")
    yield note("one block more is 19, and so is one more byte that is shared: never 9 (R11.9)")
    for changes in ({"share": bytes(240), "length": 240}, {"share": bytes(256), "length": 256},
                    {"length": 225}):
        yield call("shard-write", *LONGEST._replace(**changes), 600, is_="19")


def shard():
    yield from shard_reading()
    yield from shard_writing()
    yield from shard_longest()


FILES = (File(sha256(b"hello"), b"a.txt", 5, None), File(sha256(b""), b"b/c", 0, -7))
UNSEALED = Manifest(b"\x55" * 32, FILES, False, ("i", 1700000000))
SEALED = Manifest(None, FILES, True, ("f", bytes.fromhex("3ff8000000000000")))


def reading(manifest, is_=None):
    """A manifest's bytes, whatever its values, to the reader."""
    return call("manifest-read", manifest_payload(manifest), is_=is_)


def writing(manifest, room, is_=None):
    """A manifest's values to the writer."""
    return Entry(manifest_line(manifest, room), is_)


def one_file(**changes):
    """A manifest of one file with some of its values changed."""
    return UNSEALED._replace(files=(FILES[0]._replace(**changes),))


def dated(manifest, item, is_):
    """A manifest with these bytes for its `created`, to the reader."""
    raw = with_created(manifest_payload(manifest), bytes.fromhex(item))
    return call("manifest-read", raw, is_=is_)


def manifest_floats():
    yield note("created as a half, a single and a double (R13.6): 1.5, 100000.0 and 1.1")
    shown = " ".join(argument(value) for file in FILES for value in file)
    for double, item in (("3ff8000000000000", "f93e00"), ("40f86a0000000000", "fa47c35000"),
                         ("3ff199999999999a", "fb3ff199999999999a")):
        manifest = UNSEALED._replace(created=("f", bytes.fromhex(double)))
        raw = with_created(manifest_payload(UNSEALED), bytes.fromhex(item))
        yield dated(UNSEALED, item, f"0 {UNSEALED.seed.hex()} 0 f{double} 2 {shown}")
        yield writing(manifest, len(raw), is_=f"0 {raw.hex()}")
        yield writing(manifest, len(raw) - 1, is_="11")
    yield note("both zeros, the greatest double and the greatest half pass (R10.8)")
    for double in ("0000000000000000", "8000000000000000", "7fefffffffffffff", "40effc0000000000"):
        manifest = SEALED._replace(created=("f", bytes.fromhex(double)))
        yield reading(manifest)
        yield writing(manifest, 300)


def manifest_float_faults():
    yield note("infinities and NaN are 19 (R10.8), in each width (R10.9), and before room (R10.7)")
    for double in ("7ff0000000000000", "fff0000000000000", "7ff8000000000000"):
        manifest = SEALED._replace(created=("f", bytes.fromhex(double)))
        yield reading(manifest, is_="19")
        yield writing(manifest, 300, is_="19")
        yield writing(manifest, 0, is_="19")
    for item in ("f97c00", "f9fc00", "f97e00", "fa7f800000", "faff800000", "fa7fc00000"):
        yield dated(SEALED, item, "19")
    yield note("longer than need be 18 (R10.9): 1.5 in nine bytes, as every float was once")
    for item in ("fb3ff8000000000000", "fa3fc00000", "fb40f86a0000000000", "fb8000000000000000",
                 "fa00000000"):
        yield dated(SEALED, item, "18")
    yield note("the input ends in a float 3, whatever its bits are (R10.9)")
    raw = manifest_payload(UNSEALED)
    front = raw[:raw.index(b"gcreated") + 8]
    for item in ("f9", "f97c", "fa", "fa7f8000", "fb", "fb7ff0", "fb3ff80000000000"):
        yield call("manifest-read", front + bytes.fromhex(item), is_="3")
    yield note("created as null, as false, as text or as another simple value is 18 (R10.3)")
    for item in ("f6", "f4", "60", "f7", "f820", "fc"):
        yield dated(UNSEALED, item, "18")
    yield note("a float is no mtime and no version: 18 (R13.6, R13.1)")
    place = [contents for _, contents in split(raw)].index(b"mtime") + 1
    yield call("manifest-read", items_changed(raw, place, b"\xf9\x3e\x00", b""), is_="18")
    yield call("manifest-read", raw[:-1] + b"\xf9\x3c\x00", is_="18")


def manifest_values():
    yield from title("Manifests (R13.1): unsealed and sealed, read (D2.9) and written (D2.10)")
    for manifest in (UNSEALED, SEALED):
        raw = manifest_payload(manifest)
        yield reading(manifest)
        yield writing(manifest, len(raw), is_=f"0 {raw.hex()}")
        yield writing(manifest, len(raw) - 1, is_="11")
    yield note("sealed and seed disagree 19; a seed of 31 bytes 19 (R13.3)")
    for seed, sealed in ((None, False), (b"\x55" * 32, True), (b"\x55" * 31, False), (b"", False)):
        yield reading(UNSEALED._replace(seed=seed, sealed=sealed), is_="19")
        yield writing(UNSEALED._replace(seed=seed, sealed=sealed), 0, is_="19")
    yield note("created and mtime at their bounds, and one past (R13.6)")
    for number in (-2**63, 2**63 - 1):
        yield reading(UNSEALED._replace(created=("i", number)))
        yield reading(one_file(mtime=number))
        yield writing(one_file(mtime=number)._replace(created=("i", number)), 300)
    for number in (-2**63 - 1, 2**63):
        yield reading(UNSEALED._replace(created=("i", number)), is_="19")
        yield reading(one_file(mtime=number), is_="19")


def manifest_parts():
    yield note("a part that is empty, `.` or `..` is 20 in any place (R12.2), byte 00 too (R12.3)")
    bad = [b"lists/../../pier", b"a\0", b"\0a", b"a\0b", b"\0", b"a/\0"]
    for part in (b"", b".", b".."):
        bad += [part, part + b"/a", b"a/" + part + b"/a", b"a/" + part, b"\xc3\xa9/" + part]
        bad += [b"p" * (n - 1 - len(part)) + b"/" + part for n in (199, 200, 201)]
    for path in bad:
        yield reading(one_file(path=path), is_="20")
        yield writing(one_file(path=path), 0, is_="20")
    yield note("dots in a name (R12.2), UTF-8 beside a slash and 200 bytes (R3.5) pass")
    for path in (b"..a", b"a..", b"...", b".a", b"a/..a/...", b"\xc3\xa9/\xcb\xbf",
                 b"a/" * 99 + b"bc"):
        manifest = one_file(path=path)
        yield reading(manifest)
        yield writing(manifest, 500, is_=f"0 {manifest_payload(manifest).hex()}")


def manifest_files():
    yield note("a size of 2^32 - 1 passes, 2^32 is 19 (R3.6), a negative one 19 (R10.4)")
    yield reading(one_file(size=2**32 - 1))
    yield reading(one_file(size=2**32), is_="19")
    yield reading(one_file(size=-1), is_="19")
    yield writing(one_file(size=2**32), 0, is_="19")
    yield note("paths: empty, /a, of 201 bytes (R3.5), not UTF-8, U+0300 (R12.1) are 20 (R12.6)")
    for path in (b"", b"/a", b"p" * 201, b"\xff", b"\xc0\x80", b"\xc3", b"\xcc\x80",
                 b"\xed\xa0\x80"):
        yield reading(one_file(path=path), is_="20")
        yield writing(one_file(path=path), 0, is_="20")
    yield note("U+02FF (R12.1), 200 bytes (R3.5) and both lengths of a head pass")
    for path in (b"\xcb\xbf", b"p" * 200, b"p" * 23, b"p" * 24):
        yield reading(one_file(path=path))
        yield writing(one_file(path=path), 500)
    yield from manifest_parts()
    yield note("paths not above the one before: equal, lower, a beginning of it (R12.5)")
    for pair in ((b"a", b"a"), (b"b", b"a"), (b"aa", b"a"), (b"\xc3\xa9", b"z")):
        files = tuple(file._replace(path=path) for file, path in zip(FILES, pair))
        yield reading(UNSEALED._replace(files=files), is_="20")
        yield writing(UNSEALED._replace(files=files), 0, is_="20")
    yield note("lists of 0 and 65 entries 19, of 64 not (R3.4); from 24 on the head has two bytes")
    for count, number in ((0, "19"), (24, None), (64, None), (65, "19")):
        files = tuple(File(bytes(32), b"%02d" % i, 0, None) for i in range(count))
        yield reading(UNSEALED._replace(files=files), is_=number)
        yield writing(UNSEALED._replace(files=files), 8000, is_=number)


def manifest_shape():
    raw = manifest_payload(UNSEALED)
    yield note("the first fault decides (R10.2): path before seal, hash before path (R13.5)")
    yield reading(one_file(path=b"/", size=2**32)._replace(sealed=True), is_="20")
    yield reading(one_file(path=b"/", hash=b"")._replace(sealed=True), is_="19")
    yield note("the list's head not shortest, seed as a list, keys in another order: 18 (R10.1)")
    place = [c for _, c in split(raw)].index(b"files") + 1
    yield call("manifest-read", items_changed(raw, place, wide(4, 2, 1), b""), is_="18")
    yield call("manifest-read", with_byte(raw, 6, 0x98), is_="18")
    items = split(raw)
    yield call("manifest-read", joined(items[:1] + items[3:5] + items[1:3] + items[5:]), is_="18")
    yield note("cut anywhere 3, bytes after it 3 (R10.2)")
    yield from (call("manifest-read", raw[:n], is_="3") for n in (0, 1, 3, 6, 7, 20, len(raw) - 1))
    yield call("manifest-read", raw + b"\0", is_="3")
    yield note("above 16,384 bytes (R3.3) 9 before all else (R13.2); at 16,384 judged as it is")
    yield call("manifest-read", b"\xff" * 16385, is_="9")
    yield call("manifest-read", b"\xff" * 16384, is_="18")


def manifest():
    yield from manifest_values()
    yield from manifest_floats()
    yield from manifest_float_faults()
    yield from manifest_files()
    yield from manifest_shape()


def envelope():
    raw = manifest_payload(UNSEALED)
    whole = envelope_bytes(raw, b"hello")
    yield from title("Envelopes (R14.1, D2.11): two files, `hello` and an empty one")
    yield call("envelope-read", whole, is_=f"0 {raw.hex()} {b'hello'.hex()}")
    yield call("envelope-write", raw, b"hello", len(whole), is_=f"0 {whole.hex()}")
    yield call("envelope-write", raw, b"hello", len(whole) - 1, is_="11")
    yield note("magic 4, version 5 or 7, lengths 7, cut or left over 3 (R14.2)")
    yield call("envelope-read", b"AP" + whole[2:], is_="4")
    yield call("envelope-read", b"AY\x02" + whole[3:], is_="5")
    yield call("envelope-read", b"AY\x81\x00" + whole[3:], is_="7")
    yield call("envelope-read", b"AY\x01\x80\x00" + whole[3:], is_="7")
    yield call("envelope-read", b"AY\x01" + b"\xff" * 9 + b"\x01" + whole[3:], is_="3")
    yield from (call("envelope-read", whole[:n], is_="3") for n in (0, 1, 2, 3, 4, 5, 40, -6, -1))
    yield call("envelope-read", whole + b"\0", is_="3")
    yield note("21 with the file count for the sum, 21 with its place for a digest (R14.3, R2.3)")
    for payload, answer in ((b"hell", "21 2"), (b"hello!", "21 2"), (b"", "21 2"),
                            (b"hellO", "21 0")):
        yield call("envelope-read", envelope_bytes(raw, payload), is_=answer)
        yield call("envelope-write", raw, payload, 0, is_=answer)
    other = UNSEALED._replace(files=(FILES[0], FILES[1]._replace(hash=bytes(32))))
    yield call("envelope-read", envelope_bytes(manifest_payload(other), b"hello"), is_="21 1")
    yield note("the manifest's faults come before those, its size before all (R14.3, R14.4)")
    yield call("envelope-read", envelope_bytes(b"", b"x"), is_="3")
    yield call("envelope-write", raw + b"\0", b"x", 0, is_="3")
    yield call("envelope-read", envelope_bytes(b"\xa5", b"x")[:-1], is_="3")
    bad_path = manifest_payload(one_file(path=b"/"))
    yield call("envelope-read", envelope_bytes(bad_path, b"x"), is_="20")
    climbing = manifest_payload(one_file(path=b"lists/../../pier"))
    yield call("envelope-read", envelope_bytes(climbing, b"hello"), is_="20")
    yield call("envelope-write", climbing, b"hello", 1000, is_="20")
    yield call("envelope-write", manifest_payload(one_file(size=2**32)), b"x", 0, is_="19")
    yield call("envelope-write", b"\xff" * 16385, b"", 0, is_="9")


SECTIONS = [
    Section(["auth-read", "auth-write", "auth-signed"], auth),
    Section(["shard-read", "shard-write", "shard-signed"], shard),
    Section(["manifest-read", "manifest-write"], manifest),
    Section(["envelope-read", "envelope-write"], envelope),
]
