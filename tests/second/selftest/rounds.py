"""Round trips, and writers against readers: payloads, frames, envelopes, paths."""

import posixpath
import random
from itertools import product

from .. import cases, envelope, floats, frames, manifest, payloads, sums
from ..cases import samples
from ..cases.common import damaged
from .common import answer_of, check, same


@check
def round_trips_of_payloads():
    """R1.3: what is written reads back."""
    rng = random.Random(5)
    for _ in range(300):
        auth, shard = samples.auth_values(rng), samples.shard_values(rng)
        same(payloads.auth_read(payloads.auth_write(auth, 480)), auth)
        same(payloads.shard_read(payloads.shard_write(shard, 480)), shard)
        whole = samples.manifest_values(rng)
        same(manifest.manifest_read(manifest.manifest_write(whole, 16384)), whole)


@check
def round_trips_of_frames_and_envelopes():
    """R1.3, and the parts of R7.2 under the frames of R7.3."""
    rng = random.Random(6)
    for _ in range(300):
        size, pages = rng.randrange(1, 481), rng.randrange(1, 97)
        text = rng.randbytes(max(1, size * pages - rng.randrange(size)))
        read = [frames.frame_read(frames.page_write(text, size, i, 500)) for i in range(pages)]
        same(b"".join(frame.data for frame in read), text)
        same({(f.type, f.id, f.total) for f in read}, {(0x44, sums.doc_id(text), pages)})
        contents = samples.some_contents(rng)
        files = samples.some_files(rng, contents)
        raw = samples.manifest_payload(samples.manifest_values(rng, files))
        whole = envelope.envelope_write(raw, b"".join(contents), 65536)
        same(envelope.envelope_read(whole), (raw, b"".join(contents)))


@check
def what_is_read_is_what_is_written():
    """Damaged payloads that are still accepted are written back byte for byte (R1.3)."""
    rng = random.Random(7)
    kept = 0
    for _ in range(20000):
        raw = damaged(rng, samples.auth_payload(rng))
        number, value = answer_of(payloads.auth_read, raw)
        if number == 0:
            kept += 1
            same(payloads.auth_write(value, 480), raw)
    same(kept > 100, True)


@check
def writers_judge_as_readers_do():
    """The values laid out without judging and read: the same first refusal (R10.7)."""
    rng = random.Random(8)
    for _ in range(4000):
        shard = cases.paying.some_other(rng, samples.shard_values(rng))
        raw = payloads.encode(payloads.shard_pairs(shard))
        same(answer_of(payloads.shard_write, shard, 480)[0], answer_of(payloads.shard_read, raw)[0])
        whole = cases.listing.some_fault(rng, samples.manifest_values(rng))
        raw = samples.manifest_payload(whole)
        same(answer_of(manifest.manifest_write, whole, 65536)[0],
             answer_of(manifest.manifest_read, raw)[0], whole)


@check
def bounds_of_manifests():
    """Values on each side of every bound of a manifest, read and written."""
    rng = random.Random(13)
    plain = samples.manifest_values(rng)
    entry = plain.files[0]

    def judged(whole):
        """What writer and reader say of the same values."""
        numbers = {answer_of(manifest.manifest_write, whole, 65536)[0],
                   answer_of(manifest.manifest_read, samples.manifest_payload(whole))[0]}
        same(len(numbers), 1)
        return numbers.pop()

    for length, number in ((0, 20), (1, 0), (200, 0), (201, 20)):  # R3.5
        same(judged(plain._replace(files=(entry._replace(path=b"p" * length),))), number)
    # names and what is none (R12.2), and byte 00 (R12.3)
    for path, number in ((b"lists/../../pier", 20), (b"..", 20), (b"a/.", 20), (b"a/", 20),
                         (b"/a", 20), (b"a//a", 20), (b"a\0", 20), (b"..a", 0), (b"a..", 0),
                         (b"...", 0), (b".a", 0)):
        same(judged(plain._replace(files=(entry._replace(path=path),))), number)
    for count, number in ((0, 19), (1, 0), (64, 0), (65, 19)):  # R3.4
        files = tuple(entry._replace(path=b"%02d" % i) for i in range(count))
        same(judged(plain._replace(files=files)), number)
    for value, number in ((-2**63 - 1, 19), (-2**63, 0), (2**63 - 1, 0), (2**63, 19)):  # R13.6
        same(judged(plain._replace(created=("i", value))), number)
        same(judged(plain._replace(files=(entry._replace(mtime=value),))), number)
    for bits, number in (("3ff8000000000000", 0), ("7fefffffffffffff", 0),  # R10.8
                         ("7ff0000000000000", 19), ("fff8000000000000", 19)):
        same(judged(plain._replace(created=("f", bytes.fromhex(bits)))), number)
    for size, number in ((-1, 19), (0, 0), (2**32 - 1, 0), (2**32, 19)):  # R3.6
        same(judged(plain._replace(files=(entry._replace(size=size),))), number)
    for target, number in ((16383, 0), (16384, 0), (16385, 9)):  # R3.3
        same(judged(plain._replace(files=samples.sized_files(target, plain))), number)


@check
def a_float_alone_and_in_a_manifest():
    """R13.6: `created` is judged as the same item is alone (R10.9), and reads as the same value."""
    rng = random.Random(18)
    whole = samples.manifest_payload(samples.manifest_values(rng))
    answers = set()
    chance = [cases.floating.some_item(rng) for _ in range(5000)]
    for item in cases.floating.edge_items() + chance:
        number, value = answer_of(floats.float_read, item)
        raw = cases.listing.with_created(whole, item)
        due = (number, ("f", value[0])) if number == 0 else (number, 0)
        same(answer_of(lambda: manifest.manifest_read(raw).created), due, item.hex())
        answers.add(number)
    same(answers, {0, 18, 19})


@check
def paths_stay_where_a_system_puts_them():
    """R12.4: of slashes, dots and letters those are allowed that a system leaves as they stand."""
    for length in range(9):
        for path in map(bytes, product(b"/.a", repeat=length)):
            below = b"/folder/" + path
            same(manifest.path_allowed(path), posixpath.normpath(below) == below, path)


@check
def bounds_of_shards():
    """Values on each side of every bound of a shard (R11.5, R11.6), read and written."""
    rng = random.Random(14)
    plain = samples.shard_values(rng)

    def judged(**changes):
        """What writer and reader say of the same values."""
        shard = plain._replace(**changes)
        raw = payloads.encode(payloads.shard_pairs(shard))
        numbers = {answer_of(payloads.shard_write, shard, 480)[0],
                   answer_of(payloads.shard_read, raw)[0]}
        same(len(numbers), 1)
        return numbers.pop()

    for share, length, number in ((0, 0, 19), (16, 0, 19), (16, 1, 0), (16, 16, 0), (16, 17, 19),
                                  (15, 15, 19), (32, 17, 0), (224, 209, 0), (224, 224, 0),
                                  (240, 225, 19), (224, 225, 19), (0, 1, 19)):
        same(judged(share=bytes(share), length=length), number, share, length)
    for numbers, number in (((1, 1, 1), 0), ((255, 255, 255), 0), ((0, 1, 1), 19), ((1, 0, 0), 19),
                            ((1, 1, 0), 19), ((2, 1, 1), 19), ((1, 1, 2), 19), ((1, 256, 1), 19)):
        same(judged(**dict(zip(("threshold", "count", "index"), numbers))), number, numbers)


@check
def no_shard_overflows():
    """R11.9: of all lengths of what is shared, both types, and numbers on each side of a longer
    head, the longest payload has 456 bytes.
    """
    rng = random.Random(15)
    plain = samples.shard_values(rng)
    sizes = set()
    for length, kind, count in product(range(1, 225), payloads.TYPES, (1, 23, 24, 255)):
        for threshold, index in product({1, min(23, count), count}, repeat=2):
            shard = plain._replace(type=kind, share=bytes(payloads.padded(length)), length=length,
                                   threshold=threshold, count=count, index=index)
            sizes.add(len(payloads.shard_write(shard, 456)))
    same(max(sizes), 456)
    same(len(samples.longest_payload(rng)), 456)
    same(answer_of(frames.key_write, bytes(8), samples.longest_payload(rng), 476)[0], 0)
