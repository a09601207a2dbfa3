"""The standards, texts and varints by definition, and the examples of the rules."""

import base64
import hashlib
import random

from .. import forms, frames, payloads, sums
from ..cases import collecting, samples
from ..stored import digests
from .common import answer_of, check, same, says


@check
def base64_by_rfc_4648():
    """R5.2, and R5.7 in the first pair."""
    for data, text in ((b"", b""), (b"f", b"Zg"), (b"fo", b"Zm8"), (b"foo", b"Zm9v"),
                       (b"foob", b"Zm9vYg"), (b"fooba", b"Zm9vYmE"), (b"foobar", b"Zm9vYmFy")):
        same(forms.base64_write(data), text)
        same(forms.base64_read(text), data)


@check
def crc_by_its_check_value_and_bit_by_bit():
    """R6.3: the published value, and the register moved bit by bit."""
    same(sums.crc(b"123456789").hex(), "cbf43926")
    rng = random.Random(1)
    for length in range(100):
        data = rng.randbytes(length)
        register = 0xFFFFFFFF
        for byte in data:
            register ^= byte
            for _ in range(8):
                register = register >> 1 ^ (0xEDB88320 if register & 1 else 0)
        same(sums.crc(data), (register ^ 0xFFFFFFFF).to_bytes(4, "big"))


@check
def digests_by_fips_180_4_and_rfc_7693():
    """The published vectors, under R7.1 and R14.3."""
    for data, digest in digests.SHA256.items():
        same(sums.sha256(data).hex(), digest)
    for data, digest in digests.BLAKE2B.items():
        same(sums.blake2b(data).hex(), digest)
    same(hashlib.blake2b(b"abc").hexdigest()[:32], "ba80a53f981c4d0d6a2797b69f12f6e9")


# Texts and varints by definition.


def bits_read(text, alphabet, width):
    """A text by its bits alone: 2 for a tail of a whole character or of set bits."""
    bits = "".join(format(alphabet.index(c), f"0{width}b") for c in text)
    whole = len(bits) // 8 * 8
    if len(bits) - whole >= width or "1" in bits[whole:]:
        return 2, 0
    return 0, bytes(int(bits[i:i + 8], 2) for i in range(0, whole, 8))


@check
def texts_by_their_bits():
    """R5.1 and R5.6, and texts that read back (R1.3)."""
    rng = random.Random(2)
    both = ((forms.base64_read, forms.base64_write, forms.BASE64, 6),
            (forms.zbase32_read, forms.zbase32_write, forms.ZBASE32, 5))
    for reader, writer, alphabet, width in both:
        for count in range(60):
            for _ in range(20):
                text = bytes(rng.choices(alphabet, k=count))
                text = text[:-1] + alphabet[:1] if text and rng.random() < 0.5 else text
                same(answer_of(reader, text), bits_read(text, alphabet, width), text)
            data = rng.randbytes(count)
            same(reader(writer(data)), data)
            same(bits_read(writer(data), alphabet, width), (0, data))


@check
def base64_module_is_not_trusted_with_faults():
    """R5.6 and the padding of R5.2, both of which the module lets pass."""
    base64.b64decode(b"QVB=")  # lenient: leftover bits are not judged there
    same(answer_of(forms.base64_read, b"QVB"), (2, 0))
    same(answer_of(forms.base64_read, b"QVA="), (1, 0))


@check
def varints_by_definition():
    """R4.1 and R4.2 of many numbers, with a byte behind each."""
    rng = random.Random(3)
    numbers = [*range(70000), *(rng.getrandbits(rng.randrange(65)) for _ in range(20000)),
               2**64 - 1, 2**63, 2**63 - 1]
    for number in numbers:
        form = forms.varint_write(number)
        same(forms.varint_read(form + b"\x80"), (number, len(form)))
        same(all(byte >= 128 for byte in form[:-1]) and form[-1] < 128, True)
        same(len(form) == 1 or form[-1] != 0, True)


@check
def what_is_cut_short_and_what_is_too_long():
    """R4.3, R4.4, and the same of a field that is not there whole (R6.4)."""
    same(answer_of(forms.varint_read, b"\xff" * 10), (7, 0))
    same(answer_of(forms.varint_read, b"\xff" * 9), (3, 0))
    same(answer_of(frames.frame_read, b"\x42"), (3, 0))


# The examples of the rules.


@check
def proved_examples():
    """P1 to P12 (R17.1), and the lengths of texts (R17.2)."""
    says("varint-write 0 1", "0 00")
    says("varint-write 127 1", "0 7f")
    says("varint-write 128 2", "0 8001")
    says("varint-write 300 2", "0 ac02")
    says("varint-read 8000", "7")
    same(forms.base64_write(b"AP"), b"QVA")
    same(answer_of(forms.base64_read, b"QVB"), (2, 0))
    same(forms.zbase32_write(b"AP"), b"efey")
    same(forms.zbase32_write(b"\xff"), b"9h")
    same(answer_of(forms.zbase32_read, b"99"), (2, 0))
    same(len(collecting.page(0, 1, b"")), 19)
    same(len(frames.page_write(bytes(480), 480, 0, 500)), 500)
    same((len(forms.base64_write(bytes(500))), len(forms.zbase32_write(bytes(500)))), (667, 800))


@check
def run_examples():
    """The others of R17.2; 224 and 240 bytes are on each side of R3.7."""
    rng = random.Random(4)
    auth = samples.auth_values(rng)
    same(len(payloads.auth_write(auth, 157)), 157)
    same(len(payloads.auth_signed(auth, 104)), 104)
    same(answer_of(frames.frame_read, collecting.page(95, 96, b""))[0], 0)
    same(answer_of(frames.frame_read, collecting.page(0, 97, b"")), (9, 0))
    same(answer_of(frames.frame_read, collecting.page(1, 1, b"")), (8, 0))
    same(answer_of(frames.frame_read, collecting.page(0, 1, bytes(481))), (9, 0))
    for share, number in ((224, 0), (240, 19)):
        shard = samples.shard_values(rng)._replace(share=bytes(share), length=share)
        same(answer_of(payloads.shard_write, shard, 480)[0], number)
        raw = payloads.encode(payloads.shard_pairs(shard))
        same(answer_of(payloads.shard_read, raw)[0], number)
