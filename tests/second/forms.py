"""Varints and texts: sections 4 and 5 of docs/RULES.md."""

import base64

from .answers import BAD_CHARACTER, BAD_LENGTH, ENDS_OR_LEFT_OVER, VARINT
from .answers import Refusal, refuse_if

# R5.2, R5.3
BASE64 = b"ABCDEFGHIJKLMNOPQRSTUVWXYZabcdefghijklmnopqrstuvwxyz0123456789+/"
ZBASE32 = b"ybndrfg8ejkmcpqxot1uwisza345h769"
RFC_BASE32 = b"ABCDEFGHIJKLMNOPQRSTUVWXYZ234567"

# R5.4
SPACES = bytes(range(0x09, 0x0E)) + b"\x20"
DASH = b"-"

TO_RFC = bytes.maketrans(ZBASE32, RFC_BASE32)
FROM_RFC = bytes.maketrans(RFC_BASE32, ZBASE32)


def varint_length(number):
    """How many bytes hold its bits, seven to a byte; one for zero (R4.2)."""
    return max(1, (number.bit_length() + 6) // 7)


def varint_write(number):
    """Seven bits a byte, the lowest first; the top bit is set in all bytes but the last (R4.1)."""
    last = varint_length(number) - 1
    groups = [number >> 7 * i & 0x7F for i in range(last + 1)]
    return bytes(0x80 | g for g in groups[:last]) + bytes(groups[last:])


def varint_read(data):
    """The varint at the start of data: its value and how many bytes it used.

    7 where the tenth byte would take it to 2^64, whether or not there is more
    input, and where a last byte 00 adds nothing (R4.3); 3 where there is no
    last byte (R4.4).
    """
    for used, byte in enumerate(data[:10], start=1):
        refuse_if(used == 10 and byte > 1, VARINT)
        if byte < 0x80:
            refuse_if(used > 1 and byte == 0, VARINT)
            return varint_value(data[:used]), used
    raise Refusal(ENDS_OR_LEFT_OVER)


def varint_value(form):
    """The number that the seven-bit groups stand for, lowest first (R4.1)."""
    return sum((byte & 0x7F) << 7 * i for i, byte in enumerate(form))


def characters(text, alphabet, skipped):
    """The text without what is skipped (R5.4); 1 for a character not allowed (R5.5)."""
    kept = text.translate(None, delete=skipped)
    refuse_if(kept.translate(None, delete=alphabet), BAD_CHARACTER)
    return kept


def base64_read(text):
    """Base64 without padding (R5.2): 1 before 2 (R5.5); 11 is the desk's `lend`."""
    kept = characters(text, BASE64, SPACES)
    refuse_if(len(kept) % 4 == 1, BAD_LENGTH)  # R5.6
    data = base64.b64decode(kept + b"=" * (-len(kept) % 4), validate=True)
    refuse_if(base64_write(data) != kept, BAD_LENGTH)  # leftover bits not zero (R5.6)
    return data


def base64_write(data):
    """Base64, standard alphabet, no padding (R5.2), no spaces (R5.4)."""
    return base64.b64encode(data).rstrip(b"=")


def zbase32_read(text):
    """z-base-32: RFC 4648's base32 under another alphabet (R5.3): 1 before 2 (R5.5)."""
    kept = characters(text, ZBASE32, SPACES + DASH)
    refuse_if(len(kept) % 8 in (1, 3, 6), BAD_LENGTH)  # R5.6
    padded = kept.translate(TO_RFC) + b"=" * (-len(kept) % 8)
    data = base64.b32decode(padded)
    refuse_if(zbase32_write(data) != kept, BAD_LENGTH)  # leftover bits not zero (R5.6)
    return data


def zbase32_write(data):
    """z-base-32 (R5.3), no padding, no spaces and no dashes (R5.4)."""
    return base64.b32encode(data).rstrip(b"=").translate(FROM_RFC)
