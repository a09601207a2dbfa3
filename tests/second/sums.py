"""Checksums and digests."""

import hashlib
import zlib


def crc(data):
    """CRC-32/ISO-HDLC as four bytes, big-endian (R6.3)."""
    return zlib.crc32(data).to_bytes(4, "big")


def sha256(data):
    """SHA-256 of FIPS 180-4."""
    return hashlib.sha256(data).digest()


def blake2b(data):
    """Unkeyed BLAKE2b of RFC 7693 with 32-byte output."""
    return hashlib.blake2b(data, digest_size=32).digest()


def doc_id(ciphertext):
    """The document id: the first 8 bytes of BLAKE2b (R7.1)."""
    return blake2b(ciphertext)[:8]
