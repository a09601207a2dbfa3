"""Calls of the sums and digests."""

from .common import BLOCK_EDGES, Group, line, some_bytes, some_length

LONGER = [511, 512, 513, 1000, 1023, 1024, 1025, 4095, 4096, 4097, 65535, 65536, 65537, 131000]


def edges_of(verb):
    """Every length to 300, the longer ones, and plain patterns at block edges (D2.3)."""
    def edges(rng):
        for length in [*range(301), *LONGER]:
            yield [line(verb, rng.randbytes(length))]
        for length in BLOCK_EDGES:
            for byte in (0x00, 0x01, 0x80, 0xFF):
                yield [line(verb, bytes([byte]) * length)]
    return edges


def one_bit(rng, length):
    """Zeros with a single bit set."""
    bit = rng.randrange(8 * length) if length else 0
    return (1 << bit).to_bytes(length, "big") if length else b""


def chance_of(verb):
    """Random bytes, patterns, or one bit."""
    def chance(rng):
        length = some_length(rng, 1500)
        make = one_bit if rng.random() < 0.2 else some_bytes
        return [line(verb, make(rng, length))]
    return chance


GROUPS = [Group([verb], 1, [line(verb, b"abc")], edges_of(verb), chance_of(verb))
          for verb in ("crc", "sha256", "blake2b", "doc-id")]
