/* CRC-32/ISO-HDLC, a byte at a time by a table, and bit by bit as the standard says it. */
#include "plain.h"

static uint32_t bits(uint32_t c, int count)
{
    for (int step = 0; step < count; step++)
        c = (c >> 1) ^ (0xEDB88320 & -(c & 1));
    return c;
}

static void big_endian(uint32_t n, uint8_t out[4])
{
    for (int i = 0; i < 4; i++)
        out[i] = (uint8_t)(n >> (24 - 8 * i));
}

void plain_crc32(const uint8_t *data, size_t length, uint8_t out[4])
{
    static uint32_t table[256];
    uint32_t c = 0xFFFFFFFF;

    if (!table[1])
        for (uint32_t k = 0; k < 256; k++)
            table[k] = bits(k, 8);
    for (size_t i = 0; i < length; i++)
        c = (c >> 8) ^ table[(c ^ data[i]) & 0xFF];
    big_endian(c ^ 0xFFFFFFFF, out);
}

void plain_crc32_bits(const uint8_t *data, size_t length, uint8_t out[4])
{
    uint32_t c = 0xFFFFFFFF;

    for (size_t i = 0; i < length; i++)
        c = bits(c ^ data[i], 8);
    big_endian(c ^ 0xFFFFFFFF, out);
}
