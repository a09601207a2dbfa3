/* The plain side of the comparison. */
#include "../subjects.h"
#include "plain.h"

static size_t crc32(const uint8_t *data, size_t length, uint8_t *out, size_t room)
{
    (void)room;
    plain_crc32(data, length, out);
    return 4;
}

static size_t crc32_bits(const uint8_t *data, size_t length, uint8_t *out, size_t room)
{
    (void)room;
    plain_crc32_bits(data, length, out);
    return 4;
}

static size_t sha256(const uint8_t *data, size_t length, uint8_t *out, size_t room)
{
    (void)room;
    plain_sha256(data, length, out);
    return 32;
}

static size_t blake2b(const uint8_t *data, size_t length, uint8_t *out, size_t room)
{
    (void)room;
    plain_blake2b(data, length, out);
    return 32;
}

const struct subject SUBJECTS[] = {
    {"crc32", crc32},
    {"crc32_bits", crc32_bits},
    {"sha256", sha256},
    {"blake2b", blake2b},
    {"base64_write", plain_base64_write},
    {"base64_read", plain_base64_read},
    {NULL, NULL},
};
