/* Our side of the comparison. */
#include "rattle.h"
#include "subjects.h"

static size_t crc32(const uint8_t *data, size_t length, uint8_t *out, size_t room)
{
    uint32_t sum = speed_crc32(data, length);

    (void)room;
    for (int i = 0; i < 4; i++)
        out[i] = (uint8_t)(sum >> (24 - 8 * i));
    return 4;
}

static size_t sha256(const uint8_t *data, size_t length, uint8_t *out, size_t room)
{
    speed_sha256(data, length, out, room);
    return 32;
}

static size_t blake2b(const uint8_t *data, size_t length, uint8_t *out, size_t room)
{
    speed_blake2b(data, length, out, room);
    return 32;
}

const struct subject SUBJECTS[] = {
    {"crc32", crc32},
    {"sha256", sha256},
    {"blake2b", blake2b},
    {"base64_write", speed_base64_write},
    {"base64_read", speed_base64_read},
    {NULL, NULL},
};
