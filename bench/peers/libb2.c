/* libb2's BLAKE2b. */
#include <blake2.h>

#include "../subjects.h"

static size_t digest(const uint8_t *data, size_t length, uint8_t *out, size_t room)
{
    (void)room;
    blake2b(out, data, NULL, 32, length, 0);
    return 32;
}

const struct subject SUBJECTS[] = {
    {"blake2b", digest},
    {NULL, NULL},
};
