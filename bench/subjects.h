/* What is measured: functions over bytes, by name. One list is linked in. */
#ifndef SUBJECTS_H
#define SUBJECTS_H

#include <stddef.h>
#include <stdint.h>

struct subject {
    const char *name;
    /* writes its answer to out, which has room for it, and says how many bytes that is */
    size_t (*run)(const uint8_t *data, size_t length, uint8_t *out, size_t room);
};

extern const struct subject SUBJECTS[]; /* the last has no name */

#endif
