/* What main.c and texts.c have in common: what is expected, and buffers with margins. */
#ifndef EXPECT_H
#define EXPECT_H

#include <stdio.h>
#include <stdlib.h>
#include <string.h>

#include "stiltbasket.h"

static int failed;

#define EXPECT(condition)                                                     \
    do {                                                                      \
        if (!(condition)) {                                                   \
            printf("FAILED  line %d: %s\n", __LINE__, #condition);            \
            failed++;                                                         \
        }                                                                     \
    } while (0)

#define FILL 0xA5

/* A buffer with a margin on each side, so that a write outside is seen (R1.1). */
struct lent {
    uint8_t before[64];
    uint8_t bytes[STILT_COLLECTION_SIZE];
    uint8_t after[64];
};

static inline int all(const uint8_t *bytes, size_t n, uint8_t value)
{
    for (size_t i = 0; i < n; i++)
        if (bytes[i] != value)
            return 0;
    return 1;
}

static inline void fill(struct lent *l)
{
    memset(l, FILL, sizeof *l);
}

static inline int margins(const struct lent *l)
{
    return all(l->before, sizeof l->before, FILL) && all(l->after, sizeof l->after, FILL);
}

/* The exit status, at the end. */
static inline int verdict(void)
{
    if (failed)
        printf("%d expectations failed\n", failed);
    else
        puts("every expectation holds");
    return failed ? EXIT_FAILURE : EXIT_SUCCESS;
}

#endif
