/* The time that passes in a program's runs. */
#ifndef CLOCK_H
#define CLOCK_H

#include <inttypes.h>
#include <stdint.h>
#include <stdio.h>
#include <stdlib.h>
#include <time.h>

static inline uint64_t nanoseconds(void)
{
    struct timespec now;

    clock_gettime(CLOCK_MONOTONIC, &now);
    return (uint64_t)now.tv_sec * 1000000000 + (uint64_t)now.tv_nsec;
}

/*
 * Said only where it is asked for: to print a number costs instructions by its digits, and the
 * others are counted.
 */
static inline void say_time_since(uint64_t began)
{
    uint64_t took = nanoseconds() - began;

    if (getenv("BENCH_TIME"))
        fprintf(stderr, "nanoseconds %" PRIu64 "\n", took);
}

#endif
