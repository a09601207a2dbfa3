/*
 * functions NAME repeat FILE TIMES   runs one function over the file's bytes, so often
 * functions NAME list FILE           prints its answer for each input in the file, a line of hex
 *
 * In a list each input stands behind its length, four bytes, lowest first. The program is linked
 * with one list of subjects: the plain ones, ours, or those of one library. With BENCH_TIME in its
 * environment it says on standard error how long the runs took.
 */
#include <stdio.h>
#include <stdlib.h>
#include <string.h>

#include "clock.h"
#include "subjects.h"

static const struct subject *named(const char *name)
{
    for (const struct subject *s = SUBJECTS; s->name; s++)
        if (strcmp(s->name, name) == 0)
            return s;
    return NULL;
}

static void *memory(size_t size)
{
    void *p = malloc(size ? size : 1);

    if (!p)
        exit(3);
    return p;
}

/* The longest answer is a text with padding and a zero behind it. */
static size_t room_for(size_t length)
{
    return 2 * length + 64;
}

static void repeat(const struct subject *s, FILE *file, size_t times)
{
    fseek(file, 0, SEEK_END);
    size_t length = (size_t)ftell(file);
    size_t room = room_for(length);
    uint8_t *data = memory(length), *out = memory(room);

    rewind(file);
    if (fread(data, 1, length, file) != length)
        exit(3);
    uint64_t began = nanoseconds();
    for (size_t i = 0; i < times; i++)
        s->run(data, length, out, room);
    say_time_since(began);
}

static void show(const uint8_t *bytes, size_t count)
{
    for (size_t i = 0; i < count; i++)
        printf("%02x", bytes[i]);
    printf("\n");
}

/* Each input in memory of exactly its size, so that valgrind sees an overrun. */
static void list(const struct subject *s, FILE *file)
{
    uint8_t front[4];

    while (fread(front, 1, 4, file) == 4) {
        size_t length = front[0] | (size_t)front[1] << 8 | (size_t)front[2] << 16 | (size_t)front[3] << 24;
        size_t room = room_for(length);
        uint8_t *data = memory(length), *out = memory(room);

        if (fread(data, 1, length, file) != length)
            exit(3);
        show(out, s->run(data, length, out, room));
        free(data);
        free(out);
    }
}

int main(int count, char **words)
{
    const struct subject *s = count > 3 ? named(words[1]) : NULL;
    FILE *file = s ? fopen(words[3], "rb") : NULL;

    if (file && count == 5 && strcmp(words[2], "repeat") == 0)
        repeat(s, file, strtoull(words[4], NULL, 10));
    else if (file && count == 4 && strcmp(words[2], "list") == 0)
        list(s, file);
    else
        return 2;
    return 0;
}
