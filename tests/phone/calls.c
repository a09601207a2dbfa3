/*
 * Makes the calls that tests/phone/calls writes to standard input, and prints for each its answer
 * and the CRC-32 of what it was lent, as that is then. It knows nothing of what is right.
 *
 * A call is a byte that says which function, and its two slices; numbers have four bytes, the
 * lowest first. A slice is a letter and a length, and it lies
 *     n  nowhere: null
 *     r  in a register, whose number follows: collections stay there, so that a call is short
 *     b  in bytes that follow
 *     o  in fresh bytes, all FILL
 * The byte FLIP is followed by a register, a place in it and a byte, which is xored into that
 * place.
 */
#include <stdint.h>
#include <stdio.h>
#include <stdlib.h>
#include <string.h>

#include "stiltbasket.h"

#define FILL 0xA5
#define FLIP 255
#define REGISTERS 6
#define MARGIN 64
#define MOST 131072

/*
 * Beside each slice is a margin, and the sum is taken of both: so a write outside is seen (R1.1).
 */
struct lent {
    uint8_t *bytes;
    size_t len;
    const uint8_t *summed;
    size_t summed_len;
};

static uint8_t registers[REGISTERS][STILT_COLLECTION_SIZE + MARGIN];
static uint8_t fresh[2][MARGIN + MOST + MARGIN];
static uint32_t table[256];

static void make_table(void)
{
    for (uint32_t byte = 0; byte < 256; byte++) {
        uint32_t sum = byte;
        for (int bit = 0; bit < 8; bit++)
            sum = sum & 1 ? sum >> 1 ^ 0xEDB88320 : sum >> 1;
        table[byte] = sum;
    }
}

/* The CRC-32 of what had this one so far, and of these bytes behind it. */
static uint32_t crc32(uint32_t so_far, const uint8_t *bytes, size_t len)
{
    uint32_t sum = ~so_far;
    for (size_t i = 0; i < len; i++)
        sum = sum >> 8 ^ table[(sum ^ bytes[i]) & 0xFF];
    return ~sum;
}

static void take(void *bytes, size_t len)
{
    if (len > 0 && fread(bytes, len, 1, stdin) != 1) {
        fprintf(stderr, "the calls end inside one\n");
        exit(EXIT_FAILURE);
    }
}

static uint8_t take_byte(void)
{
    uint8_t byte;
    take(&byte, 1);
    return byte;
}

/* Both Arm and x86-64 have the lowest byte first. */
static uint32_t take_number(uint32_t below)
{
    uint32_t number;
    take(&number, sizeof number);
    if (number >= below) {
        fprintf(stderr, "a number of a call is too large\n");
        exit(EXIT_FAILURE);
    }
    return number;
}

static struct lent take_slice(int which)
{
    struct lent slice = {NULL, 0, NULL, 0};
    uint8_t kind = take_byte();
    slice.len = take_number(MOST + 1);
    if (kind == 'r') {
        slice.bytes = registers[take_number(REGISTERS)];
        slice.summed = slice.bytes;
        slice.summed_len = sizeof registers[0];
    } else if (kind != 'n') {
        slice.bytes = fresh[which] + MARGIN;
        slice.summed = fresh[which];
        slice.summed_len = MARGIN + slice.len + MARGIN;
        memset(fresh[which], FILL, slice.summed_len);
        if (kind == 'b')
            take(slice.bytes, slice.len);
    }
    return slice;
}

static void flip(void)
{
    uint8_t *bytes = registers[take_number(REGISTERS)];
    uint8_t *byte = bytes + take_number(STILT_COLLECTION_SIZE);
    *byte ^= take_byte();
}

static void make_call(uint8_t which)
{
    struct lent a = take_slice(0), b = take_slice(1);
    uint64_t answer = 0;
    uint32_t sum;
    switch (which) {
    case 0: answer = stilt_open(a.bytes, a.len, b.bytes, b.len); break;
    case 1: answer = stilt_offer(a.bytes, a.len, b.bytes, b.len); break;
    case 2: answer = stilt_join(a.bytes, a.len, b.bytes, b.len); break;
    case 3: answer = stilt_finish(a.bytes, a.len, b.bytes, b.len); break;
    case 4: answer = stilt_status(a.bytes, a.len, b.bytes, b.len); break;
    case 5: answer = stilt_frame(a.bytes, a.len, b.bytes, b.len); break;
    case 6: answer = stilt_base64((const char *)a.bytes, a.len, b.bytes, b.len); break;
    case 7: answer = stilt_typed((const char *)a.bytes, a.len, b.bytes, b.len); break;
    default: fprintf(stderr, "no such function\n"); exit(EXIT_FAILURE);
    }
    sum = crc32(crc32(0, a.summed, a.summed_len), b.summed, b.summed_len);
    printf("%llx %lx\n", (unsigned long long)answer, (unsigned long)sum);
}

int main(void)
{
    make_table();
    memset(registers, FILL, sizeof registers);
    for (int which; (which = getchar()) != EOF;) {
        if (which == FLIP)
            flip();
        else
            make_call((uint8_t)which);
    }
    return EXIT_SUCCESS;
}
