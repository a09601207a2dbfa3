/*
 * Base64 without padding: three bytes at a time are written, and a text is gone through once to
 * judge it and once to read it.
 */
#include "plain.h"

static const char LETTERS[] = "ABCDEFGHIJKLMNOPQRSTUVWXYZabcdefghijklmnopqrstuvwxyz0123456789+/";

enum { SPACE = 65 };

/* A letter's value plus 1; 0 for a character that is not allowed. */
static const uint8_t VALUES[256] = {
    ['A'] = 1, ['B'] = 2, ['C'] = 3, ['D'] = 4, ['E'] = 5, ['F'] = 6, ['G'] = 7, ['H'] = 8,
    ['I'] = 9, ['J'] = 10, ['K'] = 11, ['L'] = 12, ['M'] = 13, ['N'] = 14, ['O'] = 15, ['P'] = 16,
    ['Q'] = 17, ['R'] = 18, ['S'] = 19, ['T'] = 20, ['U'] = 21, ['V'] = 22, ['W'] = 23, ['X'] = 24,
    ['Y'] = 25, ['Z'] = 26, ['a'] = 27, ['b'] = 28, ['c'] = 29, ['d'] = 30, ['e'] = 31, ['f'] = 32,
    ['g'] = 33, ['h'] = 34, ['i'] = 35, ['j'] = 36, ['k'] = 37, ['l'] = 38, ['m'] = 39, ['n'] = 40,
    ['o'] = 41, ['p'] = 42, ['q'] = 43, ['r'] = 44, ['s'] = 45, ['t'] = 46, ['u'] = 47, ['v'] = 48,
    ['w'] = 49, ['x'] = 50, ['y'] = 51, ['z'] = 52, ['0'] = 53, ['1'] = 54, ['2'] = 55, ['3'] = 56,
    ['4'] = 57, ['5'] = 58, ['6'] = 59, ['7'] = 60, ['8'] = 61, ['9'] = 62, ['+'] = 63, ['/'] = 64,
    ['\t'] = SPACE, ['\n'] = SPACE, ['\v'] = SPACE, ['\f'] = SPACE, ['\r'] = SPACE, [' '] = SPACE,
};

/* The first characters of 24 bits. */
static size_t letters(uint32_t bits, size_t count, uint8_t *out)
{
    for (size_t i = 0; i < count; i++)
        out[i] = (uint8_t)LETTERS[bits >> (18 - 6 * i) & 63];
    return count;
}

size_t plain_base64_write(const uint8_t *data, size_t length, uint8_t *out, size_t room)
{
    size_t at = 0, made = 0;

    if (room < length / 3 * 4 + (length % 3 ? length % 3 + 1 : 0))
        return 0;
    for (; length - at >= 3; at += 3)
        made += letters((uint32_t)data[at] << 16 | (uint32_t)data[at + 1] << 8 | data[at + 2], 4, out + made);
    if (length - at == 2)
        made += letters((uint32_t)data[at] << 16 | (uint32_t)data[at + 1] << 8, 3, out + made);
    if (length - at == 1)
        made += letters((uint32_t)data[at] << 16, 2, out + made);
    return made;
}

/* Whether it is a text that fits, and how many bytes it has. */
static int judge(const uint8_t *text, size_t length, size_t room, size_t *made)
{
    size_t count = 0;
    uint32_t last = 0;

    for (size_t i = 0; i < length; i++) {
        uint8_t v = VALUES[text[i]];

        if (v == 0)
            return 0;
        if (v == SPACE)
            continue;
        last = v - 1;
        count++;
    }
    *made = count * 6 / 8;
    if (count % 4 == 1 || (count % 4 == 2 && last & 15) || (count % 4 == 3 && last & 3))
        return 0;
    return *made <= room;
}

size_t plain_base64_read(const uint8_t *text, size_t length, uint8_t *out, size_t room)
{
    size_t made, at = 0;
    uint32_t bits = 0;
    int count = 0;

    if (!judge(text, length, room, &made))
        return 0;
    for (size_t i = 0; i < length; i++) {
        uint8_t v = VALUES[text[i]];

        if (v == SPACE)
            continue;
        bits = bits << 6 | (v - 1u);
        count += 6;
        if (count >= 8) {
            count -= 8;
            out[at++] = (uint8_t)(bits >> count);
        }
    }
    return made;
}
