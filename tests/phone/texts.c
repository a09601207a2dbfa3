/*
 * The two of the phone's functions that read a text: stilt_base64, of a code square, and
 * stilt_typed, of a page that was typed. Every byte that a call is lent is compared afterwards
 * (R1.2). tests/phone/make has the texts from the second program; those that stand here are made by
 * hand from the rules. C99, C11 and C++17 at once.
 */
#include <string.h>

#include "stiltbasket.h"
#include "pages.h"
#include "expect.h"

typedef uint64_t reads(const char *text, size_t text_len, uint8_t *out, size_t out_len);

enum { LINE = 43, TYPED = STILT_LINES * LINE - 1 }; /* a full line and its line feed; a page */

/* The bytes of a text, in just enough room and in more (R16.5, R16.6). */
static void text_is(reads *read, const char *text, size_t len, const uint8_t *bytes, size_t count)
{
    static struct lent out;
    const size_t rooms[] = {count, sizeof out.bytes};
    for (size_t i = 0; i < 2; i++) {
        fill(&out);
        EXPECT(read(text, len, out.bytes, rooms[i]) == (uint64_t)count << 16);
        EXPECT(memcmp(out.bytes, bytes, count) == 0);
        EXPECT(all(out.bytes + count, sizeof out.bytes - count, FILL) && margins(&out));
    }
}

static void text_refused(reads *read, const char *text, size_t len, size_t room, unsigned answer)
{
    static struct lent out;
    fill(&out);
    EXPECT(read(text, len, out.bytes, room) == answer);
    EXPECT(all((const uint8_t *)&out, sizeof out, FILL));
}

/* 1, then 2, then 11 (R5.5). The largest frame and its text are as long as the header says. */
static void base64(void)
{
    size_t len = strlen(PAGE_0_TEXT);
    EXPECT(PAGES[0].len == STILT_FRAME_MOST && len == 667);
    text_is(stilt_base64, PAGE_0_TEXT, len, PAGES[0].bytes, PAGES[0].len);
    text_is(stilt_base64, PAGE_0_SPACED, strlen(PAGE_0_SPACED), PAGES[0].bytes, PAGES[0].len);
    text_is(stilt_base64, "QVA", 3, (const uint8_t *)"AP", 2);
    text_is(stilt_base64, " \t\n\v\f\r", 6, (const uint8_t *)"", 0);
    text_refused(stilt_base64, "QVA=", 4, 10, STILT_E_CHARACTER);
    text_refused(stilt_base64, "QV-_", 4, 10, STILT_E_CHARACTER);
    text_refused(stilt_base64, "QVBB=", 5, 0, STILT_E_CHARACTER);
    text_refused(stilt_base64, "QV\0B", 4, 10, STILT_E_CHARACTER);
    text_refused(stilt_base64, "QVBBQ", 5, 0, STILT_E_LENGTH);
    text_refused(stilt_base64, "QVB", 3, 0, STILT_E_LENGTH);
    text_refused(stilt_base64, PAGE_0_TEXT, len - 2, STILT_FRAME_MOST, STILT_E_LENGTH);
    text_refused(stilt_base64, PAGE_0_TEXT, len, PAGES[0].len - 1, STILT_E_ROOM);
    EXPECT(stilt_base64(PAGE_0_TEXT, len, NULL, 0) == STILT_E_ROOM);
    EXPECT(stilt_base64(NULL, 0, NULL, 0) == 0);
}

/* The page in groups of six, with what is skipped between them (R5.11): its length. */
static size_t grouped(char *out)
{
    size_t n = 0;
    for (size_t at = 0; at < TYPED; at++) {
        if (at % LINE % 6 == 0)
            out[n++] = " \t-"[at % 3];
        out[n++] = PAGE_0_TYPED[at];
    }
    return n;
}

/*
 * Whole pages, and every page of a few lines, as an app has it that asks after each line: 25 bytes
 * for each full line (R5.9).
 */
static void typed(void)
{
    static char text[2 * TYPED];
    const struct page *last = &PAGES[PAGES_COUNT - 1];
    EXPECT(strlen(PAGE_0_TYPED) == TYPED);
    text_is(stilt_typed, text, grouped(text), PAGES[0].bytes, PAGES[0].len);
    text_is(stilt_typed, LAST_PAGE_TYPED, strlen(LAST_PAGE_TYPED), last->bytes, last->len);
    for (size_t line = 1; line <= STILT_LINES; line++)
        text_is(stilt_typed, PAGE_0_TYPED, line * LINE - 1, PAGES[0].bytes, 25 * line);
    text_is(stilt_typed, "efeynu", 6, (const uint8_t *)"AP", 2);
    EXPECT(stilt_typed(NULL, 0, NULL, 0) == 0);
    text_refused(stilt_typed, PAGE_0_TYPED, TYPED, STILT_FRAME_MOST - 1, STILT_E_ROOM);
    EXPECT(stilt_typed(PAGE_0_TYPED, TYPED, NULL, 0) == STILT_E_ROOM);
}

static void mistyped_at(const char *text, size_t at)
{
    text_refused(stilt_typed, text, TYPED, STILT_FRAME_MOST, STILT_E_MISTYPED | (unsigned)(at / LINE + 1) << 8);
}

/* Each character exchanged for another, and with the one behind it: the line is named (R5.10). */
static void mistyped(void)
{
    static char text[TYPED];
    memcpy(text, PAGE_0_TYPED, TYPED);
    for (size_t at = 0; at < TYPED; at++) {
        char was = text[at], next = at + 1 < TYPED ? text[at + 1] : '\n';
        if (was == '\n')
            continue;
        text[at] = was == 'y' ? 'b' : 'y';
        mistyped_at(text, at);
        text[at] = was;
        if (next != '\n' && next != was) {
            text[at] = next;
            text[at + 1] = was;
            mistyped_at(text, at);
            text[at] = was;
            text[at + 1] = next;
        }
    }
    for (size_t line = 1; line < STILT_LINES; line++) { /* two lines in each other's place */
        memcpy(text, PAGE_0_TYPED + line * LINE, LINE - 1);
        memcpy(text + line * LINE, PAGE_0_TYPED, LINE - 1);
        mistyped_at(text, 0);
        memcpy(text, PAGE_0_TYPED, TYPED);
    }
}

/* The page with one piece put in at a place, or a character there left out. */
static void changed(size_t at, const char *piece, size_t left_out, unsigned number)
{
    static char text[2 * TYPED];
    size_t more = strlen(piece), from = at + left_out;
    memcpy(text, PAGE_0_TYPED, at);
    memcpy(text + at, piece, more);
    memcpy(text + at + more, PAGE_0_TYPED + from, TYPED - from);
    text_refused(stilt_typed, text, TYPED + more - left_out, 0, number);
}

/* 1, then 2, then 23, then 2 for the data of all lines, then 11 (R5.12). */
static void not_typed(void)
{
    const char *const none[] = {"0", "2", "l", "v", "Y", "\r", "\v", "=", "\x7f", "\xC3"};
    for (size_t i = 0; i < sizeof none / sizeof none[0]; i++) {
        changed(0, none[i], 0, STILT_E_CHARACTER);
        changed(TYPED, none[i], 0, STILT_E_CHARACTER);
    }
    text_refused(stilt_typed, "efey\0nu", 7, 10, STILT_E_CHARACTER);
    for (size_t line = 0; line < STILT_LINES; line++) {
        changed(line * LINE, "y", 0, STILT_E_LENGTH);
        changed(line * LINE, "\n", 0, STILT_E_LENGTH);
        if (line + 1 < STILT_LINES) {
            changed(line * LINE, "", 1, STILT_E_LENGTH);
            changed(line * LINE + LINE - 1, "", 1, STILT_E_LENGTH);
        }
    }
    changed(TYPED, "\n", 0, STILT_E_LENGTH);
    changed(TYPED, "\nefeynu", 0, STILT_E_LENGTH);
    text_refused(stilt_typed, " ", 1, 10, STILT_E_LENGTH);
    text_refused(stilt_typed, "\n", 1, 10, STILT_E_LENGTH);
    text_refused(stilt_typed, "bj", 2, 10, STILT_E_LENGTH);
    text_refused(stilt_typed, "bj\nefeynu0\n", 11, 0, STILT_E_CHARACTER);
    text_refused(stilt_typed, "efeynu\nefeynu", 13, 0, STILT_E_LENGTH);
    text_refused(stilt_typed, "efeynn", 6, 0, STILT_E_MISTYPED | 1 << 8);
    text_refused(stilt_typed, "ybb", 3, 0, STILT_E_MISTYPED | 1 << 8);
    text_refused(stilt_typed, "ybj", 3, 0, STILT_E_LENGTH);
    text_refused(stilt_typed, "efebnz", 6, 0, STILT_E_LENGTH);
}

int main(void)
{
    base64();
    typed();
    mistyped();
    not_typed();
    return verdict();
}
