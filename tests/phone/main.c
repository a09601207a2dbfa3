/*
 * Six of the phone's eight functions (R16.1), called as an app would: a scan that is dropped and
 * resumed, two piers joined, a damaged file, a wrong size, null for an empty slice, what a screen
 * shows. Every byte that a call is lent is compared afterwards (R1.2). The two that read texts are
 * in texts.c.
 *
 * The frames and what they come to are made by tests/phone/make, which knows nothing of the
 * library. The file is C99, C11 and C++17 at once, as the header is.
 */
#include <string.h>

#include "stiltbasket.h"
#include "pages.h"
#include "expect.h"

static void open_ok(struct lent *c)
{
    fill(c);
    EXPECT(stilt_open(DOCUMENT_ID, 8, c->bytes, sizeof c->bytes) == 0);
    EXPECT(margins(c));
}

/* An offer's 1, 2 or 3 stands where a place would (R16.2). */
static void offer_page(struct lent *c, int page)
{
    uint64_t answer = stilt_offer(c->bytes, sizeof c->bytes, PAGES[page].bytes, PAGES[page].len);
    EXPECT(stilt_number(answer) == 0);
    EXPECT(stilt_place(answer) == STILT_HELD);
    EXPECT(stilt_count(answer) == 0);
}

/* A call that is refused changes nothing (R1.2). */
static void refused_offer(struct lent *c, const uint8_t *frame, size_t len, unsigned number)
{
    struct lent was = *c;
    uint64_t answer = stilt_offer(c->bytes, sizeof c->bytes, frame, len);
    EXPECT(answer == number);
    EXPECT(memcmp(&was, c, sizeof was) == 0);
}

static void finish_lacks(const struct lent *c, unsigned number, unsigned place)
{
    static struct lent out;
    struct lent was = *c;
    fill(&out);
    EXPECT(stilt_finish(c->bytes, sizeof c->bytes, out.bytes, sizeof out.bytes) == (number | (uint64_t)place << 8));
    EXPECT(all((const uint8_t *)&out, sizeof out, FILL));
    EXPECT(memcmp(&was, c, sizeof was) == 0);
}

/* How many bytes finish wrote stands above number and place (R16.2); none behind them changes. */
static void finish_whole(const struct lent *c)
{
    static struct lent out;
    struct lent was = *c;
    uint64_t answer;
    fill(&out);
    answer = stilt_finish(c->bytes, sizeof c->bytes, out.bytes, sizeof CIPHERTEXT);
    EXPECT(stilt_number(answer) == 0);
    EXPECT(stilt_place(answer) == 0);
    EXPECT(stilt_count(answer) == sizeof CIPHERTEXT);
    EXPECT(memcmp(out.bytes, CIPHERTEXT, sizeof CIPHERTEXT) == 0);
    EXPECT(all(out.bytes + sizeof CIPHERTEXT, sizeof out.bytes - sizeof CIPHERTEXT, FILL));
    EXPECT(margins(&out));
    EXPECT(memcmp(&was, c, sizeof was) == 0);
}

/*
 * What stilt_status must say and write: `stands` has a digit for each page below the total, and
 * from there on every page is missing (R16.3).
 */
static void status_is(const struct lent *c, const char *stands)
{
    static struct lent out;
    const size_t rooms[] = {STILT_PAGES, sizeof out.bytes};
    struct lent was = *c;
    size_t total = strlen(stands);
    unsigned count[3] = {0, 0, 0};
    for (size_t i = 0; i < total; i++)
        count[stands[i] - '0']++;
    for (size_t i = 0; i < 2; i++) {
        fill(&out);
        uint64_t answer = stilt_status(c->bytes, sizeof c->bytes, out.bytes, rooms[i]);
        EXPECT(stilt_number(answer) == 0 && stilt_place(answer) == 0);
        EXPECT(stilt_total(answer) == total);
        EXPECT(stilt_held(answer) == count[STILT_HELD]);
        EXPECT(stilt_missing(answer) == count[STILT_MISSING]);
        EXPECT(stilt_disputed(answer) == count[STILT_DISPUTED]);
        EXPECT(answer >> 48 == 0);
        for (size_t page = 0; page < STILT_PAGES; page++)
            EXPECT(out.bytes[page] == (page < total ? stands[page] - '0' : STILT_MISSING));
        EXPECT(all(out.bytes + STILT_PAGES, sizeof out.bytes - STILT_PAGES, FILL));
        EXPECT(margins(&out));
        EXPECT(memcmp(&was, c, sizeof was) == 0);
    }
}

/* Totals that disagree: no page stands, and no total. */
static void status_disagrees(const struct lent *c)
{
    static struct lent out;
    fill(&out);
    EXPECT(stilt_status(c->bytes, sizeof c->bytes, out.bytes, STILT_PAGES) == (uint64_t)STILT_DISAGREE << 8);
    EXPECT(all(out.bytes, STILT_PAGES, STILT_MISSING));
    EXPECT(all(out.bytes + STILT_PAGES, sizeof out.bytes - STILT_PAGES, FILL) && margins(&out));
}

static void status_refused(const uint8_t *collection, size_t len, size_t room, unsigned number)
{
    static struct lent out;
    fill(&out);
    EXPECT(stilt_status(collection, len, out.bytes, room) == number);
    EXPECT(all((const uint8_t *)&out, sizeof out, FILL));
}

/* Some pages are missing, the phone is put away with the file saved, and taken up again (R1.4). */
static void dropped_and_resumed(void)
{
    static struct lent c, later;
    open_ok(&c);
    EXPECT(memcmp(c.bytes, EMPTY_COLLECTION, sizeof c.bytes) == 0);
    finish_lacks(&c, STILT_E_MISSING, 0);
    status_is(&c, "");
    for (int page = 0; page < PAGES_COUNT; page++)
        if (page < 4 || page > 6) {
            offer_page(&c, page);
            offer_page(&c, page);
        }
    finish_lacks(&c, STILT_E_MISSING, 4);
    status_is(&c, "111100011111");
    fill(&later);
    memcpy(later.bytes, c.bytes, sizeof later.bytes);
    for (int page = 6; page > 3; page--)
        offer_page(&later, page);
    EXPECT(margins(&later));
    EXPECT(memcmp(later.bytes, WHOLE_COLLECTION, sizeof later.bytes) == 0);
    status_is(&later, "111111111111");
    finish_whole(&later);
}

/* Joined either way the bytes are those of one pier that saw all (R1.5). */
static void two_piers(void)
{
    static struct lent odd, even, both;
    struct lent was;
    open_ok(&odd);
    open_ok(&even);
    for (int page = 0; page < PAGES_COUNT; page++)
        offer_page(page % 2 ? &odd : &even, page);
    both = odd;
    was = even;
    EXPECT(stilt_join(both.bytes, sizeof both.bytes, even.bytes, sizeof even.bytes) == 0);
    EXPECT(memcmp(&was, &even, sizeof was) == 0);
    EXPECT(memcmp(both.bytes, WHOLE_COLLECTION, sizeof both.bytes) == 0);
    EXPECT(stilt_join(even.bytes, sizeof even.bytes, odd.bytes, sizeof odd.bytes) == 0);
    EXPECT(memcmp(even.bytes, both.bytes, sizeof both.bytes) == 0);
    EXPECT(margins(&both) && margins(&even));
    finish_whole(&both);
}

/* A dispute and a second total stay, and a join takes them over (R9.4, R9.7). */
static void disputes(void)
{
    static struct lent c, other;
    uint64_t answer;
    open_ok(&c);
    offer_page(&c, 0);
    answer = stilt_offer(c.bytes, sizeof c.bytes, PAGE_0_AGAIN, sizeof PAGE_0_AGAIN);
    EXPECT(answer == ((uint64_t)STILT_DISPUTED << 8));
    answer = stilt_offer(c.bytes, sizeof c.bytes, PAGES[0].bytes, PAGES[0].len);
    EXPECT(answer == ((uint64_t)STILT_DISPUTED << 8));
    finish_lacks(&c, STILT_E_DISPUTED, 0);
    offer_page(&c, 11);
    status_is(&c, "200000000001");
    open_ok(&other);
    offer_page(&other, 1);
    answer = stilt_offer(other.bytes, sizeof other.bytes, PAGE_OF_OTHER_TOTAL, sizeof PAGE_OF_OTHER_TOTAL);
    EXPECT(answer == ((uint64_t)STILT_DISAGREE << 8));
    finish_lacks(&other, STILT_E_DISAGREE, 0);
    status_disagrees(&other);
    EXPECT(stilt_join(c.bytes, sizeof c.bytes, other.bytes, sizeof other.bytes) == 0);
    EXPECT(memcmp(c.bytes, other.bytes, sizeof c.bytes) == 0);
}

/* Frames that are no good page (R9.3). */
static void bad_scans(void)
{
    static struct lent c;
    open_ok(&c);
    offer_page(&c, 3);
    for (size_t i = 0; i < BAD_COUNT; i++)
        refused_offer(&c, BAD[i].bytes, BAD[i].len, BAD[i].number);
    refused_offer(&c, PAGE_OF_A_STRANGER, sizeof PAGE_OF_A_STRANGER, STILT_E_DOCUMENT);
    refused_offer(&c, KEY_FRAME, sizeof KEY_FRAME, STILT_E_DOCUMENT);
    refused_offer(&c, AUTH_FRAME, sizeof AUTH_FRAME, STILT_E_DOCUMENT);
    refused_offer(&c, NULL, 0, STILT_E_CUT);
}

/* Every byte of the file counts (R8.7). */
static void damaged_file(void)
{
    static struct lent c, other;
    for (size_t at = 0; at < sizeof WHOLE_COLLECTION; at += 331) {
        fill(&c);
        memcpy(c.bytes, WHOLE_COLLECTION, sizeof c.bytes);
        c.bytes[at] ^= 0x10;
        refused_offer(&c, PAGES[0].bytes, PAGES[0].len, STILT_E_COLLECTION);
        finish_lacks(&c, STILT_E_COLLECTION, 0);
        status_refused(c.bytes, sizeof c.bytes, STILT_PAGES, STILT_E_COLLECTION);
        open_ok(&other);
        EXPECT(stilt_join(other.bytes, sizeof other.bytes, c.bytes, sizeof c.bytes) == STILT_E_COLLECTION);
        EXPECT(memcmp(other.bytes, EMPTY_COLLECTION, sizeof other.bytes) == 0);
    }
}

/* Lengths that are not right, and no memory at all for a slice of none (R9.1, R9.10). */
static void wrong_sizes(void)
{
    static struct lent c, out;
    fill(&c);
    EXPECT(stilt_open(DOCUMENT_ID, 8, c.bytes, sizeof c.bytes - 1) == STILT_E_ROOM);
    EXPECT(stilt_open(DOCUMENT_ID, 7, c.bytes, sizeof c.bytes) == STILT_E_ID);
    EXPECT(stilt_open(NULL, 0, NULL, 0) == STILT_E_ID);
    EXPECT(stilt_open(DOCUMENT_ID, 8, NULL, 0) == STILT_E_ROOM);
    EXPECT(stilt_offer(c.bytes, sizeof c.bytes - 1, PAGES[0].bytes, PAGES[0].len) == STILT_E_COLLECTION);
    EXPECT(stilt_offer(NULL, 0, PAGES[0].bytes, PAGES[0].len) == STILT_E_COLLECTION);
    EXPECT(stilt_join(c.bytes, sizeof c.bytes, NULL, 0) == STILT_E_COLLECTION);
    EXPECT(stilt_join(NULL, 0, c.bytes, sizeof c.bytes) == STILT_E_COLLECTION);
    EXPECT(all((const uint8_t *)&c, sizeof c, FILL));
    fill(&out);
    EXPECT(stilt_finish(NULL, 0, out.bytes, sizeof out.bytes) == STILT_E_COLLECTION);
    EXPECT(stilt_finish(WHOLE_COLLECTION, sizeof WHOLE_COLLECTION, NULL, 0) == STILT_E_ROOM);
    EXPECT(stilt_finish(WHOLE_COLLECTION, sizeof WHOLE_COLLECTION, out.bytes, sizeof CIPHERTEXT - 1) == STILT_E_ROOM);
    EXPECT(stilt_finish(OTHER_CIPHERTEXT, sizeof OTHER_CIPHERTEXT, out.bytes, sizeof out.bytes) == STILT_E_CIPHERTEXT);
    EXPECT(all((const uint8_t *)&out, sizeof out, FILL));
}

/* A whole document of no bytes needs no room (R9.10). */
static void no_ciphertext(void)
{
    EXPECT(stilt_finish(NO_CIPHERTEXT, sizeof NO_CIPHERTEXT, NULL, 0) == 0);
    EXPECT(stilt_finish(NOT_NO_CIPHERTEXT, sizeof NOT_NO_CIPHERTEXT, NULL, 0) == STILT_E_CIPHERTEXT);
}

/* 13 before 11 (R16.3). */
static void status_refusals(void)
{
    status_refused(WHOLE_COLLECTION, sizeof WHOLE_COLLECTION, STILT_PAGES - 1, STILT_E_ROOM);
    status_refused(WHOLE_COLLECTION, sizeof WHOLE_COLLECTION, 0, STILT_E_ROOM);
    status_refused(WHOLE_COLLECTION, sizeof WHOLE_COLLECTION - 1, 0, STILT_E_COLLECTION);
    status_refused(NULL, 0, STILT_PAGES, STILT_E_COLLECTION);
    EXPECT(stilt_status(WHOLE_COLLECTION, sizeof WHOLE_COLLECTION, NULL, 0) == STILT_E_ROOM);
    EXPECT(stilt_status(NULL, 0, NULL, 0) == STILT_E_COLLECTION);
}

/* What stilt_frame must say, and the id that it writes, with room to spare or none (R16.4). */
static void frame_is(const uint8_t *frame, size_t len, unsigned type, unsigned place, unsigned total, const uint8_t *id)
{
    static struct lent out;
    const size_t rooms[] = {STILT_ID_SIZE, STILT_ID_SIZE + 1, sizeof out.bytes};
    for (size_t i = 0; i < 3; i++) {
        fill(&out);
        uint64_t answer = stilt_frame(frame, len, out.bytes, rooms[i]);
        EXPECT(stilt_number(answer) == 0);
        EXPECT(stilt_type(answer) == type);
        EXPECT(stilt_place(answer) == place);
        EXPECT(stilt_total(answer) == total);
        EXPECT(answer >> 32 == 0);
        EXPECT(memcmp(out.bytes, id, STILT_ID_SIZE) == 0);
        EXPECT(all(out.bytes + STILT_ID_SIZE, sizeof out.bytes - STILT_ID_SIZE, FILL) && margins(&out));
    }
}

static void frame_refused(const uint8_t *frame, size_t len, size_t room, unsigned number)
{
    static struct lent out;
    fill(&out);
    EXPECT(stilt_frame(frame, len, out.bytes, room) == number);
    EXPECT(all((const uint8_t *)&out, sizeof out, FILL));
}

static void frames(void)
{
    static const uint8_t nobody[STILT_ID_SIZE] = {0};
    for (unsigned page = 0; page < PAGES_COUNT; page++)
        frame_is(PAGES[page].bytes, PAGES[page].len, STILT_MAIN, page, PAGES_COUNT, DOCUMENT_ID);
    frame_is(PAGE_OF_A_STRANGER, sizeof PAGE_OF_A_STRANGER, STILT_MAIN, 0, PAGES_COUNT, nobody);
    frame_is(KEY_FRAME, sizeof KEY_FRAME, STILT_KEY, 0, 1, DOCUMENT_ID);
    frame_is(AUTH_FRAME, sizeof AUTH_FRAME, STILT_AUTH, 0, 1, DOCUMENT_ID);
    for (size_t i = 0; i < BAD_COUNT; i++) {
        frame_refused(BAD[i].bytes, BAD[i].len, STILT_ID_SIZE, BAD[i].number);
        frame_refused(BAD[i].bytes, BAD[i].len, 0, BAD[i].number);
    }
    frame_refused(PAGES[0].bytes, PAGES[0].len, STILT_ID_SIZE - 1, STILT_E_ROOM);
    frame_refused(NULL, 0, STILT_ID_SIZE, STILT_E_CUT);
    EXPECT(stilt_frame(PAGES[0].bytes, PAGES[0].len, NULL, 0) == STILT_E_ROOM);
    EXPECT(stilt_frame(NULL, 0, NULL, 0) == STILT_E_CUT);
}

int main(void)
{
    dropped_and_resumed();
    two_piers();
    disputes();
    bad_scans();
    damaged_file();
    wrong_sizes();
    no_ciphertext();
    status_refusals();
    frames();
    return verdict();
}
