/*
 * Stiltbasket for the phone: collecting the scanned pages of one document.
 *
 * A collection is 49,664 bytes that you lend. They are also the saved file (R8.1): write them out
 * as they are to save, read them back to go on. Nothing else is kept anywhere, so the functions may
 * be called from any thread, each on its own bytes. R8.1 and its like are rules, and docs/RULES.md
 * has them all. examples/phone.c is an app to start from.
 *
 * Every function takes any bytes at all (R1.1). A call that is refused changes no byte that it was
 * lent; one that is done changes only what its comment names (R1.2). What you must see to is that
 * each slice is memory of yours of at least that length, and that the slices of one call do not
 * overlap (R16.1). A slice of length 0 may be null.
 *
 * Link with libphone.a for your processor, or load phone.wasm: `tools/phone` makes them all
 * (README). Of the C library they want memcpy and memset alone, and they allocate nothing. A call
 * needs at most 2,500 bytes of stack: measured on each processor, stilt_finish needs 2,208 at most
 * and each other less than 1,900. A loader that binds memcpy only when it is first called takes
 * some 1,500 more for that once.
 */
#ifndef STILTBASKET_H
#define STILTBASKET_H

#include <stddef.h>
#include <stdint.h>

#ifdef __cplusplus
extern "C" {
#endif

/* ---- sizes */

#define STILT_COLLECTION_SIZE 49664 /* a head and 96 pages, blocks of 512 bytes (R8.1) */
#define STILT_CIPHERTEXT_MOST 46080 /* 96 pages of 480 bytes (R3.8) */
#define STILT_FRAME_MOST 500        /* a page of 480 bytes as a frame (R17.1, P12) */
#define STILT_LINES 20              /* a page that is typed has at most so many (R5.8) */
#define STILT_PAGES 96              /* a document has at most so many (R3.1) */
#define STILT_ID_SIZE 8             /* the id of a document (R3.8) */

/* ---- answers
 *
 * Each function answers one number (R16.2). These read it apart. Above each stands whose answers it
 * is for; what it gives of another's means nothing.
 */

/* 0 where the call is done, else why it was refused: one of the numbers below. */
static inline unsigned stilt_number(uint64_t answer)
{
    return (unsigned)(answer & 0xFF);
}

/*
 * The number of a page, counted from 0: of stilt_finish with 15 and 16, and of stilt_frame. The
 * number of a line, counted from 1: of stilt_typed with 23. How the offered page stands: of
 * stilt_offer. STILT_DISAGREE or 0: of stilt_status.
 */
static inline unsigned stilt_place(uint64_t answer)
{
    return (unsigned)((answer >> 8) & 0xFF);
}

/* How many bytes were written: of stilt_finish, stilt_base64 and stilt_typed. */
static inline uint64_t stilt_count(uint64_t answer)
{
    return answer >> 16;
}

/* The total: of stilt_status the collection's, 0 if there is none; of stilt_frame the frame's. */
static inline unsigned stilt_total(uint64_t answer)
{
    return (unsigned)((answer >> 16) & 0xFF);
}

/* The type, one of the three below: of stilt_frame. */
static inline unsigned stilt_type(uint64_t answer)
{
    return (unsigned)((answer >> 24) & 0xFF);
}

/* How many pages below the total are held, missing and disputed: of stilt_status. */
static inline unsigned stilt_held(uint64_t answer)
{
    return (unsigned)((answer >> 24) & 0xFF);
}

static inline unsigned stilt_missing(uint64_t answer)
{
    return (unsigned)((answer >> 32) & 0xFF);
}

static inline unsigned stilt_disputed(uint64_t answer)
{
    return (unsigned)((answer >> 40) & 0xFF);
}

/* How a page stands (R8.4, R9.5): after an offer, and in the bytes that stilt_status writes. */
#define STILT_MISSING 0  /* no scan of it was taken */
#define STILT_HELD 1     /* its data are held */
#define STILT_DISPUTED 2 /* two scans of it differ: neither is kept, for good */
#define STILT_DISAGREE 3 /* two scans name two totals: no page at all is kept, for good */

/* The type of a frame (R6.2). */
#define STILT_MAIN 0x44 /* a page of the document: the only type that is collected */
#define STILT_KEY 0x4B  /* a shard of the key */
#define STILT_AUTH 0x41 /* a signature */

/* Why a call was refused (R2.2). The last word of 14, 15 and 16 is how a page stands. */
#define STILT_E_CHARACTER 1   /* the text has a character that is none of its alphabet's */
#define STILT_E_LENGTH 2      /* no bytes have such a text: it was cut; of stilt_typed: see there */
#define STILT_E_CUT 3         /* the frame ends inside a field, or has bytes left over */
#define STILT_E_MAGIC 4       /* not a frame */
#define STILT_E_VERSION 5     /* a frame of another version */
#define STILT_E_TYPE 6        /* a frame of an unknown type */
#define STILT_E_VARINT 7      /* a number of the frame is not in its shortest form */
#define STILT_E_INDEX 8       /* the frame's index or total cannot be */
#define STILT_E_SIZE 9        /* a frame of more than 96 pages or 480 bytes */
#define STILT_E_CHECKSUM 10   /* the frame was misread */
#define STILT_E_ROOM 11       /* the output is too short; of stilt_open: not 49,664 bytes */
#define STILT_E_DOCUMENT 12   /* no page of this document; of stilt_join: two documents */
#define STILT_E_COLLECTION 13 /* no collection: another size, or a byte of it is damaged */
#define STILT_E_DISAGREE 14   /* two scans named two totals */
#define STILT_E_DISPUTED 15   /* a page is disputed: stilt_place is the lowest */
#define STILT_E_MISSING 16    /* a page is missing: stilt_place is the lowest */
#define STILT_E_CIPHERTEXT 17 /* every page is held, but they are another document than the id's */
#define STILT_E_ID 19         /* the id is not 8 bytes */
#define STILT_E_MISTYPED 23   /* a line was mistyped: stilt_place is the first such line, from 1 */

/* ---- a collection */

/*
 * Writes the empty collection of the document `id` over all of `collection`. The id comes from
 * outside, from the sailing's list or the clerk who types it, and never from the first scan: else
 * the first sheet of a wrong bundle would decide what all others are held to.
 *
 * Refused with 19 where id_len is not 8, then with 11 where len is not 49,664 (R9.1).
 */
uint64_t stilt_open(const uint8_t *id, size_t id_len, uint8_t *collection, size_t len);

/*
 * Takes one scanned frame, as its raw bytes, into the collection. Offer every scan: one that was
 * seen before changes nothing, and one that is refused changes nothing (R1.4).
 *
 * Refused with 13 where `collection` is none, then with 3 to 10 for the frame's own faults, then
 * with 12 where it is no main frame of this document (R9.3). Done: stilt_place is STILT_HELD,
 * STILT_DISPUTED or STILT_DISAGREE. Only blocks that change are written.
 */
uint64_t stilt_offer(uint8_t *collection, size_t len, const uint8_t *frame, size_t frame_len);

/*
 * Joins the pages of `from` into `into`: what two piers scanned of one document (R1.5). `from` is
 * only read. A page that is disputed in one of them is disputed in `into` from then on, and so are
 * totals that disagree, for good (R9.7): where `into` could be finished, finish it first, or join
 * into a copy.
 *
 * Refused with 13 where either is no collection, then with 12 where they are of two documents
 * (R9.6).
 */
uint64_t stilt_join(uint8_t *into, size_t into_len, const uint8_t *from, size_t from_len);

/*
 * Writes the whole ciphertext to the front of `out`, where every page is there and it is the
 * document of this id (R1.6). 46,080 bytes of `out` are always enough. Done: stilt_count is how
 * many were written. Refused, in this order, with 13, 14, 15 and 16 (with the page in stilt_place;
 * an empty collection lacks page 0), 11, 17 (R9.10).
 *
 * With no room (null and 0) nothing is hashed or copied, so it is a cheap question whether a page
 * is lacking: 14, 15 or 16 if so, and 11 if none is. (A ciphertext of no bytes at all needs no
 * room: then it is 0 or 17.) Only 0 says that the pages are the document.
 *
 * What to do after
 *     14  some sheets are of another print: open a new collection, and scan without those
 *     15  a page was read in two ways: open a new collection, scan all again, this page with care
 *     16  scan the pages that stilt_status says are missing: all, before the first was taken
 *     17  compare the id with the sheets'; if it is right, one of them is a forgery or of another
 *         print: open a new collection, and scan a bundle that comes from the harbour as a whole
 * What 14 and 15 say stays so in this collection, whatever is offered to it.
 */
uint64_t stilt_finish(const uint8_t *collection, size_t len, uint8_t *out, size_t out_len);

/* ---- a screen */

/*
 * Says where a collection stands, and writes how each page stands to the first 96 bytes of `pages`:
 * STILT_MISSING, STILT_HELD or STILT_DISPUTED; from the total on it is STILT_MISSING (R16.3).
 *
 * Refused with 13, then with 11 where `pages` has fewer than 96 bytes. Done: stilt_total, and
 * stilt_held, stilt_missing and stilt_disputed, which together are the total; stilt_place is
 * STILT_DISAGREE where the totals disagree, and then the others are 0, as they are before the first
 * page. All pages held is not yet the document: see stilt_finish.
 */
uint64_t stilt_status(const uint8_t *collection, size_t len, uint8_t *pages, size_t pages_len);

/*
 * Says what a scanned frame is, and writes the id of its document to the first 8 bytes of `id`
 * (R16.4): so you can name the page that was just seen, and tell by the id whose it is. Nothing is
 * collected.
 *
 * Refused with 3 to 10 for the frame's faults, then with 11 where `id` has fewer than 8 bytes.
 * Done: stilt_type, stilt_place (the page, from 0) and stilt_total.
 */
uint64_t stilt_frame(const uint8_t *frame, size_t frame_len, uint8_t *id, size_t id_len);

/*
 * Writes the bytes of a text in base64, which is what a code square holds, to the front of `out`
 * (R16.5). 500 bytes of `out` are enough for every frame, whose text has at most 667 characters; 11
 * then says that the square is none of ours. The alphabet is the usual one, with + and /, and there
 * is no padding: = is refused. White space is skipped (R5.2, R5.4).
 *
 * Refused with 1, then 2, then 11 (R5.5). Done: stilt_count is how many bytes were written.
 */
uint64_t stilt_base64(const char *text, size_t text_len, uint8_t *out, size_t out_len);

/*
 * Writes the bytes of a page that a clerk typed, where a square is torn, to the front of `out`
 * (R16.6). 500 bytes of `out` are always enough. The text is all lines of the page, with a line
 * feed between each two and none behind the last: behind it there would be one more line, an empty
 * one, which is refused, so take it off. Of no bytes at all it makes none.
 *
 * A sheet has up to 20 lines of 42 characters; the last may be shorter, down to 3. The last two of
 * a line check the others and the line's place on the sheet: one character typed for another, two
 * before the check exchanged, or two full lines exchanged are always found (R5.15).
 * Spaces, tabs and dashes are skipped. A carriage return is not: take it off too (R5.11).
 *
 * Refused, in this order, with 1, 2, 23 (with the line in stilt_place, counted from 1), then again
 * 2, then 11 (R5.12). Done: stilt_count is how many bytes were written.
 *
 * What to tell the clerk after
 *      1  a character is on no sheet: 0, 2, l, v and capital letters are not
 *      2  a line is too long or too short, or there are more than 20 lines
 *     23  line stilt_place was mistyped: type that one again
 * Only 23 names a line. If you call it after each line, with all lines so far, every refusal is of
 * the line that was just typed (2 also where it stands behind a short one), and you ask for that
 * one again: examples/phone.c does so.
 */
uint64_t stilt_typed(const char *text, size_t text_len, uint8_t *out, size_t out_len);

/* ---- saving
 *
 * So that a crash, or an empty battery, leaves the last file or the new one and never a half: write
 * beside, sync, rename, sync the folder. `beside` is a name in the same folder; what a failure
 * leaves there the next call writes over. 1 where it is done. (POSIX: <fcntl.h>, <stdio.h> and
 * <unistd.h>.)
 *
 *     static int save(const char *folder, const char *beside, const char *name,
 *         const uint8_t *collection)
 *     {
 *         int dir = open(folder, O_RDONLY);
 *         int file = open(beside, O_WRONLY | O_CREAT | O_TRUNC, 0600);
 *         int ok = dir >= 0 && file >= 0
 *             && write(file, collection, STILT_COLLECTION_SIZE) == STILT_COLLECTION_SIZE
 *             && fsync(file) == 0 && rename(beside, name) == 0 && fsync(dir) == 0;
 *         if (file >= 0)
 *             close(file);
 *         if (dir >= 0)
 *             close(dir);
 *         return ok;
 *     }
 *
 * To go on, read up to 49,665 bytes of the file, so that a longer one is seen too, and join them
 * into a fresh collection of the id: stilt_join answers 13 where the file is damaged, and 12 where
 * it is of another document.
 */

#ifdef __cplusplus
}
#endif

#endif
