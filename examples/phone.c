/*
 * An app to start from. It reads scans, a line each, and tells what each came to. A page is saved
 * before it is told, so the app may be dropped at any moment, and goes on where it was.
 *
 *     phone ID KEPT FILE [OTHER ..] < scans
 *
 * ID is the document's id, 16 hex digits, from the sailing's list and never from a scan. KEPT is
 * the file of the collection, and is made where it is not there. Each OTHER is such a file of
 * another pier, and is joined in. Each line of the input is the text of a code square. Once every
 * page is there, and together they are the document, the ciphertext goes to FILE.
 *
 * A page whose square is torn is typed: a line with the word `typed`, then the lines of the sheet
 * one by one, then an empty line. A line that is told as wrong is typed again, and only that one.
 * Of a page that is half typed nothing is kept.
 *
 * The exit status is 0 where the document is complete, 1 where it is not, and 2 where a word or a
 * file is wrong. Pages are counted from 0, as on the sheets. Two runs at once need two KEPTs.
 *
 * C99 and C++17, with POSIX for the files. `save` is as stiltbasket.h has it. `tools/phone` makes
 * the archive:
 *
 *     gcc -std=c99 -Iinclude -o phone examples/phone.c target/phone/x86_64/libphone.a
 */
#define _POSIX_C_SOURCE 200809L /* else -std=c99 hides fsync and getline */
#include <errno.h>
#include <fcntl.h>
#include <libgen.h>
#include <stdio.h>
#include <stdlib.h>
#include <string.h>
#include <unistd.h>
#include "stiltbasket.h"

enum { LINE_MOST = 1024, NAME_MOST = 4096 }; /* no longer name can be opened */
static char *line; /* of the input */
static uint8_t pages[STILT_COLLECTION_SIZE], saved[STILT_COLLECTION_SIZE]; /* now, and in KEPT */
static uint8_t each[STILT_PAGES]; /* how each page stands */

static void stop(const char *name, const char *why)
{
    fprintf(stderr, "%s: %s\n", name, why);
    exit(2);
}

static int save(const char *folder, const char *beside, const char *name,
    const uint8_t *collection)
{
    int dir = open(folder, O_RDONLY);
    int file = open(beside, O_WRONLY | O_CREAT | O_TRUNC, 0600);
    int ok = dir >= 0 && file >= 0
        && write(file, collection, STILT_COLLECTION_SIZE) == STILT_COLLECTION_SIZE
        && fsync(file) == 0 && rename(beside, name) == 0 && fsync(dir) == 0;
    if (file >= 0)
        close(file);
    if (dir >= 0)
        close(dir);
    return ok;
}

static void save_changes(const char *kept)
{
    char folder[NAME_MOST + 1], beside[NAME_MOST + 5];
    snprintf(folder, sizeof folder, "%s", kept); /* a copy, since dirname writes into it */
    snprintf(beside, sizeof beside, "%s.new", kept);
    if (memcmp(saved, pages, sizeof saved) != 0 && !save(dirname(folder), beside, kept, pages))
        stop(kept, "cannot be written");
    memcpy(saved, pages, sizeof saved);
}

/* stilt_join finds out whether it is a collection of this document. No file is no bytes: 13. */
static void join_file(uint8_t *into, const char *name)
{
    static uint8_t from[STILT_COLLECTION_SIZE + 1]; /* one more, so that a longer file is seen */
    FILE *file = fopen(name, "rb");
    size_t len = file ? fread(from, 1, sizeof from, file) : 0;
    unsigned number = stilt_number(stilt_join(into, STILT_COLLECTION_SIZE, from, len));
    if (number)
        stop(name, number == STILT_E_DOCUMENT ? "of another document" : "no collection, or damaged");
    fclose(file);
}

static void tell_standing(void)
{
    uint64_t now = stilt_status(pages, sizeof pages, each, sizeof each);
    printf("; %u held, %u disputed, %u missing of %u%s", stilt_held(now), stilt_disputed(now),
        stilt_missing(now), stilt_total(now), stilt_held(now) < stilt_total(now) ? ":" : "");
    for (unsigned page = 0; page < stilt_total(now); page++)
        if (each[page] != STILT_HELD)
            printf(each[page] == STILT_MISSING ? " %u" : " %u (disputed)", page);
    printf("\n");
}

/* Into a copy first, since a dispute that a join brings stays for good. */
static void join_pier(const char *name, const char *kept)
{
    static uint8_t both[STILT_COLLECTION_SIZE];
    memcpy(both, pages, sizeof both);
    join_file(both, name);
    uint64_t was = stilt_status(pages, sizeof pages, each, sizeof each);
    uint64_t now = stilt_status(both, sizeof both, each, sizeof each);
    int worse = stilt_disputed(now) > stilt_disputed(was) || stilt_place(now) > stilt_place(was);
    if (!worse)
        memcpy(pages, both, sizeof pages);
    save_changes(kept);
    printf("%s is %s", name, worse ? "not joined, since it brings a dispute" : "joined");
    tell_standing();
}

/*
 * A frame and how its text was read. Told once it is saved, since a clerk puts away the sheet that
 * is told as held.
 */
static void take(const uint8_t *frame, uint64_t text, const char *again, const char *kept)
{
    static const char *const stands[] = {"missing", "held", "disputed", "not kept: two totals"};
    uint8_t id[STILT_ID_SIZE];
    uint64_t seen = stilt_number(text) ? text : stilt_frame(frame, stilt_count(text), id, sizeof id);
    uint64_t now = stilt_number(seen) ? seen : stilt_offer(pages, sizeof pages, frame, stilt_count(text));
    save_changes(kept);
    if (stilt_number(seen))
        printf("not read (%u): %s it again", stilt_number(seen), again);
    else if (stilt_type(seen) != STILT_MAIN)
        printf("no page, but %s", stilt_type(seen) == STILT_KEY ? "a key shard" : "a signature");
    else if (stilt_number(now))
        for (int i = 0; i < STILT_ID_SIZE; i++)
            printf("%s%02x", i ? "" : "a page of another document, ", id[i]);
    else
        printf("page %u of %u is %s", stilt_place(seen), stilt_total(seen), stands[stilt_place(now)]);
    tell_standing();
}

static void scan(size_t len, const char *kept)
{
    uint8_t frame[STILT_FRAME_MOST];
    take(frame, stilt_base64(line, len, frame, sizeof frame), "scan", kept);
}

/* The length of the next line without its line feed, or -1 where there is none. */
static ssize_t next_line(void)
{
    static size_t room;
    ssize_t len = getline(&line, &room, stdin);
    return len > 0 && line[len - 1] == '\n' ? len - 1 : len;
}

static void tell_typed(unsigned number, unsigned which)
{
    const char *said = number == 0 ? "is right"
        : number == STILT_E_MISTYPED ? "was mistyped: type it again"
        : number == STILT_E_CHARACTER ? "has a character that no sheet has (0, 2, l, v, a capital): type it again"
        : "is too long, too short, or one too many: type it again";
    printf("line %u %s\n", which, said);
}

/*
 * Each line is judged as the last of those so far. They are right, so what is refused is this one,
 * and it is left out again. A refused call changes nothing, so `frame` always has the bytes of the
 * lines that are right.
 */
static void type_page(const char *kept)
{
    static char text[(STILT_LINES + 1) * (LINE_MOST + 1)];
    uint8_t frame[STILT_FRAME_MOST];
    uint64_t right = 0;
    size_t end = 0; /* behind the line feed of the last line that is right */
    unsigned which = 1;
    printf("type line 1; an empty line ends the page\n");
    for (ssize_t len; (len = next_line()) > 0;) {
        uint64_t answer = STILT_E_LENGTH;
        if (len <= LINE_MOST) {
            memcpy(text + end, line, (size_t)len);
            answer = stilt_typed(text, end + (size_t)len, frame, sizeof frame);
        }
        tell_typed(stilt_number(answer), which);
        if (stilt_number(answer) == 0) {
            right = answer;
            end += (size_t)len;
            text[end++] = '\n';
            which++;
        }
    }
    take(frame, right, "type", kept);
}

static int finish(const char *name)
{
    static const char *const lacking[] = { /* what to do after 14, 15, 16 and 17 */
        "two totals, so some sheets are of another print: scan without those into a new KEPT",
        "a page was read in two ways: scan all again into a new KEPT, that page with care",
        "scan the pages that are missing",
        ("not the id's document: compare the id; if it is right, a sheet is forged or of another "
         "print: scan a bundle that comes from the harbour as a whole into a new KEPT")};
    static uint8_t out[STILT_CIPHERTEXT_MOST];
    uint64_t answer = stilt_finish(pages, sizeof pages, out, sizeof out);
    if (stilt_number(answer)) {
        printf("not complete: %s", lacking[stilt_number(answer) - STILT_E_DISAGREE]);
        tell_standing();
        return 1;
    }
    FILE *file = fopen(name, "wb");
    if (!file || fwrite(out, 1, stilt_count(answer), file) != stilt_count(answer) || fclose(file) != 0)
        stop(name, "cannot be written");
    printf("complete: %u bytes\n", (unsigned)stilt_count(answer));
    return 0;
}

int main(int argc, char **argv)
{
    uint8_t id[STILT_ID_SIZE];
    setvbuf(stdout, NULL, _IOLBF, BUFSIZ);
    if (argc < 4 || strspn(argv[1], "0123456789abcdef") != 16 || argv[1][16] || !strcmp(argv[2], argv[3]))
        stop("phone", "ID KEPT FILE [OTHER ..] < scans; ID is 16 small hex digits, FILE is not KEPT");
    for (int i = 0; i < STILT_ID_SIZE; i++)
        sscanf(argv[1] + 2 * i, "%2hhx", &id[i]);
    stilt_open(id, sizeof id, pages, sizeof pages);
    if (access(argv[2], F_OK) == 0 || errno != ENOENT)
        join_file(pages, argv[2]);
    memcpy(saved, pages, sizeof saved);
    for (int i = 4; i < argc; i++)
        join_pier(argv[i], argv[2]);
    for (ssize_t len; (len = next_line()) >= 0;)
        if (len > LINE_MOST)
            printf("too long for a code square: passed over\n");
        else if (len == 5 && !memcmp(line, "typed", 5)) /* no bytes are five characters of base64 */
            type_page(argv[2]);
        else
            scan((size_t)len, argv[2]);
    return finish(argv[3]);
}
