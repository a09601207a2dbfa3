/*
 * jobs NAME PART FILE TIMES MOST   makes MOST collections ready, runs one job on the first TIMES of
 *                                  them, and writes what the last run left to standard output, and
 *                                  to standard error of how many bytes it made checksums
 *
 * The file is what `pier` reads: the document's id in hex, and then one base64 scan to a line
 * (R15.1). All that comes before and after the runs is the same for every TIMES, so the counts of
 * two TIMES differ by the runs alone. With BENCH_TIME in its environment it says on standard error
 * how long the runs took.
 *
 * PART is `all`, or one of the parts that a job cannot do without: `crc32` computes exactly the
 * checksums that the job computes, `blake2b` its digest, `base64` reads its texts, each with
 * nothing around it.
 */
#include <inttypes.h>
#include <stdio.h>
#include <stdlib.h>
#include <string.h>

#include "clock.h"
#include "rattle.h"
#include "stiltbasket.h"

enum {
    BLOCK = 512,
    SUMMED = 508, /* so many bytes of a block come before its checksum (R8.2) */
    PAGES = 96,
    LINE_MOST = 1024,
    SCANS_MOST = 256,
};

struct scan {
    uint8_t line[LINE_MOST + 2];
    size_t line_length;
    uint8_t frame[LINE_MOST];
    size_t frame_length;
};

/* What one run works on. */
struct work {
    uint8_t into[STILT_COLLECTION_SIZE];
    uint8_t from[STILT_COLLECTION_SIZE];
    uint8_t out[STILT_CIPHERTEXT_MOST];
    size_t out_length;
};

static uint8_t ID[8];
static struct scan SCANS[SCANS_MOST];
static size_t SCAN_COUNT;

static void need(int condition, const char *what)
{
    if (!condition) {
        fprintf(stderr, "jobs: %s\n", what);
        exit(3);
    }
}

static void read_scans(const char *path)
{
    FILE *file = fopen(path, "r");
    struct scan *s = SCANS;

    need(file != NULL, "the file cannot be read");
    for (int i = 0; i < 8; i++)
        need(fscanf(file, "%2" SCNx8, &ID[i]) == 1, "no document id");
    for (; s < SCANS + SCANS_MOST && fscanf(file, " %1024s", (char *)s->line) == 1; s++) {
        s->line_length = strlen((char *)s->line);
        s->frame_length = speed_base64_read(s->line, s->line_length, s->frame, sizeof s->frame);
        need(s->frame_length > 16, "a scan is no frame");
    }
    SCAN_COUNT = (size_t)(s - SCANS);
    need(SCAN_COUNT > 1, "too few scans");
    fclose(file);
}

/* All numbers of a page's frame but the last are below 128, so INDEX is one byte. */
static unsigned index_of(const struct scan *s)
{
    return s->frame[12];
}

/* ---- what a job begins with */

static void offer(uint8_t *collection, const uint8_t *frame, size_t length)
{
    uint64_t answer = stilt_offer(collection, STILT_COLLECTION_SIZE, frame, length);

    need(answer == STILT_HELD << 8, "a page is not held");
}

static void open_both(struct work *w)
{
    need(stilt_open(ID, 8, w->into, sizeof w->into) == 0, "no collection");
    need(stilt_open(ID, 8, w->from, sizeof w->from) == 0, "no collection");
}

static void all_offered(struct work *w)
{
    open_both(w);
    for (size_t i = 0; i < SCAN_COUNT; i++)
        offer(w->into, SCANS[i].frame, SCANS[i].frame_length);
}

/* The last scan is of a page that no other scan shows. */
static void all_but_one_offered(struct work *w)
{
    open_both(w);
    for (size_t i = 0; i + 1 < SCAN_COUNT; i++)
        offer(w->into, SCANS[i].frame, SCANS[i].frame_length);
}

static void halves_offered(struct work *w)
{
    open_both(w);
    for (size_t i = 0; i < SCAN_COUNT; i++)
        offer(index_of(&SCANS[i]) % 2 ? w->from : w->into, SCANS[i].frame, SCANS[i].frame_length);
}

/* ---- the jobs */

static void offer_last(struct work *w)
{
    offer(w->into, SCANS[SCAN_COUNT - 1].frame, SCANS[SCAN_COUNT - 1].frame_length);
}

static void join(struct work *w)
{
    need(stilt_join(w->into, sizeof w->into, w->from, sizeof w->from) == 0, "not joined");
}

static void finish(struct work *w)
{
    uint64_t answer = stilt_finish(w->into, sizeof w->into, w->out, sizeof w->out);

    need(stilt_number(answer) == 0, "not finished");
    w->out_length = stilt_count(answer);
}

static void all_finished(struct work *w)
{
    all_offered(w);
    finish(w);
}

/* A whole document, from the lines as they are scanned to the ciphertext. */
static void collect(struct work *w)
{
    uint8_t frame[LINE_MOST];

    need(stilt_open(ID, 8, w->into, sizeof w->into) == 0, "no collection");
    for (size_t i = 0; i < SCAN_COUNT; i++) {
        size_t length = speed_base64_read(SCANS[i].line, SCANS[i].line_length, frame, sizeof frame);
        offer(w->into, frame, length);
    }
    finish(w);
}

/* ---- their checksums alone */

static uint64_t summed; /* how many bytes the checksums of all runs were of */

static void sum(const uint8_t *bytes, size_t length)
{
    static volatile uint32_t kept;

    kept = speed_crc32(bytes, length);
    (void)kept;
    summed += length;
}

/* Open seals every block, and each other call judges every block of what it is lent, once. */
static void sum_blocks(const uint8_t *collection)
{
    for (int block = 0; block < 1 + PAGES; block++)
        sum(collection + BLOCK * block, SUMMED);
}

/* A frame ends with the checksum of all before it. */
static void sum_frame(const struct scan *s)
{
    sum(s->frame, s->frame_length - 4);
}

/* A page that becomes held is a block sealed anew. */
static void sum_page(const uint8_t *collection, unsigned index)
{
    sum(collection + BLOCK + BLOCK * index, SUMMED);
}

static void offer_sums(struct work *w)
{
    sum_blocks(w->into);
    sum_frame(&SCANS[SCAN_COUNT - 1]);
    sum_page(w->into, index_of(&SCANS[SCAN_COUNT - 1]));
}

/* Each page that the read half holds is new to the written one. */
static void join_sums(struct work *w)
{
    sum_blocks(w->into);
    sum_blocks(w->from);
    for (unsigned index = 0; index < PAGES; index++)
        if (w->from[BLOCK + BLOCK * index + 2] == 1)
            sum_page(w->from, index);
}

static void finish_sums(struct work *w)
{
    sum_blocks(w->into);
}

/*
 * Open; the head, which the first page seals anew; every scan, of which repeats seal nothing;
 * finish.
 */
static void collect_sums(struct work *w)
{
    uint8_t seen[PAGES] = {0};

    sum_blocks(w->into);
    sum(w->into, SUMMED);
    for (size_t i = 0; i < SCAN_COUNT; i++) {
        unsigned index = index_of(&SCANS[i]);
        sum_blocks(w->into);
        sum_frame(&SCANS[i]);
        if (!seen[index])
            sum_page(w->into, index);
        seen[index] = 1;
    }
    sum_blocks(w->into);
}

/* ---- their digest and their texts alone */

static void digest(struct work *w)
{
    uint8_t hash[32];

    speed_blake2b(w->out, w->out_length, hash, sizeof hash);
}

static void texts(struct work *w)
{
    for (size_t i = 0; i < SCAN_COUNT; i++)
        speed_base64_read(SCANS[i].line, SCANS[i].line_length, w->out, LINE_MOST);
}

static const struct job {
    const char *name, *part;
    void (*ready)(struct work *);
    void (*run)(struct work *);
} JOBS[] = {
    {"offer", "all", all_but_one_offered, offer_last},
    {"offer", "crc32", all_but_one_offered, offer_sums},
    {"join", "all", halves_offered, join},
    {"join", "crc32", halves_offered, join_sums},
    {"finish", "all", all_offered, finish},
    {"finish", "crc32", all_offered, finish_sums},
    {"finish", "blake2b", all_finished, digest},
    {"main", "all", open_both, collect},
    {"main", "crc32", open_both, collect_sums},
    {"main", "blake2b", all_finished, digest},
    {"main", "base64", open_both, texts},
};

static const struct job *named(const char *name, const char *part)
{
    for (size_t i = 0; i < sizeof JOBS / sizeof *JOBS; i++)
        if (strcmp(JOBS[i].name, name) == 0 && strcmp(JOBS[i].part, part) == 0)
            return &JOBS[i];
    return NULL;
}

int main(int count, char **words)
{
    const struct job *job = count == 6 ? named(words[1], words[2]) : NULL;

    need(job != NULL, "jobs NAME PART FILE TIMES MOST");
    size_t times = strtoull(words[4], NULL, 10), most = strtoull(words[5], NULL, 10);
    struct work *works = calloc(most, sizeof *works);
    need(works && 0 < times && times <= most, "no such TIMES, or no memory");
    read_scans(words[3]);
    job->ready(works);
    for (size_t i = 1; i < most; i++)
        works[i] = works[0];

    uint64_t began = nanoseconds();
    for (size_t i = 0; i < times; i++)
        job->run(&works[i]);
    say_time_since(began);
    fprintf(stderr, "summed %" PRIu64 "\n", summed / times);

    fwrite(works[times - 1].into, 1, sizeof works->into, stdout);
    fwrite(works[times - 1].out, 1, works[times - 1].out_length, stdout);
    return 0;
}
