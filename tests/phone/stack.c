/*
 * How many bytes of stack each of the phone's eight functions needs. The memory that serves as the
 * stack is painted, a call is made on it, and the lowest byte that lost its paint tells how deep
 * the call went. Two paints are tried, since a byte may be written with the value of one.
 *
 * The calls are those that do the most: 96 full pages (tests/phone/make), taken, joined, disputed,
 * written out. WebAssembly's stack is in the module's memory, so there serve.mjs measures it.
 */
#include <stdio.h>
#include <stdlib.h>
#include <string.h>
#include <ucontext.h>

#include "stiltbasket.h"
#include "large.h"
#ifdef OVER_WASM
#include "wasm.h"
#endif

#define FRAME(page) (LARGE_PAGES + (page) * STILT_FRAME_MOST)

enum which { OPEN, OFFER, JOIN, FINISH, STATUS, READ_FRAME, BASE64, TYPED, FUNCTIONS, NOTHING };

static const char *const NAMES[FUNCTIONS] = {"open", "offer", "join", "finish", "status", "frame", "base64", "typed"};

static size_t most[FUNCTIONS];

static struct {
    enum which which;
    uint8_t *written;
    const void *read;
    size_t written_len, read_len;
    uint64_t answer;
} asked;

static __attribute__((noinline)) uint64_t nothing(const void *read, size_t read_len, const void *written, size_t written_len)
{
    __asm__ volatile("" : : "r"(read), "r"(read_len), "r"(written), "r"(written_len) : "memory");
    return 0;
}

/* The call, with the same frame of its own around it whichever it is. */
static __attribute__((noinline)) void make_call(void)
{
    const uint8_t *read = (const uint8_t *)asked.read;
    uint8_t *written = asked.written;
    size_t n = asked.read_len, m = asked.written_len;
    switch (asked.which) {
    case OPEN: asked.answer = stilt_open(read, n, written, m); break;
    case OFFER: asked.answer = stilt_offer(written, m, read, n); break;
    case JOIN: asked.answer = stilt_join(written, m, read, n); break;
    case FINISH: asked.answer = stilt_finish(read, n, written, m); break;
    case STATUS: asked.answer = stilt_status(read, n, written, m); break;
    case READ_FRAME: asked.answer = stilt_frame(read, n, written, m); break;
    case BASE64: asked.answer = stilt_base64((const char *)asked.read, n, written, m); break;
    case TYPED: asked.answer = stilt_typed((const char *)asked.read, n, written, m); break;
    default: asked.answer = nothing(read, n, written, m); break;
    }
}

#ifdef OVER_WASM

static size_t depth(uint8_t paint)
{
    (void)paint;
    make_call();
    return (size_t)wasm_depth;
}

#else

/* On x86-64 a call puts its return address on the stack, also that of `nothing`. */
#ifdef __x86_64__
#define RETURN_ADDRESS 8
#else
#define RETURN_ADDRESS 0
#endif

static uint8_t stack[1 << 18];

/* How much of the stack is unpainted from its upper end on, once the call has been made on it. */
static size_t unpainted(uint8_t paint)
{
    static ucontext_t here, there;
    size_t at = 0;
    memset(stack, paint, sizeof stack);
    getcontext(&there);
    there.uc_stack.ss_sp = stack;
    there.uc_stack.ss_size = sizeof stack;
    there.uc_link = &here;
    makecontext(&there, make_call, 0);
    swapcontext(&here, &there);
    while (stack[at] == paint)
        at++;
    return sizeof stack - at;
}

/* What the call needs beyond what is around it. */
static size_t depth(uint8_t paint)
{
    enum which which = asked.which;
    size_t around, with;
    asked.which = NOTHING;
    around = unpainted(paint);
    asked.which = which;
    with = unpainted(paint);
    return with - around + RETURN_ADDRESS;
}

#endif

/* Makes the call with each paint, on the same bytes, and keeps how deep it went at most. */
static void measure(enum which which, const void *read, size_t read_len, uint8_t *written, size_t written_len, uint64_t answer)
{
    static uint8_t was[STILT_COLLECTION_SIZE];
    const uint8_t paints[] = {0xA5, 0x5A};
    memcpy(was, written, written_len);
    for (int i = 0; i < 2; i++) {
        size_t deep;
        memcpy(written, was, written_len);
        asked.which = which;
        asked.read = read;
        asked.read_len = read_len;
        asked.written = written;
        asked.written_len = written_len;
        deep = depth(paints[i]);
        if (deep > most[which])
            most[which] = deep;
        if (asked.answer != answer) {
            printf("FAILED  %s answers %llx\n", NAMES[which], (unsigned long long)asked.answer);
            exit(EXIT_FAILURE);
        }
    }
}

static uint8_t odd[STILT_COLLECTION_SIZE], even[STILT_COLLECTION_SIZE], none[STILT_COLLECTION_SIZE];

static void offer(uint8_t *c, const uint8_t *frame, unsigned stands)
{
    measure(OFFER, frame, STILT_FRAME_MOST, c, STILT_COLLECTION_SIZE, (uint64_t)stands << 8);
}

static void join(uint8_t *into, const uint8_t *from)
{
    measure(JOIN, from, STILT_COLLECTION_SIZE, into, STILT_COLLECTION_SIZE, 0);
}

int main(void)
{
    static uint8_t out[STILT_CIPHERTEXT_MOST];
    measure(OPEN, LARGE_ID, sizeof LARGE_ID, none, sizeof none, 0);
    memcpy(odd, none, sizeof odd);
    memcpy(even, none, sizeof even);
    for (int page = 0; page < STILT_PAGES; page++)
        offer(page % 2 ? odd : even, FRAME(page), STILT_HELD);
    offer(odd, FRAME(1), STILT_HELD);
    join(odd, even);
    join(odd, even);
    join(none, odd);
    measure(FINISH, odd, sizeof odd, out, sizeof out, (uint64_t)sizeof out << 16);
    measure(STATUS, odd, sizeof odd, out, STILT_PAGES, (uint64_t)STILT_PAGES << 16 | (uint64_t)STILT_PAGES << 24);
    measure(READ_FRAME, FRAME(95), STILT_FRAME_MOST, out, STILT_ID_SIZE, (uint64_t)STILT_MAIN << 24 | (uint64_t)STILT_PAGES << 16 | 95 << 8);
    measure(BASE64, LARGE_TEXT, strlen(LARGE_TEXT), out, STILT_FRAME_MOST, (uint64_t)STILT_FRAME_MOST << 16);
    measure(TYPED, LARGE_TYPED, strlen(LARGE_TYPED), out, STILT_FRAME_MOST, (uint64_t)STILT_FRAME_MOST << 16);
    measure(TYPED, LARGE_MISTYPED, strlen(LARGE_MISTYPED), out, STILT_FRAME_MOST, STILT_LINES << 8 | STILT_E_MISTYPED);
    offer(odd, LARGE_AGAIN, STILT_DISPUTED);
    join(none, odd);
    offer(odd, LARGE_OTHER, STILT_DISAGREE);
    join(none, odd);
    for (int i = 0; i < FUNCTIONS; i++)
        printf("%s %zu\n", NAMES[i], most[i]);
    return EXIT_SUCCESS;
}
