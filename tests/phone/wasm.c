/*
 * The phone's eight functions over phone.wasm, so that a test that is written in C calls
 * WebAssembly: each call goes through a pipe to node, which runs tests/phone/serve.mjs. It stands
 * in for libphone.a, and the test is run from the top of the tree.
 *
 * What goes out is which function, the two lengths and the bytes of both slices; what comes back is
 * the answer's parts as JavaScript read them, how deep the stack was, and the slice that the
 * function may write.
 */
#include <stdio.h>
#include <stdlib.h>
#include <unistd.h>

#include "stiltbasket.h"
#include "wasm.h"

uint64_t wasm_depth;

static FILE *to, *from;

static void give_up(const char *why)
{
    fprintf(stderr, "wasm.c: %s\n", why);
    exit(EXIT_FAILURE);
}

static void start(void)
{
    int there[2], back[2];
    if (pipe(there) != 0 || pipe(back) != 0)
        give_up("no pipe");
    pid_t child = fork();
    if (child < 0)
        give_up("no child");
    if (child == 0) {
        dup2(there[0], 0);
        dup2(back[1], 1);
        close(there[1]);
        close(back[0]);
        execlp("node", "node", "tests/phone/serve.mjs", (char *)NULL);
        _exit(127);
    }
    close(there[0]);
    close(back[1]);
    to = fdopen(there[1], "wb");
    from = fdopen(back[0], "rb");
    if (!to || !from)
        give_up("no stream");
}

static void send(const void *bytes, size_t len)
{
    if (len > 0 && fwrite(bytes, len, 1, to) != 1)
        give_up("node takes no more");
}

static void receive(void *bytes, size_t len)
{
    if (len > 0 && fread(bytes, len, 1, from) != 1)
        give_up("node has ended");
}

/* Numbers go as eight bytes, the lowest first: both ends are on this machine, x86-64 or Arm. */
struct parts {
    uint64_t number, place, count, total, type, held, missing, disputed, depth;
};

/* JavaScript must read from an answer what the header's functions read from it. */
static uint64_t answer_of(const struct parts *p)
{
    uint64_t answer = p->number | p->place << 8 | p->count << 16;
    if (p->number != stilt_number(answer) || p->place != stilt_place(answer)
        || p->count != stilt_count(answer) || p->total != stilt_total(answer)
        || p->type != stilt_type(answer) || p->held != stilt_held(answer)
        || p->missing != stilt_missing(answer) || p->disputed != stilt_disputed(answer))
        give_up("the parts of an answer are not what the header reads from it");
    return answer;
}

static uint64_t call(uint64_t which, const void *first, size_t first_len, const void *second,
    size_t second_len, void *written, size_t written_len)
{
    uint64_t head[3] = {which, first_len, second_len};
    struct parts parts;
    if (!to)
        start();
    send(head, sizeof head);
    send(first, first_len);
    send(second, second_len);
    fflush(to);
    receive(&parts, sizeof parts);
    receive(written, written_len);
    wasm_depth = parts.depth;
    return answer_of(&parts);
}

uint64_t stilt_open(const uint8_t *id, size_t id_len, uint8_t *collection, size_t len)
{
    return call(0, id, id_len, collection, len, collection, len);
}

uint64_t stilt_offer(uint8_t *collection, size_t len, const uint8_t *frame, size_t frame_len)
{
    return call(1, collection, len, frame, frame_len, collection, len);
}

uint64_t stilt_join(uint8_t *into, size_t into_len, const uint8_t *other, size_t other_len)
{
    return call(2, into, into_len, other, other_len, into, into_len);
}

uint64_t stilt_finish(const uint8_t *collection, size_t len, uint8_t *out, size_t out_len)
{
    return call(3, collection, len, out, out_len, out, out_len);
}

uint64_t stilt_status(const uint8_t *collection, size_t len, uint8_t *pages, size_t pages_len)
{
    return call(4, collection, len, pages, pages_len, pages, pages_len);
}

uint64_t stilt_frame(const uint8_t *frame, size_t frame_len, uint8_t *id, size_t id_len)
{
    return call(5, frame, frame_len, id, id_len, id, id_len);
}

uint64_t stilt_base64(const char *text, size_t text_len, uint8_t *out, size_t out_len)
{
    return call(6, text, text_len, out, out_len, out, out_len);
}

uint64_t stilt_typed(const char *text, size_t text_len, uint8_t *out, size_t out_len)
{
    return call(7, text, text_len, out, out_len, out, out_len);
}
