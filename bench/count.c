/*
 * A plugin for qemu-user that counts the instructions of the emulated program and prints
 * `instructions N` to standard error at its end. Debian's qemu-user takes plugins and does not ship
 * their header, so the few functions used are declared here; they are the same in every version of
 * the interface, of which bench/counting.py tries one after the other (API).
 *
 * A string instruction with a repeat prefix is translated as a block that jumps to itself; it
 * counts once, as perf counts it.
 */
#include <inttypes.h>
#include <stddef.h>
#include <stdint.h>
#include <stdio.h>
#include <stdlib.h>

struct qemu_plugin_tb;
struct qemu_plugin_insn;

void qemu_plugin_register_vcpu_tb_trans_cb(uint64_t id, void (*made)(uint64_t id, struct qemu_plugin_tb *tb));
void qemu_plugin_register_vcpu_tb_exec_cb(struct qemu_plugin_tb *tb, void (*ran)(unsigned cpu, void *data), int flags, void *data);
void qemu_plugin_register_atexit_cb(uint64_t id, void (*ended)(uint64_t id, void *data), void *data);
size_t qemu_plugin_tb_n_insns(const struct qemu_plugin_tb *tb);
struct qemu_plugin_insn *qemu_plugin_tb_get_insn(const struct qemu_plugin_tb *tb, size_t index);
uint64_t qemu_plugin_insn_vaddr(const struct qemu_plugin_insn *insn);

int qemu_plugin_version = API;

struct block {
    uint64_t count;
    uint64_t first, last; /* where its first and its last instruction stand */
};

static uint64_t total, last_run;

static void ran(unsigned cpu, void *data)
{
    const struct block *b = data;

    (void)cpu;
    total += b->count - (b->first == last_run);
    last_run = b->last;
}

static void made(uint64_t id, struct qemu_plugin_tb *tb)
{
    struct block *b = malloc(sizeof *b);

    (void)id;
    if (!b)
        exit(3);
    b->count = qemu_plugin_tb_n_insns(tb);
    b->first = qemu_plugin_insn_vaddr(qemu_plugin_tb_get_insn(tb, 0));
    b->last = qemu_plugin_insn_vaddr(qemu_plugin_tb_get_insn(tb, b->count - 1));
    qemu_plugin_register_vcpu_tb_exec_cb(tb, ran, 0, b);
}

static void ended(uint64_t id, void *data)
{
    (void)id;
    (void)data;
    fprintf(stderr, "instructions %" PRIu64 "\n", total);
}

int qemu_plugin_install(uint64_t id, const void *info, int count, char **words)
{
    (void)info;
    (void)count;
    (void)words;
    qemu_plugin_register_vcpu_tb_trans_cb(id, made);
    qemu_plugin_register_atexit_cb(id, ended, NULL);
    return 0;
}
