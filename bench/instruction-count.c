// Counts the guest instructions that a program executes under qemu's user emulation.
// Built and used by the scripts count and where beside it. With COUNTS=FILE in the environment it writes there, for each
// instruction that was met, its address and how often it was executed.
#include <inttypes.h>
#include <stddef.h>
#include <stdint.h>
#include <stdio.h>
#include <stdlib.h>

typedef uint64_t qemu_plugin_id_t;
struct qemu_plugin_tb;
struct qemu_plugin_insn;
enum qemu_plugin_op { QEMU_PLUGIN_INLINE_ADD_U64 };
typedef void (*tb_trans_cb)(qemu_plugin_id_t, struct qemu_plugin_tb *);
typedef void (*udata_cb)(qemu_plugin_id_t, void *);
extern void qemu_plugin_register_vcpu_tb_trans_cb(qemu_plugin_id_t, tb_trans_cb);
extern void qemu_plugin_register_vcpu_tb_exec_inline(struct qemu_plugin_tb *, enum qemu_plugin_op, void *, uint64_t);
extern size_t qemu_plugin_tb_n_insns(const struct qemu_plugin_tb *);
extern struct qemu_plugin_insn *qemu_plugin_tb_get_insn(const struct qemu_plugin_tb *, size_t);
extern uint64_t qemu_plugin_insn_vaddr(const struct qemu_plugin_insn *);
extern void qemu_plugin_register_atexit_cb(qemu_plugin_id_t, udata_cb, void *);

__attribute__((visibility("default"))) int qemu_plugin_version = 1;

// A block of instructions without a jump into its middle, and how often it was executed.
struct block {
    struct block *next;
    uint64_t runs;
    size_t length;
    uint64_t address[];
};

static struct block *blocks;

static void on_block(qemu_plugin_id_t id, struct qemu_plugin_tb *tb) {
    (void)id;
    size_t length = qemu_plugin_tb_n_insns(tb);
    struct block *block = malloc(sizeof *block + length * sizeof block->address[0]);
    if (!block)
        abort();
    block->next = blocks;
    block->runs = 0;
    block->length = length;
    for (size_t i = 0; i < length; i++)
        block->address[i] = qemu_plugin_insn_vaddr(qemu_plugin_tb_get_insn(tb, i));
    blocks = block;
    qemu_plugin_register_vcpu_tb_exec_inline(tb, QEMU_PLUGIN_INLINE_ADD_U64, &block->runs, 1);
}

static void on_exit_(qemu_plugin_id_t id, void *p) {
    (void)id; (void)p;
    const char *name = getenv("COUNTS");
    FILE *counts = name ? fopen(name, "w") : NULL;
    uint64_t count = 0;
    for (struct block *block = blocks; block; block = block->next) {
        count += block->runs * block->length;
        for (size_t i = 0; counts && i < block->length; i++)
            fprintf(counts, "%" PRIx64 " %" PRIu64 "\n", block->address[i], block->runs);
    }
    if (counts)
        fclose(counts);
    fprintf(stderr, "instructions %" PRIu64 "\n", count);
}

__attribute__((visibility("default"))) int qemu_plugin_install(qemu_plugin_id_t id, const void *info, int argc, char **argv) {
    (void)info; (void)argc; (void)argv;
    qemu_plugin_register_vcpu_tb_trans_cb(id, on_block);
    qemu_plugin_register_atexit_cb(id, on_exit_, 0);
    return 0;
}
