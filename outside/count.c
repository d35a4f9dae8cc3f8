/* A plugin for Debian's qemu-user, whose header no package has: counts the instructions that a program executes. */
#include <inttypes.h>
#include <stdbool.h>
#include <stddef.h>
#include <stdio.h>
#include <stdlib.h>

typedef uint64_t qemu_plugin_id_t;
struct qemu_info_t;
struct qemu_plugin_tb;
struct qemu_plugin_insn;
enum qemu_plugin_op { QEMU_PLUGIN_INLINE_ADD_U64 };

void qemu_plugin_register_vcpu_tb_trans_cb(qemu_plugin_id_t, void (*)(qemu_plugin_id_t, struct qemu_plugin_tb *));
void qemu_plugin_register_vcpu_tb_exec_inline(struct qemu_plugin_tb *, enum qemu_plugin_op, void *, uint64_t);
size_t qemu_plugin_tb_n_insns(const struct qemu_plugin_tb *);
struct qemu_plugin_insn *qemu_plugin_tb_get_insn(const struct qemu_plugin_tb *, size_t);
uint64_t qemu_plugin_insn_vaddr(const struct qemu_plugin_insn *);
size_t qemu_plugin_insn_size(const struct qemu_plugin_insn *);
void qemu_plugin_register_atexit_cb(qemu_plugin_id_t, void (*)(qemu_plugin_id_t, void *), void *);

int qemu_plugin_version = 1;

enum { PAGE = 4096 };

/* A block of instructions, and how often it was run. An instruction across two pages is listed twice: last in the block before it,
 * where it is not executed, and first in a block of its own. */
struct block {
    uint64_t runs, instructions, first, last;
    bool across;
    struct block *next;
};

static struct block *blocks;

static void translated(qemu_plugin_id_t id, struct qemu_plugin_tb *block)
{
    (void)id;
    struct block *b = calloc(1, sizeof *b);
    if (b == NULL)
        abort();
    b->instructions = qemu_plugin_tb_n_insns(block);
    const struct qemu_plugin_insn *first = qemu_plugin_tb_get_insn(block, 0);
    b->first = qemu_plugin_insn_vaddr(first);
    b->last = qemu_plugin_insn_vaddr(qemu_plugin_tb_get_insn(block, b->instructions - 1));
    b->across = b->first / PAGE != (b->first + qemu_plugin_insn_size(first) - 1) / PAGE;
    b->next = blocks;
    blocks = b;
    qemu_plugin_register_vcpu_tb_exec_inline(block, QEMU_PLUGIN_INLINE_ADD_U64, &b->runs, 1);
}

/* Whether the block's last instruction is one across two pages, and so was executed in a block of its own. */
static bool ends_across(const struct block *b)
{
    if (b->instructions < 2 || b->last / PAGE == (b->last + 15) / PAGE)
        return false;
    for (const struct block *other = blocks; other != NULL; other = other->next)
        if (other->across && other->first == b->last)
            return true;
    return false;
}

static void ended(qemu_plugin_id_t id, void *data)
{
    (void)id, (void)data;
    uint64_t executed = 0;
    for (const struct block *b = blocks; b != NULL; b = b->next)
        executed += b->runs * (b->instructions - ends_across(b));
    fprintf(stderr, "Collected : %" PRIu64 "\n", executed);
}

int qemu_plugin_install(qemu_plugin_id_t id, const struct qemu_info_t *info, int argc, char **argv)
{
    (void)info, (void)argc, (void)argv;
    qemu_plugin_register_vcpu_tb_trans_cb(id, translated);
    qemu_plugin_register_atexit_cb(id, ended, NULL);
    return 0;
}
