/* A plugin for qemu 7.2 or later: how often each instruction was executed, a line "ADDRESS TIMES" each, to the file that
 * COUNTS names. Debian ships no header for plugins, so what is used of it is declared here. */
#include <stddef.h>
#include <stdint.h>
#include <stdio.h>
#include <stdlib.h>

struct qemu_plugin_tb;
struct qemu_plugin_insn;
struct qemu_info;
typedef uint64_t qemu_plugin_id_t;
extern void qemu_plugin_register_vcpu_tb_trans_cb(qemu_plugin_id_t, void (*)(qemu_plugin_id_t, struct qemu_plugin_tb *));
extern size_t qemu_plugin_tb_n_insns(const struct qemu_plugin_tb *);
extern struct qemu_plugin_insn *qemu_plugin_tb_get_insn(const struct qemu_plugin_tb *, size_t);
extern uint64_t qemu_plugin_insn_vaddr(const struct qemu_plugin_insn *);
extern void qemu_plugin_register_vcpu_insn_exec_inline(struct qemu_plugin_insn *, int, void *, uint64_t);
extern void qemu_plugin_register_atexit_cb(qemu_plugin_id_t, void (*)(qemu_plugin_id_t, void *), void *);

#define OPEN_TO_QEMU __attribute__((visibility("default")))
#define ADD 0 /* QEMU_PLUGIN_INLINE_ADD_U64 */
OPEN_TO_QEMU int qemu_plugin_version = 1;

/* One count for every half word of a megabyte of code; an instruction begins at an even address. The boards have their
 * code at a whole megabyte. */
static uint64_t times[1 << 19];
#define PLACE(address) ((address) / 2 % (sizeof times / sizeof times[0]))

static void translated(qemu_plugin_id_t id, struct qemu_plugin_tb *block) {
    (void)id;
    for (size_t i = 0; i < qemu_plugin_tb_n_insns(block); i++) {
        struct qemu_plugin_insn *instruction = qemu_plugin_tb_get_insn(block, i);
        uint64_t *place = &times[PLACE(qemu_plugin_insn_vaddr(instruction))];
        qemu_plugin_register_vcpu_insn_exec_inline(instruction, ADD, place, 1);
    }
}

static void finished(qemu_plugin_id_t id, void *nothing) {
    FILE *file = fopen(getenv("COUNTS"), "w");
    (void)id, (void)nothing;
    for (size_t i = 0; i < sizeof times / sizeof times[0]; i++)
        if (times[i] != 0)
            fprintf(file, "%zx %llu\n", 2 * i, (unsigned long long)times[i]);
    fclose(file);
}

OPEN_TO_QEMU int qemu_plugin_install(qemu_plugin_id_t id, const struct qemu_info *info, int count, char **words) {
    (void)info, (void)count, (void)words;
    qemu_plugin_register_vcpu_tb_trans_cb(id, translated);
    qemu_plugin_register_atexit_cb(id, finished, NULL);
    return 0;
}
