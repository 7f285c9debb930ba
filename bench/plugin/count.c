/* Counts the instructions that an emulated program executes, and tells the count on standard error at its end. */
#include <inttypes.h>
#include <stddef.h>
#include <stdio.h>

/* What is used of the emulator's plugin interface, version 1. */
typedef uint64_t plugin;
struct block;
struct instruction;
typedef void (*on_block)(plugin, struct block *);
typedef void (*on_end)(plugin, void *);
void qemu_plugin_register_vcpu_tb_trans_cb(plugin, on_block);
size_t qemu_plugin_tb_n_insns(const struct block *);
struct instruction *qemu_plugin_tb_get_insn(const struct block *, size_t place);
void qemu_plugin_register_vcpu_insn_exec_inline(struct instruction *, int add, void *counter, uint64_t amount);
void qemu_plugin_register_atexit_cb(plugin, on_end, void *);

int qemu_plugin_version = 1;
static uint64_t instructions;

/* Each time an instruction is executed, one is added. The number of a block's instructions would not do: before an instruction that lies
 * on two pages it is one too high. */
static void block_translated(plugin id, struct block *block) {
    (void)id;
    for (size_t place = 0; place < qemu_plugin_tb_n_insns(block); place++)
        qemu_plugin_register_vcpu_insn_exec_inline(qemu_plugin_tb_get_insn(block, place), 0, &instructions, 1);
}

/* Tells the count. */
static void program_ended(plugin id, void *data) {
    (void)id;
    (void)data;
    fprintf(stderr, "%" PRIu64 "\n", instructions);
}

/* The emulator calls this when it loads the plugin. */
int qemu_plugin_install(plugin id, const void *info, int count, char **arguments) {
    (void)info;
    (void)count;
    (void)arguments;
    qemu_plugin_register_vcpu_tb_trans_cb(id, block_translated);
    qemu_plugin_register_atexit_cb(id, program_ended, NULL);
    return 0;
}
