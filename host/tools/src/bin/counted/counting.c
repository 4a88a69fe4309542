/* A plugin of qemu's user emulation for arm-count: it counts the instructions that the emulated program executes, and writes
 * their number to standard error at its end. Debian 12 has no package with qemu's header for plugins: what is used of it
 * is written down here, as qemu 7.2 has it. */
#include <stddef.h>
#include <stdint.h>
#include <stdio.h>

typedef uint64_t plugin;
struct block;
struct instruction;
typedef void on_block(plugin id, struct block *block);
typedef void on_end(plugin id, void *data);
void qemu_plugin_register_vcpu_tb_trans_cb(plugin id, on_block *call);
void qemu_plugin_register_vcpu_insn_exec_inline(struct instruction *instruction, int operation, void *number, uint64_t operand);
void qemu_plugin_register_atexit_cb(plugin id, on_end *call, void *data);
size_t qemu_plugin_tb_n_insns(const struct block *block);
struct instruction *qemu_plugin_tb_get_insn(const struct block *block, size_t place);
enum { ADD = 0 };

/* The version of the interface. */
int qemu_plugin_version = 1;

static uint64_t instructions;

/* Each by itself: for x86-64 qemu 7.2 tells one instruction too many of some blocks that end where a page does. */
static void translated(plugin id, struct block *block)
{
    (void)id;
    for (size_t place = 0; place < qemu_plugin_tb_n_insns(block); place++)
        qemu_plugin_register_vcpu_insn_exec_inline(qemu_plugin_tb_get_insn(block, place), ADD, &instructions, 1);
}

static void ended(plugin id, void *data)
{
    (void)id;
    (void)data;
    fprintf(stderr, "%llu\n", (unsigned long long)instructions);
}

int qemu_plugin_install(plugin id, const void *about, int count_of_words, char **words)
{
    (void)about;
    (void)count_of_words;
    (void)words;
    qemu_plugin_register_vcpu_tb_trans_cb(id, translated);
    qemu_plugin_register_atexit_cb(id, ended, NULL);
    return 0;
}
