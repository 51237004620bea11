// A plugin of the emulator qemu-x86_64 that counts the instructions that a program runs between two marks. A mark is the instruction xchg %rbx, %rbx, which does
// nothing and which callgrind takes for a request too: bench.rs makes one before a round and one behind it. The declarations are those of qemu's plugin interface 1.
#include <stddef.h>
#include <stdint.h>
#include <stdio.h>
#include <string.h>

typedef uint64_t plugin_id;
struct block;
struct instruction;
enum when { NO_REGISTERS };
enum inline_operation { ADD };
typedef void (*block_made)(plugin_id id, struct block *block);
typedef void (*was_run)(unsigned processor, void *data);
typedef void (*at_exit)(plugin_id id, void *data);

void qemu_plugin_register_vcpu_tb_trans_cb(plugin_id id, block_made made);
size_t qemu_plugin_tb_n_insns(const struct block *block);
struct instruction *qemu_plugin_tb_get_insn(const struct block *block, size_t index);
const void *qemu_plugin_insn_data(const struct instruction *instruction);
size_t qemu_plugin_insn_size(const struct instruction *instruction);
void qemu_plugin_register_vcpu_insn_exec_inline(struct instruction *instruction, enum inline_operation operation, void *number, uint64_t by);
void qemu_plugin_register_vcpu_insn_exec_cb(struct instruction *instruction, was_run run, enum when when, void *data);
void qemu_plugin_register_atexit_cb(plugin_id id, at_exit ended, void *data);

__attribute__((visibility("default"))) int qemu_plugin_version = 1;

static uint64_t count, first, last;
static unsigned marks;

static void marked(unsigned processor, void *data) {
    (void)processor;
    (void)data;
    if (marks == 0) first = count;
    last = count;
    marks++;
}

static void made(plugin_id id, struct block *block) {
    (void)id;
    for (size_t i = 0; i < qemu_plugin_tb_n_insns(block); i++) {
        struct instruction *instruction = qemu_plugin_tb_get_insn(block, i);
        qemu_plugin_register_vcpu_insn_exec_inline(instruction, ADD, &count, 1);
        if (qemu_plugin_insn_size(instruction) == 3 && memcmp(qemu_plugin_insn_data(instruction), "\x48\x87\xdb", 3) == 0) {
            qemu_plugin_register_vcpu_insn_exec_cb(instruction, marked, NO_REGISTERS, NULL);
        }
    }
}

static void ended(plugin_id id, void *data) {
    (void)id;
    (void)data;
    fprintf(stderr, "Collected : %llu\n", (unsigned long long)(last - first));
}

__attribute__((visibility("default"))) int qemu_plugin_install(plugin_id id, const void *info, int argc, char **argv) {
    (void)info;
    (void)argc;
    (void)argv;
    qemu_plugin_register_vcpu_tb_trans_cb(id, made);
    qemu_plugin_register_atexit_cb(id, ended, NULL);
    return 0;
}
