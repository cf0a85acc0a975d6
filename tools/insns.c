/* Counts the instructions that a program executes under qemu's user emulation, since that number, unlike a
   time, comes out the same in every run. Prints `insns N` on standard error when the program ends.

   The plugin interface is declared here by hand, because the package that holds the emulator has no header.
   Only calls that every version of the interface has are used; a newer emulator wants a higher number. */

#include <inttypes.h>
#include <stddef.h>
#include <stdint.h>
#include <stdio.h>

#ifndef INTERFACE
#define INTERFACE 1
#endif

#define VISIBLE __attribute__((visibility("default")))

struct qemu_plugin_tb;
typedef uint64_t plugin_id;
typedef void on_block_made(plugin_id id, struct qemu_plugin_tb *block);
typedef void on_block_run(unsigned int cpu, void *with);
typedef void on_end(plugin_id id, void *with);

size_t qemu_plugin_tb_n_insns(const struct qemu_plugin_tb *block);
void qemu_plugin_register_vcpu_tb_trans_cb(plugin_id id, on_block_made *call);
void qemu_plugin_register_vcpu_tb_exec_cb(struct qemu_plugin_tb *block, on_block_run *call, int registers, void *with);
void qemu_plugin_register_atexit_cb(plugin_id id, on_end *call, void *with);
void qemu_plugin_outs(const char *text);

VISIBLE int qemu_plugin_version = INTERFACE;

static uint64_t executed;

/* The block's length travels in the pointer, so that no memory has to be kept for it. */
static void block_run(unsigned int cpu, void *length) {
    (void)cpu;
    executed += (uintptr_t)length;
}

static void block_made(plugin_id id, struct qemu_plugin_tb *block) {
    (void)id;
    qemu_plugin_register_vcpu_tb_exec_cb(block, block_run, 0, (void *)qemu_plugin_tb_n_insns(block));
}

static void end(plugin_id id, void *with) {
    char text[40];
    (void)id;
    (void)with;
    snprintf(text, sizeof text, "insns %" PRIu64 "\n", executed);
    qemu_plugin_outs(text);
}

VISIBLE int qemu_plugin_install(plugin_id id, const void *about, int count, char **words) {
    (void)about;
    (void)count;
    (void)words;
    qemu_plugin_register_vcpu_tb_trans_cb(id, block_made);
    qemu_plugin_register_atexit_cb(id, end, NULL);
    return 0;
}
