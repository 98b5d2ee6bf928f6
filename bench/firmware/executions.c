/*
 * A plugin for the emulator QEMU: how often the instruction at each address of the flash was executed. Arguments: mark=ADDRESS, the
 * address of the function mark of measure.c; out=PATH. Whenever mark is executed, the counts so far go to PATH.0, PATH.1 and so on, and
 * start again from zero.
 */
#include <inttypes.h>
#include <stddef.h>
#include <stdint.h>
#include <stdio.h>
#include <stdlib.h>
#include <string.h>

/* What is used of QEMU's plugin interface, version 1: its header is in no package. */
struct qemu_plugin_tb;
struct qemu_plugin_insn;
size_t qemu_plugin_tb_n_insns(const struct qemu_plugin_tb *tb);
struct qemu_plugin_insn *qemu_plugin_tb_get_insn(const struct qemu_plugin_tb *tb, size_t index);
uint64_t qemu_plugin_insn_vaddr(const struct qemu_plugin_insn *insn);
void qemu_plugin_register_vcpu_tb_trans_cb(uint64_t id, void (*translated)(uint64_t id, struct qemu_plugin_tb *tb));
void qemu_plugin_register_vcpu_insn_exec_inline(struct qemu_plugin_insn *insn, int operation, void *count, uint64_t add);
void qemu_plugin_register_vcpu_insn_exec_cb(struct qemu_plugin_insn *insn, void (*executed)(unsigned cpu, void *data), int flags, void *data);
enum { INLINE_ADD = 0, NO_REGISTERS = 0 };

int qemu_plugin_version = 1;

enum { FLASH = 1 << 20 };
static uint64_t executed[FLASH / 2], mark;
static const char *out;
static int written;

static void write_counts(unsigned cpu, void *data)
{
    char path[4096];
    (void)cpu, (void)data;
    snprintf(path, sizeof path, "%s.%d", out, written++);
    FILE *file = fopen(path, "w");
    if (!file) exit(2);
    for (size_t i = 0; i < FLASH / 2; i++)
        if (executed[i] > 0) fprintf(file, "%zx %" PRIu64 "\n", 2 * i, executed[i]);
    fclose(file);
    memset(executed, 0, sizeof executed);
}

static void count_block(uint64_t id, struct qemu_plugin_tb *block)
{
    (void)id;
    for (size_t i = 0; i < qemu_plugin_tb_n_insns(block); i++) {
        struct qemu_plugin_insn *insn = qemu_plugin_tb_get_insn(block, i);
        uint64_t address = qemu_plugin_insn_vaddr(insn);
        if (address == mark) qemu_plugin_register_vcpu_insn_exec_cb(insn, write_counts, NO_REGISTERS, 0);
        if (address < FLASH) qemu_plugin_register_vcpu_insn_exec_inline(insn, INLINE_ADD, &executed[address / 2], 1);
    }
}

int qemu_plugin_install(uint64_t id, const void *info, int words, char **word)
{
    (void)info;
    for (int i = 0; i < words; i++) {
        if (strncmp(word[i], "mark=", 5) == 0) mark = strtoull(word[i] + 5, 0, 0);
        if (strncmp(word[i], "out=", 4) == 0) out = strdup(word[i] + 4);
    }
    if (!mark || !out) return 1;
    qemu_plugin_register_vcpu_tb_trans_cb(id, count_block);
    return 0;
}
