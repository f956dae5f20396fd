// A plugin for qemu's user emulation (Debian 12 has 7.2): counts the instructions that a program executes.
// Words: total=FILE is written at the end; blocks=FILE, if given, has a line "address instructions times" for each block that was run.
// Debian packages no header for plugins, so what is used of it is declared here.
#include <inttypes.h>
#include <stddef.h>
#include <stdio.h>
#include <stdlib.h>
#include <string.h>

typedef uint64_t plugin_id;
struct qemu_plugin_tb;
typedef void (*translated)(plugin_id, struct qemu_plugin_tb *);
typedef void (*ended)(plugin_id, void *);

void qemu_plugin_register_vcpu_tb_trans_cb(plugin_id, translated);
void qemu_plugin_register_atexit_cb(plugin_id, ended, void *);
void qemu_plugin_register_vcpu_tb_exec_inline(struct qemu_plugin_tb *, int add, void *, uint64_t);
size_t qemu_plugin_tb_n_insns(const struct qemu_plugin_tb *);
uint64_t qemu_plugin_tb_vaddr(const struct qemu_plugin_tb *);

struct block {
    uint64_t address, instructions, times;
    struct block *next;
};

int qemu_plugin_version = 1;
static struct block *blocks;
static const char *total_file, *blocks_file;

static void count_block(plugin_id id, struct qemu_plugin_tb *tb)
{
    struct block *b = calloc(1, sizeof *b);
    b->address = qemu_plugin_tb_vaddr(tb);
    b->instructions = qemu_plugin_tb_n_insns(tb);
    b->next = blocks;
    blocks = b;
    qemu_plugin_register_vcpu_tb_exec_inline(tb, 0, &b->times, 1);
}

static void write_counts(plugin_id id, void *nothing)
{
    uint64_t total = 0;
    FILE *f = blocks_file ? fopen(blocks_file, "w") : NULL;
    for (struct block *b = blocks; b; b = b->next) {
        total += b->instructions * b->times;
        if (f && b->times)
            fprintf(f, "%" PRIx64 " %" PRIu64 " %" PRIu64 "\n", b->address, b->instructions, b->times);
    }
    if (f)
        fclose(f);
    f = fopen(total_file, "w");
    if (f) {
        fprintf(f, "%" PRIu64 "\n", total);
        fclose(f);
    }
}

int qemu_plugin_install(plugin_id id, const void *info, int count, char **words)
{
    for (int i = 0; i < count; i++) {
        if (!strncmp(words[i], "total=", 6))
            total_file = strdup(words[i] + 6);
        if (!strncmp(words[i], "blocks=", 7))
            blocks_file = strdup(words[i] + 7);
    }
    if (!total_file)
        return 1;
    qemu_plugin_register_vcpu_tb_trans_cb(id, count_block);
    qemu_plugin_register_atexit_cb(id, write_counts, NULL);
    return 0;
}
